//! Times calls of the proved book side by side with the same work of the plain
//! Rust book, of that book passed by value, and with a copy of the proved
//! book's bytes; and the statement printers beside a process without a book.
//! Writes tables in Markdown.

mod books;
mod cases;
mod printers;
mod table;
mod timing;

use books::{Buffers, Caller, CALLERS};
use cases::{Call, Case};
use contribution_book::plain::{ENTRIES, RECORD};
use printers::print;
use std::hint::black_box;
use std::path::Path;
use timing::{measure, Side, Times};

/// Bytes of the proved book.
const PROVED_BYTES: usize = 83_104;

fn main() {
    table::print_head();
    for case in cases::cases() {
        eprintln!("{}", case.name);
        compare(&case);
        table::print_row(case.name, case.postings(), &time_case(&case));
    }
    let name = "statement printer as a process, full image";
    eprintln!("{name}");
    let times = time_printers();
    table::print_row(name, ENTRIES, &times);
    table::print_printers(&times);
    table::print_postings_head();
    for [case, none] in cases::postings() {
        compare(&case);
        table::print_posting(case.name, case.entry_count(), &time_postings(&case, &none));
    }
}

/// Stops unless all books accept the call and every entry of a list, give the
/// same answer and leave the same bytes.
fn compare(case: &Case) {
    let [proved, others @ ..] = CALLERS.map(|call| {
        let mut buffers = Buffers::new();
        (call(case, &mut buffers), buffers)
    });
    for other in others {
        assert_eq!(proved.0, other.0, "{}", case.name);
        assert!(proved.1 == other.1, "{}: the bytes differ", case.name);
    }
    assert_eq!(proved.0.refusal(), 0, "{}", case.name);
    if let Call::CarryOver { entries } = &case.call {
        let results = &proved.1.results[..entries.len() / RECORD];
        assert!(results.iter().all(|&refusal| refusal == 0), "{}", case.name);
    }
}

/// The times of `table`'s sides but the processes.
fn time_case(case: &Case) -> Times<4> {
    let [proved, plain, by_value] = CALLERS.map(|call| side(call, case));
    measure([proved, plain, by_value, copy()])
}

/// The times of the proved book's call, of the same call with no entries, and
/// of a copy.
fn time_postings(case: &Case, none: &Case) -> Times<3> {
    let [proved, ..] = CALLERS;
    measure([side(proved, case), side(proved, none), copy()])
}

fn side(call: Caller, case: &Case) -> Side<'_> {
    let mut buffers = Buffers::new();
    Side::new(move || {
        black_box(call(black_box(case), &mut buffers));
        black_box(&buffers);
    })
}

/// The times of all of `table`'s sides.
fn time_printers() -> Times<8> {
    let image = cases::image(&cases::mixed(ENTRIES));
    let unmarked = [&[0], &image[1..]].concat();
    let [bare, printers @ ..] = printers::programs();
    for image in [&image, &unmarked] {
        let [proved, others @ ..] = printers.each_ref().map(|printer| print(printer, image));
        assert_eq!(others, [&proved[..]; 2], "the printers");
    }
    assert!(print(&bare, &image).is_empty(), "the bare process");
    let [proved, plain, by_value] = printers.each_ref().map(|printer| process(printer, &image));
    let refused = printers
        .each_ref()
        .map(|printer| process(printer, &unmarked));
    let [proved_refused, plain_refused, by_value_refused] = refused;
    measure([
        proved,
        plain,
        by_value,
        copy(),
        process(&bare, &image),
        proved_refused,
        plain_refused,
        by_value_refused,
    ])
}

fn process<'a>(program: &'a Path, image: &'a [u8]) -> Side<'a> {
    Side::new(|| {
        black_box(print(program, image));
    })
}

/// One copy of the proved book's bytes, to the place behind them.
fn copy() -> Side<'static> {
    let mut books = vec![[1u8; PROVED_BYTES]; 2];
    Side::new(move || {
        let (from, to) = black_box(&mut books).split_at_mut(1);
        to.copy_from_slice(from);
    })
}
