//! The tables.

use crate::timing::Times;
use crate::PROVED_BYTES;
use std::fs;
use std::thread;

/// The sides of a measurement, in their order.
const PROVED: usize = 0;
const PLAIN: usize = 1;
const BY_VALUE: usize = 2;
const COPY: usize = 3;
const BARE: usize = 4;
/// From here on the printers again, on an image that they refuse by its header.
const REFUSED: usize = 5;

/// The kind of machine, and the first table's head.
pub fn print_head() {
    let processors = fs::read_to_string("/proc/cpuinfo").unwrap_or_default();
    let model = processors
        .lines()
        .find_map(|line| line.strip_prefix("model name")?.split_once(": "))
        .map_or("unknown processor", |(_, model)| model);
    let cores = thread::available_parallelism().map_or(1, usize::from);
    println!("{model}, {cores} cores.");
    println!("The proved call's time, and its ratios to the plain Rust book's, to the same");
    println!("book's passed by value, and to one copy of the proved book's bytes");
    println!("({PROVED_BYTES}). Postings are records loaded and entries posted.");
    println!();
    println!("| Call | Postings | Proved, µs | ns a posting | / plain | / by value | / copy |");
    println!("|---|---:|---:|---:|---:|---:|---:|");
}

pub fn print_row<const N: usize>(name: &str, postings: usize, times: &Times<N>) {
    let time = times.time(PROVED);
    let each = match postings {
        0 => "-".into(),
        _ => format!("{:.0}", time * 1e3 / postings as f64),
    };
    println!(
        "| {name} | {postings} | {} | {each} | {:.2} | {:.3} | {:.1} |",
        microseconds(time),
        times.ratio(PROVED, PLAIN),
        times.ratio(PROVED, BY_VALUE),
        times.ratio(PROVED, COPY),
    );
}

/// The second table: the printers, and what each takes beyond a process that
/// loads no book: the bare one, and its own on a refused image.
pub fn print_printers<const N: usize>(times: &Times<N>) {
    println!();
    println!("| Process, full image | µs | beyond a bare process | beyond a refused image |");
    println!("|---|---:|---:|---:|");
    let printers = [
        ("proved printer", PROVED),
        ("plain printer", PLAIN),
        ("by-value printer", BY_VALUE),
    ];
    for (name, side) in printers {
        println!(
            "| {name} | {:.0} | {:.0} | {:.0} |",
            times.time(side),
            times.more(side, BARE),
            times.more(side, REFUSED + side),
        );
    }
    println!("| bare process | {:.0} | - | - |", times.time(BARE));
}

/// The third table: what a posting takes, without the load and the save.
pub fn print_postings_head() {
    println!();
    println!("| A posting in a carry-over | Postings | ns | / copy |");
    println!("|---|---:|---:|---:|");
}

/// The sides are the call, the same call with no entries, and a copy.
pub fn print_posting(name: &str, postings: usize, times: &Times<3>) {
    println!(
        "| {name} | {postings} | {:.0} | {:.3} |",
        times.more(0, 1) * 1e3 / postings as f64,
        times.more_in(0, 1, 2) / postings as f64,
    );
}

fn microseconds(time: f64) -> String {
    match time {
        ..99.95 => format!("{time:.1}"),
        _ => format!("{time:.0}"),
    }
}
