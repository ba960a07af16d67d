//! What the totals of a year are made of.

use crate::entries::named;
use contribution_book::plain::*;
use contribution_book::proved::YearGiven;
use contribution_book::summed::{is_in, Taken};

/// The entries of an accepted image, each with what it paid out.
pub fn taken(entries: &[Raw]) -> Vec<Taken> {
    let mut book = Book::fresh();
    let take = |raw: &Raw| (*raw, book.record(raw).paid_out);
    entries.iter().map(take).collect()
}

/// Those of these entries that paid out.
pub fn paying(entries: &[Raw]) -> Vec<Raw> {
    let taken = taken(entries).into_iter();
    let paying = taken.filter(|(_, paid_out)| *paid_out > 0);
    paying.map(|(raw, _)| raw).collect()
}

/// The corrections among these, each with the entry that it corrects.
pub fn corrections(taken: &[Taken]) -> Vec<(Raw, Raw)> {
    let entries: Vec<Raw> = taken.iter().map(|&(raw, _)| raw).collect();
    let corrections = entries.iter().filter(|raw| raw.kind == CORRECTION);
    corrections
        .filter_map(|raw| Some((*raw, *named(raw, &entries)?)))
        .collect()
}

/// Whether a correction and the entry that it corrects are so.
fn has_correction(taken: &[Taken], is_so: impl Fn(&Raw, &Raw) -> bool) -> bool {
    let mut corrections = corrections(taken).into_iter();
    corrections.any(|(raw, named)| is_so(&raw, &named))
}

/// Whether an entry of the year and what it paid out are so.
fn has_entry(taken: &[Taken], year: u16, is_so: impl Fn(&Raw, u64) -> bool) -> bool {
    let mut of_year = taken.iter().filter(|(raw, _)| is_in(year, raw));
    of_year.any(|(raw, paid_out)| is_so(raw, *paid_out))
}

/// Whether a query of a year meets something in an accepted image.
type Meets = fn(&YearGiven, u16, &[Taken]) -> bool;

/// What queries of a year have to meet. The first and last days are not those of
/// the book.
pub const PARTS: [(&str, Meets); 14] = [
    ("year with bills", |given, _, _| given.bills > 0),
    ("year with payments", |given, _, _| given.payments > 0),
    ("year with late charges", |_, year, taken| {
        has_entry(taken, year, |raw, _| {
            raw.kind == LATE_CHARGE && raw.amount > 0
        })
    }),
    ("year with a refund paid out", |_, year, taken| {
        has_entry(taken, year, |raw, paid_out| {
            raw.kind == ADDED_CUSTOMER && paid_out > 0
        })
    }),
    ("year with a deposit return paid out", |_, year, taken| {
        has_entry(taken, year, |raw, paid_out| {
            raw.kind == DEPOSIT_RETURN && paid_out > 0
        })
    }),
    ("year with a reduction paid out", |_, year, taken| {
        has_entry(taken, year, |raw, paid_out| {
            raw.kind == REDUCTION && paid_out > 0
        })
    }),
    ("year with an entry corrected in it", |_, year, taken| {
        has_correction(taken, |raw, named| is_in(year, raw) && is_in(year, named))
    }),
    (
        "year with an entry corrected in another",
        |_, year, taken| {
            has_correction(taken, |raw, named| !is_in(year, raw) && is_in(year, named))
        },
    ),
    (
        "year with a correction of another's entry",
        |_, year, taken| {
            has_correction(taken, |raw, named| is_in(year, raw) && !is_in(year, named))
        },
    ),
    ("year with an entry on its first day", |_, year, taken| {
        has_entry(taken, year, |raw, _| {
            raw.day > 0 && year_of(raw.day - 1) < year
        })
    }),
    ("year with an entry on its last day", |_, year, taken| {
        has_entry(taken, year, |raw, _| {
            raw.day < LAST_DAY && year_of(raw.day + 1) > year
        })
    }),
    ("year without entries", |given, year, taken| {
        (2000..=2099).contains(&year) && given.entries == 0 && !taken.is_empty()
    }),
    ("year before 2000", |_, year, taken| {
        year < 2000 && !taken.is_empty()
    }),
    ("year after 2099", |_, year, taken| {
        year > 2099 && !taken.is_empty()
    }),
];
