//! Refund periods and the periods of guarantees, and entries at their ends.

use crate::entries::named;
use contribution_book::plain::*;

/// The kinds of entry that a period's end decides on, each with its refusal
/// number.
pub const KINDS: [(u8, u8); 3] = [(ADDED_CUSTOMER, 12), (EXPIRY, 13), (RETENTION, 26)];

/// What a period of five years is like.
#[derive(Clone, Copy, Debug, PartialEq, Eq)]
pub enum Period {
    Days1826,
    Days1827,
    /// From 29 February; it has 1,827 days too.
    LeapDay,
    /// It doesn't end within the book.
    NoEnd,
}

impl Period {
    pub const ALL: [Period; 4] = [
        Period::Days1826,
        Period::Days1827,
        Period::LeapDay,
        Period::NoEnd,
    ];

    /// When an entry comes that is at the period's end, in words.
    pub fn at_end(self) -> &'static str {
        match self {
            Period::Days1826 => "at the end of a period of 1,826 days",
            Period::Days1827 => "at the end of a period of 1,827 days",
            Period::LeapDay => "at the end of a period from 29 February",
            Period::NoEnd => "on 2099-12-31 in a period that doesn't end",
        }
    }

    /// The period from the one day to the other.
    fn between(start: u16, end: Option<u16>) -> Period {
        match end {
            None => Period::NoEnd,
            Some(_) if is_leap_day(start) => Period::LeapDay,
            Some(end) if end - start == 1_826 => Period::Days1826,
            Some(_) => Period::Days1827,
        }
    }
}

pub fn is_leap_day(day: u16) -> bool {
    let date = date_of(day);
    (date.month, date.day) == (2, 29)
}

/// The end of the period from this day that decides on entries of a kind.
pub fn end(kind: u8, start: u16) -> Option<u16> {
    let years = match kind {
        RETENTION => GUARANTEE_YEARS,
        _ => REFUND_YEARS,
    };
    years_on(start, years)
}

/// The day of the entry among these that the entry names.
pub fn start(raw: &Raw, before: &[Raw]) -> Option<u16> {
    named(raw, before).map(|named| named.day)
}

/// The period at whose end an entry comes that is offered after these: on the
/// last day before the end, or on the end itself.
pub fn ending_at(raw: &Raw, before: &[Raw]) -> Option<Period> {
    let start = start(raw, before)?;
    let end = end(raw.kind, start);
    let after = end.unwrap_or(LAST_DAY + 1);
    let at_end = raw.day == after - 1 || raw.day == after;
    at_end.then(|| Period::between(start, end))
}
