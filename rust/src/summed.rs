//! The totals of a calendar year, summed over the entries of a book. What a book
//! keeps of a year is compared with them.

use crate::plain::{year_of, Raw, Year, BILL, CORRECTION, LATE_CHARGE, PAYMENT};

/// An accepted entry, and what it paid out.
pub type Taken = (Raw, u64);

/// The totals of a year of a book that has these entries.
pub fn year_totals(year: u16, taken: &[Taken]) -> Year {
    let mut totals = Year::default();
    for (raw, paid_out) in taken.iter().filter(|(raw, _)| is_in(year, raw)) {
        match raw.kind {
            BILL | LATE_CHARGE => totals.bills += standing(raw, taken),
            PAYMENT => totals.payments += standing(raw, taken),
            _ => {}
        }
        totals.paid_out += paid_out;
        totals.entries += 1;
    }
    totals
}

/// Whether the entry is dated in the year.
pub fn is_in(year: u16, raw: &Raw) -> bool {
    year_of(raw.day) == year
}

pub fn corrects(raw: &Raw, named: &Raw) -> bool {
    let pair = (raw.named_node, raw.named_serial);
    raw.kind == CORRECTION && pair == (named.node, named.serial)
}

/// The standing amount of a bill, a late charge or a payment among these.
fn standing(raw: &Raw, taken: &[Taken]) -> u64 {
    match taken.iter().find(|(other, _)| corrects(other, raw)) {
        Some((correction, _)) => correction.amount.into(),
        None if raw.kind == BILL => billed(raw),
        None => raw.amount.into(),
    }
}

/// A bill's charge for the days served, an exact half to the even cent.
fn billed(raw: &Raw) -> u64 {
    let period = u64::from(raw.a);
    let doubled = 2 * u64::from(raw.amount) * u64::from(raw.b) + period;
    let half_up = doubled / (2 * period);
    let at_half = doubled.is_multiple_of(2 * period);
    half_up - u64::from(at_half && half_up % 2 == 1)
}
