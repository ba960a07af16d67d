//! The totals of the calendar years of document 02's request 7, kept beside the
//! entries.

use super::calendar::{year_of, FIRST_YEAR};
use super::*;

/// The totals of a calendar year, over all accounts.
#[derive(Clone, Copy, Debug, Default, PartialEq, Eq)]
pub struct Year {
    /// Sum of standing bills and late charges.
    pub bills: u64,
    /// Sum of standing payments.
    pub payments: u64,
    pub paid_out: u64,
    /// How many entries the year has.
    pub entries: u16,
}

impl Year {
    /// Counts an entry of the year, and what it paid out.
    pub(super) fn post(&mut self, entry: &Entry, paid_out: u64) {
        self.entries += 1;
        self.paid_out += paid_out;
        if let Some(sum) = self.sum_with(entry) {
            *sum += entry.standing;
        }
    }

    /// Counts an entry of the year as it stands after a correction.
    pub(super) fn restate(&mut self, before: &Entry, after: &Entry) {
        if let Some(sum) = self.sum_with(after) {
            *sum += after.standing;
            *sum -= before.standing;
        }
    }

    /// The sum that the entry's standing amount is in.
    fn sum_with(&mut self, entry: &Entry) -> Option<&mut u64> {
        match entry.raw.kind {
            BILL | LATE_CHARGE => Some(&mut self.bills),
            PAYMENT => Some(&mut self.payments),
            _ => None,
        }
    }
}

impl Book {
    /// The totals of a calendar year, which need no look at an entry; zeros
    /// before 2000 and after 2099.
    pub fn year_totals(&self, year: u16) -> Year {
        let place = year.checked_sub(FIRST_YEAR).map(usize::from);
        let kept = place.and_then(|place| self.years.get(place));
        kept.copied().unwrap_or_default()
    }

    /// The totals of the year that a day is in.
    pub(super) fn year_mut(&mut self, day: u16) -> &mut Year {
        &mut self.years[usize::from(year_of(day) - FIRST_YEAR)]
    }
}
