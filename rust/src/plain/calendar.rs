//! Dates from 2000-01-01, day 0, to 2099-12-31, and periods of whole years.

pub(super) const FIRST_YEAR: u16 = 2000;
const LAST_YEAR: u16 = 2099;
/// Days of four years in a row, one of which is a leap year.
const FOUR_YEARS: u16 = 4 * 365 + 1;

/// A date. Its month and day count from 1.
#[derive(Clone, Copy, Debug, PartialEq, Eq)]
pub struct Date {
    pub year: u16,
    pub month: u16,
    pub day: u16,
}

/// The year that a day is in.
pub fn year_of(day: u16) -> u16 {
    year_and_rest(day).0
}

/// The year that a day is in, and the days of that year before it.
fn year_and_rest(day: u16) -> (u16, u16) {
    let mut year = FIRST_YEAR + 4 * (day / FOUR_YEARS);
    let mut rest = day % FOUR_YEARS;
    while rest >= days_of_year(year) {
        rest -= days_of_year(year);
        year += 1;
    }
    (year, rest)
}

/// The date of a day.
pub fn date_of(day: u16) -> Date {
    let (year, mut rest) = year_and_rest(day);
    let mut month = 1;
    while rest >= days_of_month(year, month) {
        rest -= days_of_month(year, month);
        month += 1;
    }
    Date {
        year,
        month,
        day: rest + 1,
    }
}

/// The day that has this date, which is from 2000 to 2099.
pub fn day_of(date: Date) -> u16 {
    let years = date.year - FIRST_YEAR;
    let leap_years = years.div_ceil(4);
    let months = (1..date.month).map(|month| days_of_month(date.year, month));
    365 * years + leap_years + months.sum::<u16>() + date.day - 1
}

/// The same date in another year; 1 March where that is a 29 February in a
/// common year.
fn same_date(date: Date, year: u16) -> Date {
    if (date.month, date.day) == (2, 29) && !is_leap(year) {
        Date {
            year,
            month: 3,
            day: 1,
        }
    } else {
        Date { year, ..date }
    }
}

/// The day on which a period of so many years from this day ends; none where
/// that is after 2099-12-31.
pub fn years_on(start: u16, years: u16) -> Option<u16> {
    let date = date_of(start);
    let end = same_date(date, date.year + years);
    (end.year <= LAST_YEAR).then(|| day_of(end))
}

/// From 2000 to 2099 every fourth year is a leap year.
fn is_leap(year: u16) -> bool {
    year.is_multiple_of(4)
}

fn days_of_year(year: u16) -> u16 {
    if is_leap(year) {
        366
    } else {
        365
    }
}

fn days_of_month(year: u16, month: u16) -> u16 {
    match month {
        2 if is_leap(year) => 29,
        2 => 28,
        4 | 6 | 9 | 11 => 30,
        _ => 31,
    }
}
