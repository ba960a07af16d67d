//! The plain book's calendar against days worked out by hand, and against all
//! dates in their order.

use contribution_book::plain::{date_of, day_of, year_of, years_on, Date, LAST_DAY};

/// Year, month and day of the month.
type Fields = (u16, u16, u16);

/// Every date from 2000 to 2099, in their order.
fn dates() -> Vec<Fields> {
    let mut dates = Vec::new();
    for year in 2000..=2099 {
        let february = if year % 4 == 0 { 29 } else { 28 };
        let months = [31, february, 31, 30, 31, 30, 31, 31, 30, 31, 30, 31];
        for (month, days) in (1..).zip(months) {
            dates.extend((1..=days).map(|day| (year, month, day)));
        }
    }
    dates
}

fn date((year, month, day): Fields) -> Date {
    Date { year, month, day }
}

#[test]
fn days_and_dates_worked_out_by_hand() {
    let figures = [
        (0, (2000, 1, 1)),
        (30, (2000, 1, 31)),
        (31, (2000, 2, 1)),
        (59, (2000, 2, 29)),
        (60, (2000, 3, 1)),
        (100, (2000, 4, 10)),
        (365, (2000, 12, 31)),
        (366, (2001, 1, 1)),
        (424, (2001, 2, 28)),
        (425, (2001, 3, 1)),
        (1_460, (2003, 12, 31)),
        (1_461, (2004, 1, 1)),
        (1_520, (2004, 2, 29)),
        (1_827, (2005, 1, 1)),
        (1_886, (2005, 3, 1)),
        (34_698, (2094, 12, 31)),
        (34_699, (2095, 1, 1)),
        (35_123, (2096, 2, 29)),
        (36_524, (2099, 12, 31)),
    ];
    for (day, fields) in figures {
        assert_eq!(date_of(day), date(fields), "{day}");
        assert_eq!(day_of(date(fields)), day, "{fields:?}");
    }
}

#[test]
fn every_day_has_its_date_and_every_date_its_day() {
    let dates = dates();
    assert_eq!(dates.len(), usize::from(LAST_DAY) + 1);
    for (day, fields) in (0..).zip(dates) {
        assert_eq!(date_of(day), date(fields), "{day}");
        assert_eq!(year_of(day), fields.0, "{day}");
        assert_eq!(day_of(date(fields)), day, "{fields:?}");
    }
}

/// No date is between 28 February and 1 March of a common year, so the first
/// date that is not before 29 February is 1 March there.
#[test]
fn a_period_ends_on_the_first_day_not_before_the_same_date() {
    let dates = dates();
    for (start, &(year, month, day)) in (0..).zip(&dates) {
        for years in 1..=10 {
            let same_date = (year + years, month, day);
            let end = dates.partition_point(|&date| date < same_date) as u16;
            let expected = (end <= LAST_DAY).then_some(end);
            assert_eq!(years_on(start, years), expected, "{start}, {years} years");
        }
    }
}

#[test]
fn five_years_have_1826_or_1827_days() {
    for start in 0..=34_698 {
        let days = years_on(start, 5).map(|end| end - start);
        // From 1 March of the year before a leap year to its 29 February two
        // leap days are in them; day 1,155 is 1 March 2003.
        let two_leap_days = start < 60 || (start - 60) % 1_461 >= 1_155 - 60;
        let expected = if two_leap_days { 1_827 } else { 1_826 };
        assert_eq!(days, Some(expected), "{start}");
    }
    assert!((34_699..=LAST_DAY).all(|start| years_on(start, 5).is_none()));
}
