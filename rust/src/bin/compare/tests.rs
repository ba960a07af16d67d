//! The comparison finds what it should: libraries that differ from the plain
//! book in one thing.

use crate::call::{Answer, Call, Request};
use crate::difference::{compare, Difference};
use crate::entries::{is_for_no_day, is_late_charge, names_one};
use crate::expected::expected;
use crate::halves;
use crate::images::entries_of;
use crate::periods::{self, Period};
use crate::tally::Tally;
use crate::years;
use contribution_book::plain::*;
use contribution_book::proved::{CheckGiven, YearGiven};
use contribution_book::summed::{self, is_in, Taken};

/// How many lists are compared where no difference is found before.
const LISTS: u64 = 4_000;

/// What a library does otherwise than the plain book, after it.
type Slip = fn(&mut Call, &mut Answer);

const ANSWER_SLIPS: [(&str, Slip); 17] = [
    ("a full image", |_, answer| {
        if let Answer::Checked(given) = answer {
            given.entries = given.entries.min(1_023);
        }
    }),
    ("the record at fault", |_, answer| {
        if let Answer::Checked(given) = answer {
            given.record = given.record.min(1);
        }
    }),
    ("a refusal number", |_, answer| match answer {
        Answer::Posted(given) if given.refusal == 16 => given.refusal = 8,
        _ => {}
    }),
    ("a refused call's amount", |_, answer| match answer {
        Answer::Posted(given) if given.refusal == 21 => given.settled = 1,
        _ => {}
    }),
    ("settled", |_, answer| {
        if let Answer::Posted(given) = answer {
            given.paid_out += given.settled;
            given.settled = 0;
        }
    }),
    ("retained", |_, answer| {
        if let Answer::Posted(given) = answer {
            given.retained = 0;
        }
    }),
    ("interest", |_, answer| {
        if let Answer::Posted(given) = answer {
            given.interest = 0;
        }
    }),
    ("the image's length", |_, answer| {
        if let Answer::Carried(given) = answer {
            given.bytes = given.bytes.min(24_599);
        }
    }),
    ("complete", |_, answer| {
        if let Answer::Statement(given) = answer {
            given.complete |= given.links_read > 1;
        }
    }),
    ("links read", |_, answer| {
        if let Answer::Statement(given) = answer {
            given.links_read &= 0xFF;
        }
    }),
    ("refunds", |_, answer| {
        if let Answer::Contribution(given) = answer {
            given.to_arrears += given.paid_out;
            given.paid_out = 0;
        }
    }),
    ("closed", |_, answer| {
        if let Answer::Contribution(given) = answer {
            given.closed = false;
        }
    }),
    ("what a reduction settles", |call, answer| match answer {
        Answer::Posted(given) if posts(call, REDUCTION) => given.settled = 0,
        _ => {}
    }),
    ("a reduction's rest", |call, answer| match answer {
        Answer::Posted(given) if posts(call, REDUCTION) => given.paid_out = 0,
        _ => {}
    }),
    ("what a retention retains", |call, answer| match answer {
        Answer::Posted(given) if posts(call, RETENTION) => given.retained = 0,
        _ => {}
    }),
    ("the page's length", |_, answer| {
        if let Answer::Page(given) = answer {
            given.bytes = given.bytes.min(PAGE - 1);
        }
    }),
    ("23 before 3", |call, answer| {
        let (Request::Page { output, .. }, Answer::Page(given)) = (&call.request, answer) else {
            return;
        };
        if given.refusal == 3 && output.bytes().len() < PAGE {
            given.refusal = 23;
        }
    }),
];

/// Whether the call posts an entry of this kind.
fn posts(call: &Call, kind: u8) -> bool {
    match &call.request {
        Request::Post { entry, .. } => entry.bytes().first() == Some(&kind),
        _ => false,
    }
}

/// The plain book's answer where each record of the image is changed so.
fn with_records(call: &Call, changed: impl Fn(Raw) -> Raw) -> Answer {
    let mut call = call.clone();
    for record in call.image.bytes_mut().chunks_exact_mut(RECORD).skip(1) {
        let (raw, next) = parse_record(record);
        write_record(record, &changed(raw), next);
    }
    expected(&call).answer
}

/// Gives an accepted call that answer.
fn answer_with_records(call: &Call, answer: &mut Answer, changed: impl Fn(Raw) -> Raw) {
    if expected(call).refusal == 0 {
        *answer = with_records(call, changed);
    }
}

/// Bills of the image at a half, with whole cents of this parity, go to the odd
/// cent: the answer is as if each had that charge for 1 of 1 day.
fn half_bills_to_odd(call: &Call, answer: &mut Answer, parity: u64) {
    answer_with_records(call, answer, |raw| {
        let whole = halves::of_bill(&raw).filter(|whole| whole % 2 == parity);
        match whole {
            Some(whole) => Raw {
                amount: whole as u32 | 1,
                a: 1,
                b: 1,
                ..raw
            },
            None => raw,
        }
    });
}

/// Where posted interest is at a half, with whole cents of this parity, it goes
/// to the odd cent, and what is paid out with it. A return that pays out nothing
/// stays.
fn half_interest_to_odd(call: &Call, answer: &mut Answer, parity: u64) {
    let (Request::Post { entry, .. }, Answer::Posted(given)) = (&call.request, answer) else {
        return;
    };
    if !posts(call, DEPOSIT_RETURN) || given.paid_out == 0 {
        return;
    }
    let raw = parse_record(entry.bytes()).0;
    let whole = halves::of_entry(&raw, &entries_of(call.image.bytes()));
    if let Some(whole) = whole.filter(|whole| whole % 2 == parity) {
        let interest = whole | 1;
        given.paid_out = given.paid_out + interest - given.interest;
        given.interest = interest;
    }
}

/// After even whole cents the odd cent is above the half, after odd ones below.
const HALF_SLIPS: [(&str, Slip); 6] = [
    ("a half bill rounded up", |call, answer| {
        if let Answer::Statement(_) = answer {
            half_bills_to_odd(call, answer, 0);
        }
    }),
    ("a half bill rounded down", |call, answer| {
        if let Answer::Statement(_) = answer {
            half_bills_to_odd(call, answer, 1);
        }
    }),
    (
        "a correction after a half bill rounded up",
        |call, answer| {
            if posts(call, CORRECTION) {
                half_bills_to_odd(call, answer, 0);
            }
        },
    ),
    (
        "a correction after a half bill rounded down",
        |call, answer| {
            if posts(call, CORRECTION) {
                half_bills_to_odd(call, answer, 1);
            }
        },
    ),
    ("half interest rounded up", |call, answer| {
        half_interest_to_odd(call, answer, 0);
    }),
    ("half interest rounded down", |call, answer| {
        half_interest_to_odd(call, answer, 1);
    }),
];

/// An accepted image is refused at its first record of these.
fn refuse_record(call: &Call, answer: &mut Answer, refusal: u8, is_refused: impl Fn(&Raw) -> bool) {
    let Answer::Checked(given) = answer else {
        return;
    };
    let entries = entries_of(call.image.bytes());
    let mut places = entries.iter().zip(1..);
    let at_fault = places.find(|(raw, _)| is_refused(raw));
    if let (0, Some((_, record))) = (given.refusal, at_fault) {
        *given = CheckGiven {
            refusal,
            record,
            entries: 0,
        };
    }
}

/// An image that is refused by this number at such a record is accepted.
fn accept_record(
    call: &Call,
    answer: &mut Answer,
    refusal: u8,
    is_accepted: impl Fn(&Raw, &[Raw]) -> bool,
) {
    let Answer::Checked(given) = answer else {
        return;
    };
    let Some(place) = usize::from(given.record).checked_sub(1) else {
        return;
    };
    let entries = entries_of(call.image.bytes());
    if given.refusal == refusal && is_accepted(&entries[place], &entries[..place]) {
        *given = CheckGiven {
            entries: entries.len() as u16,
            ..CheckGiven::default()
        };
    }
}

/// Gives a posting on an image with no record at fault another refusal number, by
/// the entry, those before it and the plain book's number.
fn judge_posted(call: &Call, answer: &mut Answer, judged: impl Fn(&Raw, &[Raw], u8) -> u8) {
    let (Request::Post { entry, .. }, Answer::Posted(given)) = (&call.request, answer) else {
        return;
    };
    if given.record == 0 && entry.bytes().len() == RECORD {
        let raw = parse_record(entry.bytes()).0;
        given.refusal = judged(&raw, &entries_of(call.image.bytes()), given.refusal);
    }
}

/// Gives each entry of an accepted carry-over another number in the result list,
/// by the same.
fn judge_carried(call: &mut Call, answer: &Answer, judged: impl Fn(&Raw, &[Raw], u8) -> u8) {
    let mut before = entries_of(call.image.bytes());
    let (
        Request::CarryOver {
            entries, results, ..
        },
        Answer::Carried(given),
    ) = (&mut call.request, answer)
    else {
        return;
    };
    if given.refusal != 0 {
        return;
    }
    let records = entries.bytes().chunks_exact(RECORD);
    for (record, result) in records.zip(results.bytes_mut()) {
        let raw = parse_record(record).0;
        let number = *result;
        *result = judged(&raw, &before, number);
        if number == 0 {
            before.push(raw);
        }
    }
}

/// The kinds that name an entry.
const NAMING: [u8; 5] = [ADDED_CUSTOMER, EXPIRY, CORRECTION, REDUCTION, RETENTION];

/// Whether an entry's field is out of range.
type Broken = fn(&Raw) -> bool;

/// What 5 refuses of a late charge.
const LATE_CHARGE_RANGES: [(&str, Broken); 5] = [
    ("an amount", |raw| raw.amount > AMOUNT_MOST),
    ("a named serial", |raw| raw.named_serial != 0),
    ("a", |raw| raw.a != 0),
    ("b", |raw| raw.b != 0),
    ("a named node", |raw| raw.named_node != 0),
];

/// Another refusal number of an entry that is posted or carried over, by those
/// before it and the plain book's number.
type Judgement = fn(&Raw, &[Raw], u8) -> u8;

const OTHER_JUDGEMENTS: [(&str, Judgement); 8] = [
    ("a late charge accepted", |raw, _, number| match number {
        1 if is_late_charge(raw) => 0,
        _ => number,
    }),
    ("a bill for no day accepted", |_, _, number| match number {
        30 => 0,
        _ => number,
    }),
    ("30 after 6", |raw, before, number| {
        let not_below = |other: &Raw| other.node == raw.node && other.serial >= raw.serial;
        match number {
            30 if raw.serial == 0 || before.iter().any(not_below) => 6,
            _ => number,
        }
    }),
    ("30 after 7", |_, before, number| match number {
        30 if before.len() == ENTRIES => 7,
        _ => number,
    }),
    ("30 before 5", |raw, _, number| match number {
        5 if is_for_no_day(raw) => 30,
        _ => number,
    }),
    ("bills of one day refused", |raw, _, number| match number {
        0 if raw.kind == BILL && raw.b == 1 => 30,
        _ => number,
    }),
    ("payments refused", |raw, _, number| match number {
        0 if raw.kind == PAYMENT => 30,
        _ => number,
    }),
    (
        "no correction of a bill for no day",
        |raw, before, number| match number {
            0 if names_one(raw, before, is_for_no_day) => 8,
            _ => number,
        },
    ),
];

/// Bills of zero days served stand at their full charge: the answer is as if all
/// the days were served.
fn no_day_in_full(call: &Call, answer: &mut Answer) {
    answer_with_records(call, answer, |raw| match raw {
        Raw { a, .. } if is_for_no_day(&raw) => Raw { b: a as u8, ..raw },
        _ => raw,
    });
}

/// Whether the call posts the correction of a bill of zero days served.
fn posts_correction_of_no_day(call: &Call) -> bool {
    let Request::Post { entry, .. } = &call.request else {
        return false;
    };
    posts(call, CORRECTION) && entry.bytes().len() == RECORD && {
        let raw = parse_record(entry.bytes()).0;
        names_one(&raw, &entries_of(call.image.bytes()), is_for_no_day)
    }
}

const NO_DAY_SLIPS: [(&str, Slip); 4] = [
    ("30 at load too", |call, answer| {
        refuse_record(call, answer, 30, is_for_no_day);
    }),
    ("a bill for no day at its full charge", |call, answer| {
        if let Answer::Statement(_) = answer {
            no_day_in_full(call, answer);
        }
    }),
    ("a correction from the full charge", |call, answer| {
        if posts_correction_of_no_day(call) {
            no_day_in_full(call, answer);
        }
    }),
    ("a day served saved", |call, answer| {
        let (Request::Post { output, .. }, Answer::Posted(given)) = (&mut call.request, answer)
        else {
            return;
        };
        let mut records = output.bytes_mut()[..given.bytes].chunks_exact_mut(RECORD);
        if let Some(record) = records.find(|record| is_for_no_day(&parse_record(record).0)) {
            record[22] = 1;
        }
    }),
];

const LATE_CHARGE_SLIPS: [(&str, Slip); 7] = [
    ("no late charge in an image", |call, answer| {
        refuse_record(call, answer, 1, is_late_charge);
    }),
    ("no late charge of zero", |call, answer| {
        refuse_record(call, answer, 5, |raw| {
            is_late_charge(raw) && raw.amount == 0
        });
    }),
    ("no late charge of 100,000,000", |call, answer| {
        let is_refused = |raw: &Raw| is_late_charge(raw) && raw.amount == AMOUNT_MOST;
        refuse_record(call, answer, 5, is_refused);
    }),
    ("bills without late charges", |call, answer| {
        let (&Request::Statement { account, .. }, Answer::Statement(given)) =
            (&call.request, answer)
        else {
            return;
        };
        let entries = entries_of(call.image.bytes());
        let chain = entries.iter().rev().filter(|raw| raw.account == account);
        let read = chain.take(given.links_read.into());
        let late_charges = read.filter(|raw| raw.kind == LATE_CHARGE);
        given.bills -= late_charges.map(|raw| u64::from(raw.amount)).sum::<u64>();
    }),
    ("a late charge that credits", |call, answer| {
        let credited = with_records(call, |raw| match raw.kind {
            LATE_CHARGE if raw.amount > 0 => Raw {
                kind: PAYMENT,
                ..raw
            },
            _ => raw,
        });
        if let (Answer::Statement(given), Answer::Statement(credited)) = (answer, credited) {
            if given.refusal == 0 {
                given.arrears = credited.arrears;
                given.credit = credited.credit;
            }
        }
    }),
    ("a late charge's amount on a page", |call, answer| {
        let (Request::Page { output, .. }, Answer::Page(given)) = (&mut call.request, answer)
        else {
            return;
        };
        let mut lines = output.bytes_mut()[..given.bytes].chunks_exact_mut(81);
        if let Some(line) = lines.nth(7).filter(|line| line[11..13] == *b"12") {
            line[13..76].fill(b' ');
            line[76..80].copy_from_slice(b"0.00");
        }
    }),
    ("a late charge's amount saved", |call, answer| {
        let (Request::Post { output, .. }, Answer::Posted(given)) = (&mut call.request, answer)
        else {
            return;
        };
        let mut records = output.bytes_mut()[..given.bytes].chunks_exact_mut(RECORD);
        if let Some(record) = records.find(|record| record[0] == LATE_CHARGE) {
            record[12..16].fill(0);
        }
    }),
];

/// Another end of a period than the plain book's, from its start and its end.
type OtherEnd = fn(u16, Option<u16>) -> Option<u16>;

const OTHER_ENDS: [(&str, OtherEnd); 6] = [
    ("1,826 days on", |start, _| Some(start + 1_826)),
    ("1,827 days on", |start, _| Some(start + 1_827)),
    ("28 February after 29 February", |start, end| {
        end.map(|end| end - u16::from(periods::is_leap_day(start)))
    }),
    ("2099-12-31 where there is none", |_, end| {
        end.or(Some(LAST_DAY))
    }),
    ("a day early", |_, end| end.map(|end| end - 1)),
    ("a day late", |_, end| end.map(|end| end + 1)),
];

/// Whether the entry is on another side of the other end, where it comes after
/// these.
fn judged_otherwise(raw: &Raw, before: &[Raw], other_end: OtherEnd) -> bool {
    let Some(start) = periods::start(raw, before) else {
        return false;
    };
    let end = periods::end(raw.kind, start);
    let has_ended = |end: Option<u16>| end.is_some_and(|end| raw.day >= end);
    has_ended(end) != has_ended(other_end(start, end))
}

/// A posting of this kind that is accepted, or refused by this number, is judged
/// by the other end.
fn post_by(call: &Call, answer: &mut Answer, (kind, number): (u8, u8), other_end: OtherEnd) {
    judge_posted(call, answer, |raw, before, refusal| {
        let by_period = raw.kind == kind && [0, number].contains(&refusal);
        if by_period && judged_otherwise(raw, before, other_end) {
            number - refusal
        } else {
            refusal
        }
    });
}

/// The records of this kind in an image that is accepted, or refused by this
/// number, are judged by the other end.
fn load_by(call: &Call, answer: &mut Answer, (kind, number): (u8, u8), other_end: OtherEnd) {
    let Answer::Checked(given) = answer else {
        return;
    };
    if ![0, number].contains(&given.refusal) {
        return;
    }
    let entries = entries_of(call.image.bytes());
    let judged = match usize::from(given.record) {
        0 => entries.len(),
        record => record,
    };
    let otherwise = |place: usize| {
        let (raw, before) = (&entries[place], &entries[..place]);
        raw.kind == kind && judged_otherwise(raw, before, other_end)
    };
    if (0..judged).any(otherwise) {
        given.refusal = number - given.refusal;
    }
}

/// What another library gives of a year, from the plain book's totals and the
/// entries of the image.
type OtherYear = fn(YearGiven, u16, &[Taken]) -> YearGiven;

const OTHER_YEARS: [(&str, OtherYear); 24] = [
    ("a correction in its own year", |given, year, taken| {
        let moved = with_moves(given, taken, |old, new, raw, _| {
            is_in(year, raw).then_some((old, new))
        });
        not_restated(moved, year, taken)
    }),
    ("amounts not restated", not_restated),
    ("the old amount left in", |given, year, taken| {
        with_moves(given, taken, |old, _, _, named| {
            is_in(year, named).then_some((0, old))
        })
    }),
    ("the new amount left out", |given, year, taken| {
        with_moves(given, taken, |_, new, _, named| {
            is_in(year, named).then_some((new, 0))
        })
    }),
    ("corrections are no entries", |given, year, taken| {
        let corrections = of_kind(CORRECTION, year, taken).count();
        YearGiven {
            entries: given.entries - corrections as u16,
            ..given
        }
    }),
    ("an entry too few", |given, _, _| YearGiven {
        entries: given.entries.saturating_sub(1),
        ..given
    }),
    ("late charges left out", |given, year, taken| {
        let late_charges = of_kind(LATE_CHARGE, year, taken);
        let sum: u64 = late_charges.map(|(raw, _)| u64::from(raw.amount)).sum();
        YearGiven {
            bills: given.bills - sum,
            ..given
        }
    }),
    ("bills at their charge", |given, year, taken| {
        let full = |raw: Raw| match raw.kind {
            BILL => Raw { a: 1, b: 1, ..raw },
            _ => raw,
        };
        let taken: Vec<Taken> = taken.iter().map(|&(raw, paid)| (full(raw), paid)).collect();
        YearGiven {
            bills: of_year(year, &taken).bills,
            ..given
        }
    }),
    ("refunds not paid out", |given, year, taken| {
        without_paid_out(given, ADDED_CUSTOMER, year, taken)
    }),
    ("deposit returns not paid out", |given, year, taken| {
        without_paid_out(given, DEPOSIT_RETURN, year, taken)
    }),
    ("reductions not paid out", |given, year, taken| {
        without_paid_out(given, REDUCTION, year, taken)
    }),
    ("one account alone", |_, year, taken| {
        let of_first = |other: &&Taken| other.0.account == taken[0].0.account;
        let of_first: Vec<Taken> = taken.iter().filter(of_first).copied().collect();
        of_year(year, &of_first)
    }),
    ("entries in 8 bits", |given, _, _| YearGiven {
        entries: given.entries & 0xFF,
        ..given
    }),
    ("bills in 32 bits", |given, _, _| YearGiven {
        bills: given.bills & 0xFFFF_FFFF,
        ..given
    }),
    ("payments in 32 bits", |given, _, _| YearGiven {
        payments: given.payments & 0xFFFF_FFFF,
        ..given
    }),
    ("a year later", |_, year, taken| {
        of_year(year.wrapping_sub(1), taken)
    }),
    ("a year earlier", |_, year, taken| {
        of_year(year.wrapping_add(1), taken)
    }),
    ("31 December in the next year", |given, year, taken| {
        by_day(given, taken, |day| {
            day < LAST_DAY && year_of(day + 1) == year
        })
    }),
    ("1 January in the year before", |given, year, taken| {
        by_day(given, taken, |day| year_of(day.saturating_sub(1)) == year)
    }),
    ("years of 365 days", |given, year, taken| {
        by_day(given, taken, |day| 2000 + day / 365 == year)
    }),
    ("1999 reads 2000", |given, year, taken| {
        if_asked(given, year == 1999, 2000, taken)
    }),
    ("2100 reads 2099", |given, year, taken| {
        if_asked(given, year == 2100, 2099, taken)
    }),
    ("0 reads 2000", |given, year, taken| {
        if_asked(given, year == 0, 2000, taken)
    }),
    ("the largest year reads 2099", |given, year, taken| {
        if_asked(given, year == u16::MAX, 2099, taken)
    }),
];

/// What a year of a book with these entries gives.
fn of_year(year: u16, taken: &[Taken]) -> YearGiven {
    summed::year_totals(year, taken).into()
}

/// What the other year gives, where it is asked for.
fn if_asked(given: YearGiven, asked: bool, other: u16, taken: &[Taken]) -> YearGiven {
    match asked {
        true => of_year(other, taken),
        false => given,
    }
}

/// The year has as many entries as there are with such a day.
fn by_day(given: YearGiven, taken: &[Taken], is_in: impl Fn(u16) -> bool) -> YearGiven {
    let of_year = taken.iter().filter(|(raw, _)| is_in(raw.day));
    YearGiven {
        entries: of_year.count() as u16,
        ..given
    }
}

/// The entries of a kind in a year.
fn of_kind(kind: u8, year: u16, taken: &[Taken]) -> impl Iterator<Item = &Taken> {
    let of_year = taken.iter().filter(move |(raw, _)| is_in(year, raw));
    of_year.filter(move |(raw, _)| raw.kind == kind)
}

fn without_paid_out(given: YearGiven, kind: u8, year: u16, taken: &[Taken]) -> YearGiven {
    let paid_out: u64 = of_kind(kind, year, taken).map(|taken| taken.1).sum();
    YearGiven {
        paid_out: given.paid_out - paid_out,
        ..given
    }
}

/// The year's corrected bills and payments stay in its sums as they were posted.
fn not_restated(given: YearGiven, year: u16, taken: &[Taken]) -> YearGiven {
    with_moves(given, taken, |old, new, _, named| {
        is_in(year, named).then_some((new, old))
    })
}

/// The sum of bills or payments loses and gains these amounts for each correction.
/// They are given from the old amount, the new one, the correction and the entry
/// that it corrects.
fn with_moves(
    mut given: YearGiven,
    taken: &[Taken],
    moves: impl Fn(u64, u64, &Raw, &Raw) -> Option<(u64, u64)>,
) -> YearGiven {
    for (raw, named) in years::corrections(taken) {
        let posted = of_year(year_of(named.day), &[(named, 0)]);
        let old = posted.bills + posted.payments;
        let amounts = moves(old, raw.amount.into(), &raw, &named);
        let (loses, gains) = amounts.unwrap_or((0, 0));
        let sum = match named.kind {
            BILL => &mut given.bills,
            _ => &mut given.payments,
        };
        *sum = sum.wrapping_add(gains).wrapping_sub(loses);
    }
    given
}

/// Gives an accepted query of a year another answer.
fn answer_other_year(call: &Call, answer: &mut Answer, other: OtherYear) {
    let (&Request::Year { year }, Answer::Year(given)) = (&call.request, answer) else {
        return;
    };
    let taken = years::taken(&entries_of(call.image.bytes()));
    if given.refusal == 0 && !taken.is_empty() {
        *given = other(*given, year, &taken);
    }
}

/// The record at fault, and those before it, count in the year asked for.
fn count_refused_record(call: &Call, answer: &mut Answer) {
    let (&Request::Year { year }, Answer::Year(given)) = (&call.request, answer) else {
        return;
    };
    if given.record > 0 {
        let entries = entries_of(call.image.bytes());
        let counted = entries.iter().take(given.record.into());
        let of_year = counted.filter(|raw| is_in(year, raw));
        given.entries = of_year.count() as u16;
    }
}

/// Writes a space at this line and column, counted from 1, of an accepted page.
fn put_space(call: &mut Call, answer: &Answer, line: usize, column: usize) {
    let (Request::Page { output, .. }, Answer::Page(given)) = (&mut call.request, answer) else {
        return;
    };
    if given.refusal == 0 {
        output.bytes_mut()[81 * (line - 1) + column - 1] = b' ';
    }
}

const PAGE_SLIPS: [(&str, Slip); 9] = [
    ("past the page", |call, answer| {
        let (Request::Page { output, .. }, Answer::Page(_)) = (&mut call.request, answer) else {
            return;
        };
        if let Some(byte) = output.bytes_mut().get_mut(PAGE) {
            *byte = !*byte;
        }
    }),
    ("a refused page's output", |call, answer| {
        let (Request::Page { output, .. }, Answer::Page(given)) = (&mut call.request, answer)
        else {
            return;
        };
        if given.refusal == 23 {
            output.bytes_mut().fill(b' ');
        }
    }),
    ("arrears from 10,000,000.00 on", |call, answer| {
        put_space(call, answer, 3, 70);
    }),
    ("credit from 10,000,000.00 on", |call, answer| {
        put_space(call, answer, 4, 70);
    }),
    ("held from 10,000,000.00 on", |call, answer| {
        put_space(call, answer, 6, 70);
    }),
    ("a number of four digits", |call, answer| {
        put_space(call, answer, 8, 1);
    }),
    ("a day of five digits", |call, answer| {
        put_space(call, answer, 8, 6);
    }),
    ("a kind of two digits", |call, answer| {
        put_space(call, answer, 8, 12);
    }),
    ("the 58th entry of a page", |call, answer| {
        put_space(call, answer, 65, 80);
    }),
];

const BUFFER_SLIPS: [(&str, Slip); 5] = [
    ("past the image written", |call, answer| {
        let (Request::Post { output, .. }, Answer::Posted(given)) = (&mut call.request, answer)
        else {
            return;
        };
        if let Some(byte) = output.bytes_mut().get_mut(given.bytes) {
            *byte = !*byte;
        }
    }),
    ("past the results", |call, _| {
        if let Request::CarryOver {
            entries, results, ..
        } = &mut call.request
        {
            if let Some(byte) = results.bytes_mut().get_mut(entries.bytes().len() / 24) {
                *byte = !*byte;
            }
        }
    }),
    ("a refused call's results", |call, answer| {
        if let (Request::CarryOver { results, .. }, Answer::Carried(given)) =
            (&mut call.request, answer)
        {
            if given.refusal == 21 {
                results.bytes_mut().fill(0);
            }
        }
    }),
    ("before the output", |call, _| {
        if let Request::CarryOver { output, .. } = &mut call.request {
            output.memory[0] ^= 1;
        }
    }),
    ("the image read", |call, _| {
        if let Some(byte) = call.image.bytes_mut().last_mut() {
            *byte = !*byte;
        }
    }),
];

fn plain(call: &mut Call) -> Answer {
    let expected = expected(call);
    *call = expected.after;
    expected.answer
}

fn with(slip: impl Fn(&mut Call, &mut Answer)) -> impl Fn(&mut Call) -> Answer {
    move |call| {
        let mut answer = plain(call);
        slip(call, &mut answer);
        answer
    }
}

fn first_difference(slip: impl Fn(&mut Call, &mut Answer)) -> Option<Box<Difference>> {
    let mut tally = Tally::new();
    let library = with(slip);
    (1..=LISTS).find_map(|list| compare(list, &library, &mut tally).err())
}

#[test]
fn the_plain_book_differs_in_nothing_from_itself() {
    let mut tally = Tally::new();
    for list in 1..=50 {
        assert!(compare(list, plain, &mut tally).is_ok(), "list {list}");
    }
}

/// In this list both nodes are offered serials near the last one early on.
#[test]
fn a_list_begins_where_serials_are_few() {
    let list = 592_574;
    assert!(compare(list, plain, &mut Tally::new()).is_ok());
}

#[test]
fn every_slip_is_found() {
    let slips = [
        &ANSWER_SLIPS[..],
        &HALF_SLIPS,
        &LATE_CHARGE_SLIPS,
        &NO_DAY_SLIPS,
        &PAGE_SLIPS,
        &BUFFER_SLIPS,
    ];
    for (name, slip) in slips.into_iter().flatten() {
        assert!(first_difference(*slip).is_some(), "{name}");
    }
}

#[test]
fn every_range_of_a_late_charge_is_tried() {
    for (name, is_broken) in LATE_CHARGE_RANGES {
        let accepts = |raw: &Raw, _: &[Raw]| raw.kind == LATE_CHARGE && is_broken(raw);
        let loaded = first_difference(|call, answer| accept_record(call, answer, 5, accepts));
        assert!(loaded.is_some(), "{name}");
    }
}

#[test]
fn every_kind_that_names_a_late_charge_is_tried() {
    for kind in NAMING {
        let accepts =
            |raw: &Raw, before: &[Raw]| raw.kind == kind && names_one(raw, before, is_late_charge);
        let judged = |raw: &Raw, before: &[Raw], number| match number {
            8 if accepts(raw, before) => 0,
            _ => number,
        };
        let posted = first_difference(|call, answer| judge_posted(call, answer, judged));
        assert!(posted.is_some(), "{kind} posted");
        let loaded = first_difference(|call, answer| accept_record(call, answer, 8, accepts));
        assert!(loaded.is_some(), "{kind} loaded");
    }
}

#[test]
fn every_other_judgement_is_found() {
    for (name, judged) in OTHER_JUDGEMENTS {
        let posted = first_difference(|call, answer| judge_posted(call, answer, judged));
        assert!(posted.is_some(), "{name}: posted");
        let carried = first_difference(|call, answer| judge_carried(call, answer, judged));
        assert!(carried.is_some(), "{name}: carried over");
    }
}

#[test]
fn every_other_end_of_a_period_is_found() {
    for (name, other_end) in OTHER_ENDS {
        for judged in periods::KINDS {
            let posted = first_difference(|call, answer| post_by(call, answer, judged, other_end));
            assert!(posted.is_some(), "{name}: {judged:?} posted");
            let loaded = first_difference(|call, answer| load_by(call, answer, judged, other_end));
            assert!(loaded.is_some(), "{name}: {judged:?} loaded");
        }
    }
}

#[test]
fn every_other_year_is_found() {
    for (name, other) in OTHER_YEARS {
        let found = first_difference(|call, answer| answer_other_year(call, answer, other));
        assert!(found.is_some(), "{name}");
    }
    let found = first_difference(|call, answer| count_refused_record(call, answer));
    assert!(found.is_some(), "a refused record counted");
}

#[test]
fn whole_cents_of_halves() {
    let of_kind = |kind| Raw {
        kind,
        ..Raw::default()
    };
    // Charge, period, days served.
    let bills = [
        ((1, 2, 1), Some(0)),
        ((4, 2, 1), None),
        ((7, 2, 1), Some(3)),
        ((2, 3, 1), None),
        ((155, 62, 1), Some(2)),
    ];
    for ((amount, a, b), whole) in bills {
        let bill = Raw {
            amount,
            a,
            b,
            ..of_kind(BILL)
        };
        assert_eq!(halves::of_entry(&bill, &[]), whole, "{bill:?}");
        // Their nodes and serials, and the named ones, are 0.
        assert_eq!(halves::of_entry(&of_kind(CORRECTION), &[bill]), whole);
    }
    let deposit = Raw {
        amount: 1_825,
        a: 1_000,
        ..of_kind(DEPOSIT)
    };
    for (day, whole) in [(0, None), (1, Some(0)), (2, None), (7, Some(3))] {
        let raw = Raw {
            day,
            ..of_kind(DEPOSIT_RETURN)
        };
        assert_eq!(halves::of_entry(&raw, &[deposit]), whole, "{day} days");
    }
}

#[test]
fn entries_at_the_end_of_a_period() {
    // The start, and the days at its end: the last before it, and the end.
    let periods = [
        (100, [1_925, 1_926], Period::Days1826),
        (0, [1_826, 1_827], Period::Days1827),
        (58, [1_884, 1_885], Period::Days1827),
        (59, [1_885, 1_886], Period::LeapDay),
        (60, [1_885, 1_886], Period::Days1826),
        (34_698, [36_523, 36_524], Period::Days1826),
    ];
    for (kind, _) in periods::KINDS {
        let period_of = |start, day| {
            let [named, raw] = [start, day].map(|day| Raw {
                kind,
                day,
                ..Raw::default()
            });
            // Their nodes and serials, and the named ones, are 0.
            periods::ending_at(&raw, &[named])
        };
        for (start, [last, end], period) in periods {
            let days = [last - 1, last, end, end + 1];
            let expected = [None, Some(period), Some(period), None];
            assert_eq!(days.map(|day| period_of(start, day)), expected, "{start}");
        }
        for start in [34_699, 35_123, 36_524] {
            assert_eq!(period_of(start, 36_523), None, "{start}");
            assert_eq!(period_of(start, 36_524), Some(Period::NoEnd), "{start}");
        }
    }
}

/// Entries of node 1 and account 5 with serials from 1 on: kind, day, amount and
/// named serial.
fn numbered(entries: &[(u8, u16, u32, u32)]) -> Vec<Raw> {
    let numbered = |(serial, &(kind, day, amount, named_serial))| Raw {
        kind,
        node: 1,
        account: 5,
        day,
        serial,
        amount,
        named_serial,
        named_node: u8::from(named_serial > 0),
        a: u16::from(kind == BILL),
        b: u8::from(kind == BILL),
    };
    (1..).zip(entries).map(numbered).collect()
}

#[test]
fn what_a_year_has() {
    let entries = numbered(&[
        (BILL, 365, 500, 0),
        (PAYMENT, 366, 300, 0),
        (CORRECTION, 366, 400, 1),
        (DEPOSIT, 400, 1_000, 0),
        // 100 to arrears, 900 paid out.
        (DEPOSIT_RETURN, 730, 0, 0),
        (LATE_CHARGE, 1_000, 70, 0),
    ]);
    let taken = years::taken(&entries);
    assert_eq!(taken[4].1, 900);
    let has = |year| {
        let given = of_year(year, &taken);
        let parts = years::PARTS.iter();
        let met = parts.filter(|(_, meets)| meets(&given, year, &taken));
        met.map(|(name, _)| *name).collect::<Vec<&str>>()
    };
    let of_2000 = [
        "year with bills",
        "year with an entry corrected in another",
        "year with an entry on its last day",
    ];
    assert_eq!(has(2000), of_2000);
    let of_2001 = [
        "year with payments",
        "year with a deposit return paid out",
        "year with a correction of another's entry",
        "year with an entry on its first day",
        "year with an entry on its last day",
    ];
    assert_eq!(has(2001), of_2001);
    assert_eq!(has(2002), ["year with bills", "year with late charges"]);
    assert_eq!(has(2003), ["year without entries"]);
    assert_eq!(has(1999), ["year before 2000"]);
    assert_eq!(has(2100), ["year after 2099"]);
}

#[test]
fn a_list_seed_gives_the_same_difference_again() {
    for (name, slip) in ANSWER_SLIPS {
        let first = first_difference(slip).expect(name);
        let again = compare(first.list, with(slip), &mut Tally::new());
        let again = again.expect_err(name);
        assert_eq!(first.to_string(), again.to_string());
    }
}

#[test]
fn what_was_tried_too_rarely_is_named() {
    let mut tally = Tally::new();
    assert!(compare(1, plain, &mut tally).is_ok());
    let shortages = tally.shortages();
    for line in [
        "fewer than 100000 calls",
        "image of check: refusal number 20 fewer than 100 times",
        "post: refusal number 7 fewer than 100 times",
        "page: refusal number 23 fewer than 100 times",
        "expiry: accepted fewer than 100 times",
        "late charge offered: refusal number 1 fewer than 100 times",
        "late charge named: refusal number 8 fewer than 100 times",
        "late charge in an image: refusal number 0 fewer than 100 times",
        "late charge in an image: refusal number 5 fewer than 100 times",
        "late charge named in an image: refusal number 8 fewer than 100 times",
        "bill for no day offered: refusal number 30 fewer than 100 times",
        "bill for no day named: refusal number 0 fewer than 100 times",
        "bill for no day in an image: refusal number 20 fewer than 100 times",
        "bill for no day named in an image: refusal number 0 fewer than 100 times",
        "deposit return at a half, odd cents: accepted fewer than 100 times",
        "expiry at the end of a period of 1,827 days: accepted fewer than 100 times",
        "added customer at the end of a period from 29 February, in an image: refusal number 12 \
         fewer than 100 times",
        "retention on 2099-12-31 in a period that doesn't end: refusal number 26 \
         fewer than 100 times",
        "image of year: refusal number 20 fewer than 100 times",
        "year with a reduction paid out fewer than 100 times",
        "year with an entry corrected in another fewer than 100 times",
        "year after 2099 fewer than 100 times",
    ] {
        assert!(shortages.iter().any(|shortage| shortage == line), "{line}");
    }
}
