//! The calls that are timed.

use contribution_book::plain::*;
use contribution_book::samples::{entry, named_kind};
use std::ops::RangeInclusive;

/// A call on an image.
pub struct Case {
    pub name: &'static str,
    pub image: Vec<u8>,
    pub call: Call,
}

pub enum Call {
    Check,
    Post { entry: Vec<u8> },
    CarryOver { entries: Vec<u8> },
    Statement { account: u16, allowance: u64 },
    Contribution { account: u16, node: u8, serial: u32 },
    Year { year: u16 },
    Page { account: u16 },
}

impl Case {
    /// A call on the image of these entries.
    fn new(name: &'static str, entries: &[Raw], call: Call) -> Case {
        let image = image(entries);
        Case { name, image, call }
    }

    /// Records that the call loads and entries that it posts.
    pub fn postings(&self) -> usize {
        let loaded = self.image.len() / RECORD - 1;
        loaded + self.entry_count()
    }

    /// Entries that it posts.
    pub fn entry_count(&self) -> usize {
        match &self.call {
            Call::Post { entry: entries } | Call::CarryOver { entries } => entries.len() / RECORD,
            _ => 0,
        }
    }
}

/// The account of the lists of one kind.
const ACCOUNT: u16 = 5;
/// How many kinds can be posted.
const KINDS: usize = LAST_POSTED_KIND as usize;

/// The calls that are timed, all accepted, as are all their entries.
pub fn cases() -> Vec<Case> {
    [loads(), carry_overs(), single_calls()]
        .into_iter()
        .flatten()
        .collect()
}

fn loads() -> Vec<Case> {
    let full = mixed(ENTRIES);
    let corrected = corrected(512).concat();
    vec![
        Case::new("load of an empty image", &[], Call::Check),
        Case::new("load of a full image", &full, Call::Check),
        carry_over("load and save of a full image", &full, &[]),
        Case::new(
            "load of 512 payments and a correction of each",
            &corrected,
            Call::Check,
        ),
    ]
}

fn carry_overs() -> Vec<Case> {
    let contribution = series(CONTRIBUTION, 1..=1);
    let chain = [&contribution[..], &series(PAYMENT, 2..=500)].concat();
    let customers = series(ADDED_CUSTOMER, 501..=1_000);
    let [payments, corrections] = corrected(500);
    vec![
        carry_over("500 payments", &contribution, &series(PAYMENT, 2..=501)),
        carry_over("500 entries of all kinds", &[], &mixed(500)),
        carry_over(
            "500 added customers after a chain of 500",
            &chain,
            &customers,
        ),
        carry_over(
            "100 reductions after a chain of 500",
            &guarantee_chain(),
            &reductions(),
        ),
        carry_over(
            "500 corrections after the 500 payments",
            &payments,
            &corrections,
        ),
    ]
}

/// Lists of one kind, each beside a list of no entries into the same image. Those
/// of 100 compare an added customer with a reduction.
pub fn postings() -> [[Case; 2]; 4] {
    let contribution = series(CONTRIBUTION, 1..=1);
    let chain = [&contribution[..], &series(PAYMENT, 2..=500)].concat();
    let payments = series(PAYMENT, 501..=1_000);
    let customers = series(ADDED_CUSTOMER, 501..=1_000);
    let customer = "an added customer after a chain of 500";
    let beside_none = |name, chain: &[Raw], entries: &[Raw]| {
        [entries, &[]].map(|entries| carry_over(name, chain, entries))
    };
    [
        beside_none("a payment after a chain of 500", &chain, &payments),
        beside_none(customer, &chain, &customers),
        beside_none(customer, &chain, &customers[..100]),
        beside_none(
            "a reduction after a chain of 500",
            &guarantee_chain(),
            &reductions(),
        ),
    ]
}

/// A guarantee, and 499 payments over all the days of the book.
fn guarantee_chain() -> Vec<Raw> {
    let guarantee = series(GUARANTEE, 1..=1);
    [guarantee, dated(series(PAYMENT, 2..=500), 0, 73)].concat()
}

/// Reductions of that guarantee, each as early as it may come: the days of the
/// book have room for 100.
fn reductions() -> Vec<Raw> {
    let entries = series(REDUCTION, 501..=600);
    dated(entries, REDUCTION_INTERVAL, REDUCTION_INTERVAL)
}

/// The entries with days so many apart, from this one on.
fn dated(entries: Vec<Raw>, first: u16, apart: u16) -> Vec<Raw> {
    let days = (0..).map(|place| first + apart * place);
    let dated = |(raw, day)| Raw { day, ..raw };
    entries.into_iter().zip(days).map(dated).collect()
}

fn single_calls() -> Vec<Case> {
    let contribution = series(CONTRIBUTION, 1..=1);
    let chain = [contribution, series(PAYMENT, 2..=1_024)].concat();
    let payments = series(PAYMENT, 1..=1_024);
    let payment = records(&series(PAYMENT, 1_001..=1_001));
    let statement = Call::Statement {
        account: ACCOUNT,
        allowance: 1_024,
    };
    let query = Call::Contribution {
        account: ACCOUNT,
        node: 1,
        serial: 1,
    };
    let page = Call::Page { account: ACCOUNT };
    vec![
        Case::new(
            "a payment after 1,000 entries of all kinds",
            &mixed(1_000),
            Call::Post { entry: payment },
        ),
        Case::new("statement of a chain of 1,024", &payments, statement),
        Case::new("contribution at the end of a chain of 1,024", &chain, query),
        Case::new(
            "year of a full image",
            &mixed(ENTRIES),
            Call::Year { year: 2000 },
        ),
        Case::new("page of a chain of 1,024", &payments, page),
    ]
}

/// Entries carried over into the image of those before.
fn carry_over(name: &'static str, before: &[Raw], entries: &[Raw]) -> Case {
    let entries = records(entries);
    Case::new(name, before, Call::CarryOver { entries })
}

/// Entries of one kind and account. Where the kind names an entry, they name the
/// one with serial 1.
fn series(kind: u8, serials: RangeInclusive<u32>) -> Vec<Raw> {
    serials
        .map(|serial| entry(kind, ACCOUNT, serial, 1))
        .collect()
}

/// So many payments, and then a correction of each, oldest first: each names the
/// entry that is so many links down the chain.
fn corrected(count: u32) -> [Vec<Raw>; 2] {
    let correction = |named| entry(CORRECTION, ACCOUNT, count + named, named);
    [
        series(PAYMENT, 1..=count),
        (1..=count).map(correction).collect(),
    ]
}

/// Entries of all kinds that can be posted, over groups of 16 accounts: in a
/// group each account has a contribution, then each an added customer, and so on
/// by kind.
pub fn mixed(count: usize) -> Vec<Raw> {
    let entry_at = |place: usize| {
        let kind = (place / 16 % KINDS) as u8 + 1;
        let account = (place / (16 * KINDS) * 16 + place % 16) as u16 + 1;
        let serial = place as u32 + 1;
        let named_serial = serial - 16 * u32::from(kind - named_kind(kind));
        entry(kind, account, serial, named_serial)
    };
    (0..count).map(entry_at).collect()
}

/// The image of a book with these entries.
pub fn image(entries: &[Raw]) -> Vec<u8> {
    let mut book = Book::fresh();
    for raw in entries {
        assert_eq!(book.post(raw).refusal, 0, "{raw:?}");
    }
    let mut bytes = vec![0; LONGEST_IMAGE];
    let (_, length) = book.save(&mut bytes);
    bytes.truncate(length);
    bytes
}

/// The records of entries that are offered, of which no call reads the next
/// index.
fn records(entries: &[Raw]) -> Vec<u8> {
    let mut bytes = vec![0; RECORD * entries.len()];
    for (record, raw) in bytes.chunks_exact_mut(RECORD).zip(entries) {
        write_record(record, raw, 0);
    }
    bytes
}
