//! The same call by the proved book, by the plain one and by the plain one
//! passed by value: each loads the image, and a posting or carry-over saves the
//! next.

use crate::cases::{Call, Case};
use contribution_book::plain::{parse_record, Raw, ENTRIES, RECORD};
use contribution_book::proved::{
    self, CarryGiven, CheckGiven, ContributionGiven, PageGiven, PostingGiven, StatementGiven,
    YearGiven, LONGEST_IMAGE,
};
use contribution_book::{by_value, plain};

/// What a call writes to.
#[derive(PartialEq, Eq)]
pub struct Buffers {
    pub results: Vec<u8>,
    pub output: Vec<u8>,
}

impl Buffers {
    /// Buffers with room for every call, filled with a byte that is no refusal
    /// number.
    pub fn new() -> Buffers {
        Buffers {
            results: vec![0xEE; ENTRIES],
            output: vec![0xEE; LONGEST_IMAGE],
        }
    }
}

/// What a call gives.
#[derive(Debug, PartialEq, Eq)]
pub enum Answer {
    Checked(CheckGiven),
    Posted(PostingGiven),
    Carried(CarryGiven),
    Statement(StatementGiven),
    Contribution(ContributionGiven),
    Year(YearGiven),
    Page(PageGiven),
}

impl Answer {
    pub fn refusal(&self) -> u8 {
        match self {
            Answer::Checked(given) => given.refusal,
            Answer::Posted(given) => given.refusal,
            Answer::Carried(given) => given.refusal,
            Answer::Statement(given) => given.refusal,
            Answer::Contribution(given) => given.refusal,
            Answer::Year(given) => given.refusal,
            Answer::Page(given) => given.refusal,
        }
    }
}

/// Makes a case's call.
pub type Caller = fn(&Case, &mut Buffers) -> Answer;

/// The proved book's first, since the others are compared with it.
pub const CALLERS: [Caller; 3] = [proved, plain, by_value];

fn proved(case: &Case, buffers: &mut Buffers) -> Answer {
    let Buffers { results, output } = buffers;
    let image = &case.image;
    match &case.call {
        Call::Check => Answer::Checked(proved::check(image)),
        Call::Post { entry } => Answer::Posted(proved::post(image, entry, output)),
        Call::CarryOver { entries: records } => {
            Answer::Carried(proved::carry_over(image, records, results, output))
        }
        &Call::Statement { account, allowance } => {
            Answer::Statement(proved::statement(image, account, allowance))
        }
        &Call::Contribution {
            account,
            node,
            serial,
        } => Answer::Contribution(proved::contribution(image, account, node, serial)),
        &Call::Year { year } => Answer::Year(proved::year(image, year)),
        &Call::Page { account } => Answer::Page(proved::page(image, account, output)),
    }
}

fn plain(case: &Case, buffers: &mut Buffers) -> Answer {
    let (mut book, refusal, _) = plain::Book::load(&case.image);
    assert_eq!(refusal, 0);
    match &case.call {
        Call::Check => checked(book.count()),
        Call::Post { entry } => {
            let reply = book.post(&parse_record(entry).0);
            let (refusal, bytes) = book.save(&mut buffers.output);
            posted(reply, refusal, bytes)
        }
        Call::CarryOver { entries: records } => {
            assert_eq!(book.carry_over(&entries(records), &mut buffers.results), 0);
            let (refusal, bytes) = book.save(&mut buffers.output);
            carried(refusal, bytes)
        }
        &Call::Statement { account, allowance } => {
            Answer::Statement(book.statement(account, allowance).into())
        }
        &Call::Contribution {
            account,
            node,
            serial,
        } => Answer::Contribution(book.contribution_query(account, node, serial).into()),
        &Call::Year { year } => Answer::Year(book.year_totals(year).into()),
        &Call::Page { account } => {
            let (refusal, bytes) = book.page(account, &mut buffers.output);
            page(refusal, bytes)
        }
    }
}

fn by_value(case: &Case, buffers: &mut Buffers) -> Answer {
    let (book, refusal, _) = by_value::Book::load(&case.image);
    assert_eq!(refusal, 0);
    match &case.call {
        Call::Check => checked(book.count()),
        Call::Post { entry } => {
            let (book, reply) = book.post(&parse_record(entry).0);
            let (_, refusal, bytes) = book.save(&mut buffers.output);
            posted(reply, refusal, bytes)
        }
        Call::CarryOver { entries: records } => {
            let (book, refusal) = book.carry_over(&entries(records), &mut buffers.results);
            assert_eq!(refusal, 0);
            let (_, refusal, bytes) = book.save(&mut buffers.output);
            carried(refusal, bytes)
        }
        &Call::Statement { account, allowance } => {
            let (_, reply) = book.statement(account, allowance);
            Answer::Statement(reply.into())
        }
        &Call::Contribution {
            account,
            node,
            serial,
        } => {
            let (_, reply) = book.contribution_query(account, node, serial);
            Answer::Contribution(reply.into())
        }
        &Call::Year { year } => {
            let (_, totals) = book.year_totals(year);
            Answer::Year(totals.into())
        }
        &Call::Page { account } => {
            let (_, refusal, bytes) = book.page(account, &mut buffers.output);
            page(refusal, bytes)
        }
    }
}

/// The entries of records.
fn entries(records: &[u8]) -> Vec<Raw> {
    records
        .chunks_exact(RECORD)
        .map(|record| parse_record(record).0)
        .collect()
}

fn checked(count: usize) -> Answer {
    Answer::Checked(CheckGiven {
        entries: count as u16,
        ..CheckGiven::default()
    })
}

/// A posting's answer, with the save's refusal number and bytes.
fn posted(reply: plain::PostingReply, refusal: u8, bytes: usize) -> Answer {
    assert_eq!(refusal, 0);
    Answer::Posted(PostingGiven::new(reply, bytes))
}

fn carried(refusal: u8, bytes: usize) -> Answer {
    Answer::Carried(CarryGiven {
        refusal,
        bytes,
        ..CarryGiven::default()
    })
}

fn page(refusal: u8, bytes: usize) -> Answer {
    Answer::Page(PageGiven {
        refusal,
        bytes,
        ..PageGiven::default()
    })
}
