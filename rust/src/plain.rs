//! A plain Rust contribution book, written from document 01 and its change
//! requests alone.
//!
//! Amounts are whole cents, days count from 2000-01-01, lengths are whole
//! metres. A refusal number of 0 means accepted.

mod calendar;
mod check;
mod image;
mod page;
mod posting;
mod query;
mod run;
mod years;

pub use calendar::{date_of, day_of, year_of, years_on, Date};
pub use check::Incoming;
pub(crate) use image::check_header;
pub use image::{parse_record, write_record};
pub use query::{ContributionReply, StatementReply};
use run::Run;
pub use years::Year;

/// Accounts of every book, numbered from 1.
pub const ACCOUNTS: usize = 128;
/// Entries that a full book holds, numbered from 1.
pub const ENTRIES: usize = 1024;
/// Calendar years of every book, from 2000 on.
pub const YEARS: usize = 100;
/// Bytes of an image's header and of each of its records.
pub const RECORD: usize = 24;
/// Bytes of the longest image, a full book's.
pub const LONGEST_IMAGE: usize = RECORD * (ENTRIES + 1);
/// Columns of a page.
const COLUMNS: usize = 80;
/// Bytes of a page: 66 lines of these columns, each closed by a newline.
pub const PAGE: usize = 66 * (COLUMNS + 1);

/// The last day, 2099-12-31.
pub const LAST_DAY: u16 = 36_524;
pub const AMOUNT_MOST: u32 = 100_000_000;
pub const MAX_PERIOD: u16 = 62;
pub const MAX_RATE: u16 = 2_000;
pub const MAX_LATE_RATE: u16 = 1_000;
/// The years of a contribution's refund period: from its end on an expiry may
/// come and an added customer may not.
pub const REFUND_YEARS: u16 = 5;
/// The years of a guarantee's period: from its end on a retention may come.
pub const GUARANTEE_YEARS: u16 = 5;
/// The days after a guarantee or its last reduction from which the next one may
/// come.
pub const REDUCTION_INTERVAL: u16 = 365;
/// The days whose payments a reduction counts; its own is the last.
pub const WINDOW_DAYS: u16 = 365;

pub const CONTRIBUTION: u8 = 1;
pub const ADDED_CUSTOMER: u8 = 2;
pub const BILL: u8 = 3;
pub const PAYMENT: u8 = 4;
pub const DEPOSIT: u8 = 5;
pub const DEPOSIT_RETURN: u8 = 6;
pub const EXPIRY: u8 = 7;
pub const CORRECTION: u8 = 8;
pub const GUARANTEE: u8 = 9;
pub const REDUCTION: u8 = 10;
pub const RETENTION: u8 = 11;
pub const LATE_CHARGE: u8 = 12;
/// Kinds are numbered from 1 to this.
pub const LAST_KIND: u8 = LATE_CHARGE;
/// The kinds that can be posted are numbered from 1 to this.
pub const LAST_POSTED_KIND: u8 = RETENTION;

/// An entry as it is offered to the book, its fields unchecked.
#[derive(Clone, Copy, Debug, Default, PartialEq, Eq)]
pub struct Raw {
    pub kind: u8,
    pub node: u8,
    pub account: u16,
    pub day: u16,
    pub serial: u32,
    pub amount: u32,
    pub named_serial: u32,
    pub a: u16,
    pub b: u8,
    pub named_node: u8,
}

/// The answer to a posting. A refused posting has zeros beside its refusal.
#[derive(Clone, Copy, Debug, Default, PartialEq, Eq)]
pub struct PostingReply {
    pub refusal: u8,
    /// The accepted entry's number, from 1.
    pub number: u16,
    /// Arrears settled by a credit.
    pub settled: u64,
    pub paid_out: u64,
    pub retained: u64,
    pub interest: u64,
}

impl PostingReply {
    fn refused(refusal: u8) -> PostingReply {
        PostingReply {
            refusal,
            ..PostingReply::default()
        }
    }
}

/// An accepted entry and what the book keeps for it.
#[derive(Clone, Copy, Debug, PartialEq, Eq)]
struct Entry {
    raw: Raw,
    /// The number of the account's previous entry; zero ends the chain.
    next: u16,
    /// Bill, payment or late charge: its standing amount.
    standing: u64,
    /// Bill or payment: a correction named it.
    corrected: bool,
    /// Contribution or guarantee: the amount still held.
    held: u64,
    /// Contribution or guarantee: refunds or reductions to arrears.
    to_arrears: u64,
    /// Contribution or guarantee: refunds or reductions paid out.
    paid_out: u64,
    /// Contribution or guarantee: the amount its expiry or retention retained.
    retained: u64,
    /// Contribution: added customers accepted.
    added: u16,
    /// Contribution or guarantee: an expiry or a retention closed it.
    closed: bool,
    /// Guarantee: the day of its last reduction; its own where there is none.
    reduced: u16,
}

impl Entry {
    const EMPTY: Entry = Entry::new(
        Raw {
            kind: 0,
            node: 0,
            account: 0,
            day: 0,
            serial: 0,
            amount: 0,
            named_serial: 0,
            a: 0,
            b: 0,
            named_node: 0,
        },
        0,
    );

    const fn new(raw: Raw, next: u16) -> Entry {
        Entry {
            raw,
            next,
            standing: 0,
            corrected: false,
            held: 0,
            to_arrears: 0,
            paid_out: 0,
            retained: 0,
            added: 0,
            closed: false,
            reduced: 0,
        }
    }
}

/// One account's amounts and the start of its chain.
#[derive(Clone, Copy, Debug, PartialEq, Eq)]
struct Account {
    arrears: u64,
    credit: u64,
    /// The deposit held; zero where none is.
    deposit: u64,
    /// The held deposit's yearly rate in hundredths of a percent. Its width
    /// keeps the book's bytes away from a multiple of 4,096.
    rate: u64,
    /// The held deposit's day.
    deposited: u16,
    /// A guarantee of the account is open.
    guarantee_open: bool,
    /// The number of the account's newest entry; zero where it has none.
    newest: u16,
}

impl Account {
    const EMPTY: Account = Account {
        arrears: 0,
        credit: 0,
        deposit: 0,
        rate: 0,
        deposited: 0,
        guarantee_open: false,
        newest: 0,
    };

    /// Lowers arrears by up to `amount`; gives what is settled and left over.
    fn credit(&mut self, amount: u64) -> (u64, u64) {
        let settled = amount.min(self.arrears);
        self.arrears -= settled;
        (settled, amount - settled)
    }

    /// Lowers credit by up to `amount`; the rest is added to arrears.
    fn charge(&mut self, amount: u64) {
        let from_credit = amount.min(self.credit);
        self.credit -= from_credit;
        self.arrears += amount - from_credit;
    }
}

/// The contribution book.
#[derive(Clone, Debug, PartialEq, Eq)]
pub struct Book {
    accounts: [Account; ACCOUNTS],
    /// Entry number n is at n - 1; places from `count` on are empty.
    entries: [Entry; ENTRIES],
    count: usize,
    /// Last serial of node 1 and of node 2.
    last_serials: [u32; 2],
    /// The year 2000 + n is at n.
    years: [Year; YEARS],
    /// The late-charge run that is open. An image holds none.
    run: Option<Run>,
}

impl Book {
    /// The book with no entries.
    pub fn fresh() -> Book {
        Book {
            accounts: [Account::EMPTY; ACCOUNTS],
            entries: [Entry::EMPTY; ENTRIES],
            count: 0,
            last_serials: [0; 2],
            years: [Year::default(); YEARS],
            run: None,
        }
    }

    /// The number of entries in the book.
    pub fn count(&self) -> usize {
        self.count
    }

    /// Posts each entry in turn and writes its refusal number, or 0, to the
    /// same place in `results`. Refused by 22 where `results` is shorter.
    pub fn carry_over(&mut self, entries: &[Raw], results: &mut [u8]) -> u8 {
        if results.len() < entries.len() {
            return 22;
        }
        for (raw, result) in entries.iter().zip(results) {
            *result = self.post(raw).refusal;
        }
        0
    }

    /// The account's chain, newest first, as places in `entries`.
    fn chain(&self, account: u16) -> impl Iterator<Item = usize> + '_ {
        let mut number = self.account(account).newest;
        std::iter::from_fn(move || {
            let place = usize::from(number).checked_sub(1)?;
            number = self.entries[place].next;
            Some(place)
        })
    }

    /// The place of the account's entry that carries this node and serial.
    fn find(&self, account: u16, node: u8, serial: u32) -> Option<usize> {
        self.chain(account).find(|&place| {
            let raw = &self.entries[place].raw;
            raw.node == node && raw.serial == serial
        })
    }

    /// The node's last serial.
    fn last_serial(&self, node: u8) -> u32 {
        self.last_serials[usize::from(node) - 1]
    }

    fn account(&self, account: u16) -> &Account {
        &self.accounts[usize::from(account) - 1]
    }

    fn account_mut(&mut self, account: u16) -> &mut Account {
        &mut self.accounts[usize::from(account) - 1]
    }
}
