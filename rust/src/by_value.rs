//! The plain book passed by value: each call takes the book and gives the
//! next one beside its answer.
//!
//! No call is inlined: an inlined one passes no book.

use crate::plain::{self, ContributionReply, PostingReply, Raw, StatementReply, Year, RECORD};

/// The contribution book, passed by value.
#[derive(Clone, Debug, PartialEq, Eq)]
pub struct Book {
    plain: plain::Book,
}

impl Book {
    /// The book with no entries.
    pub fn fresh() -> Book {
        Book {
            plain: plain::Book::fresh(),
        }
    }

    /// The number of entries in the book.
    pub fn count(&self) -> usize {
        self.plain.count()
    }

    /// Posts one entry.
    #[inline(never)]
    pub fn post(mut self, raw: &Raw) -> (Book, PostingReply) {
        let reply = self.plain.post(raw);
        (self, reply)
    }

    /// Takes in a record of an image as a posting does.
    #[inline(never)]
    fn record(mut self, raw: &Raw) -> (Book, PostingReply) {
        let reply = self.plain.record(raw);
        (self, reply)
    }

    /// Posts each entry in turn and writes its refusal number, or 0, to the
    /// same place in `results`. Refused by 22 where `results` is shorter.
    #[inline(never)]
    pub fn carry_over(self, entries: &[Raw], results: &mut [u8]) -> (Book, u8) {
        let mut book = self;
        if results.len() < entries.len() {
            return (book, 22);
        }
        for (raw, result) in entries.iter().zip(results) {
            let (next, reply) = book.post(raw);
            *result = reply.refusal;
            book = next;
        }
        (book, 0)
    }

    /// Opens a late-charge run; gives 0, or 28.
    #[inline(never)]
    pub fn open_run(mut self, node: u8, day: u16, rate: u16) -> (Book, u8) {
        let refusal = self.plain.open_run(node, day, rate);
        (self, refusal)
    }

    /// Charges the run's next account.
    #[inline(never)]
    pub fn step(mut self) -> (Book, PostingReply) {
        let reply = self.plain.step();
        (self, reply)
    }

    /// Closes the run early; gives 0, or 28.
    #[inline(never)]
    pub fn close_run(mut self) -> (Book, u8) {
        let refusal = self.plain.close_run();
        (self, refusal)
    }

    /// The statement of an account.
    #[inline(never)]
    pub fn statement(self, account: u16, allowance: u64) -> (Book, StatementReply) {
        let reply = self.plain.statement(account, allowance);
        (self, reply)
    }

    /// One contribution of the account.
    #[inline(never)]
    pub fn contribution_query(
        self,
        account: u16,
        node: u8,
        serial: u32,
    ) -> (Book, ContributionReply) {
        let reply = self.plain.contribution_query(account, node, serial);
        (self, reply)
    }

    /// The totals of a calendar year.
    #[inline(never)]
    pub fn year_totals(self, year: u16) -> (Book, Year) {
        let totals = self.plain.year_totals(year);
        (self, totals)
    }

    /// Writes the account's page; gives refusal 0 and its length, or 3 or 23.
    #[inline(never)]
    pub fn page(self, account: u16, buffer: &mut [u8]) -> (Book, u8, usize) {
        let (refusal, length) = self.plain.page(account, buffer);
        (self, refusal, length)
    }

    /// Writes the image; gives refusal 0 and its length, or 29 or 21.
    #[inline(never)]
    pub fn save(self, buffer: &mut [u8]) -> (Book, u8, usize) {
        let (refusal, length) = self.plain.save(buffer);
        (self, refusal, length)
    }

    /// Reads an image: the book, refusal 0 and record 0; or a fresh book, the
    /// first refusal and its record.
    #[inline(never)]
    pub fn load(image: &[u8]) -> (Book, u8, u16) {
        if let Err(refusal) = plain::check_header(image) {
            return (Book::fresh(), refusal, 0);
        }
        let mut book = Book::fresh();
        for (record, number) in image[RECORD..].chunks_exact(RECORD).zip(1..) {
            let (raw, next_index) = plain::parse_record(record);
            let (next, reply) = book.record(&raw);
            if let Err(refusal) = next.plain.check_record(reply, next_index) {
                return (Book::fresh(), refusal, number);
            }
            book = next;
        }
        (book, 0, 0)
    }
}
