//! A list of calls on one book, which grows by what is posted and carried
//! over. Its seed decides everything in it.

use crate::call::{Buffer, Call, Request};
use crate::entries::{self, Pool};
use crate::expected::Expected;
use crate::history::History;
use crate::images::{self, Kind};
use crate::random::Random;
use crate::years;
use contribution_book::plain::*;

pub struct List {
    random: Random,
    pool: Pool,
    history: History,
    /// How many calls are still to come.
    calls: usize,
}

impl List {
    pub fn new(seed: u64) -> List {
        let mut random = Random::new(seed);
        let pool = Pool::new(&mut random);
        // A load takes time for each record, so most books are short.
        let count = match random.below(64) {
            0 => ENTRIES - random.below(3),
            1 => random.below(ENTRIES),
            _ => random.below(40),
        };
        let history = begun(&mut random, &pool, count);
        let calls = 20 + random.below(40);
        List {
            random,
            pool,
            history,
            calls,
        }
    }

    /// The next call, until the list ends.
    pub fn next_call(&mut self) -> Option<Call> {
        self.calls = self.calls.checked_sub(1)?;
        let request = match self.random.below(10) {
            0 => Request::Check,
            1..=3 => self.post(),
            4 | 5 => self.carry_over(),
            6 => self.statement(),
            7 => self.contribution(),
            8 => self.year(),
            _ => self.page(),
        };
        let (image_kind, image) = match (self.random.below(8), &request) {
            (0, Request::Year { year }) => (Kind::OneYear, self.history.in_year(*year).image()),
            (0..=3, _) => (Kind::Saved, self.history.image()),
            _ => images::damaged(&mut self.random, &self.pool, &self.history),
        };
        Some(Call {
            image_kind,
            image: Buffer::of(&mut self.random, &image),
            request,
        })
    }

    /// Offers the history what an accepted call on its own image posted.
    pub fn take(&mut self, expected: &Expected) {
        if expected.refusal != 0 || expected.after.image_kind != Kind::Saved {
            return;
        }
        let entries = match &expected.after.request {
            Request::Post { entry, .. } => entry,
            Request::CarryOver { entries, .. } => entries,
            _ => return,
        };
        for record in entries.bytes().chunks_exact(RECORD) {
            self.history.offer(&parse_record(record).0);
        }
    }

    fn post(&mut self) -> Request {
        let raw = entries::offered(&mut self.random, &self.pool, &self.history);
        let mut entry = self.record(&raw);
        if self.random.one_in(16) {
            let length = self.random.pick(&[0, 1, 23, 25, 48]);
            entry.resize(length, 0);
        }
        // The room for the next image, also where the entry is refused.
        let next = RECORD * (self.history.entries().len() + 2);
        Request::Post {
            entry: Buffer::of(&mut self.random, &entry),
            output: self.output(next),
        }
    }

    fn carry_over(&mut self) -> Request {
        let count = match self.random.below(64) {
            0 => self.random.below(300),
            1..=4 => self.random.below(60),
            _ => self.random.below(8),
        };
        let mut history = self.history.clone();
        let mut entries = Vec::new();
        for _ in 0..count {
            let raw = entries::offered(&mut self.random, &self.pool, &history);
            history.offer(&raw);
            entries.extend(self.record(&raw));
        }
        if self.random.one_in(16) {
            let length = self.random.below(entries.len() + RECORD);
            entries.resize(length, 0);
        }
        let results = match self.random.below(8) {
            0 => self.random.below(count + 1),
            1..=3 => count + self.random.below(8),
            _ => count,
        };
        Request::CarryOver {
            entries: Buffer::of(&mut self.random, &entries),
            results: Buffer::random(&mut self.random, results),
            output: self.output(history.image().len()),
        }
    }

    /// The entry's record, with a random next index.
    fn record(&mut self, raw: &Raw) -> Vec<u8> {
        let mut record = vec![0; RECORD];
        write_record(&mut record, raw, self.random.next() as u16);
        record
    }

    /// An output with or without room for so many bytes.
    fn output(&mut self, bytes: usize) -> Buffer {
        let length = match self.random.below(8) {
            0 => bytes - 1,
            1 => self.random.below(bytes),
            2 => LONGEST_IMAGE,
            3 | 4 => bytes + self.random.below(100),
            _ => bytes,
        };
        Buffer::random(&mut self.random, length)
    }

    fn statement(&mut self) -> Request {
        let account = self.account();
        let length = self.history.chain_length(account) as u64;
        let edges = [0, 1, length.saturating_sub(1), length, length + 1];
        let allowance = match self.random.below(4) {
            0 => self.random.pick(&[1 << 16, 1 << 32, 1 << 63, u64::MAX]),
            1 => self.random.sized(u64::MAX),
            _ => self.random.pick(&edges),
        };
        Request::Statement { account, allowance }
    }

    fn contribution(&mut self) -> Request {
        let any = self.random.one_in(2);
        let fits = |raw: &&Raw| any || raw.kind == CONTRIBUTION;
        let entries: Vec<&Raw> = self.history.entries().iter().filter(fits).collect();
        let mut raw = match entries.len() {
            0 => entries::entry(&mut self.random, &self.pool, &self.history),
            _ => *self.random.pick(&entries),
        };
        if self.random.one_in(8) {
            raw.account = self.account();
        }
        if self.random.one_in(8) {
            raw.node = self.random.pick(&[0, 1, 2, 3, 255]);
        }
        if self.random.one_in(8) {
            raw.serial = self.random.pick(&[0, raw.serial.wrapping_add(1), u32::MAX]);
        }
        Request::Contribution {
            account: raw.account,
            node: raw.node,
            serial: raw.serial,
        }
    }

    /// Mostly the year of one of the entries, often of one that paid out.
    fn year(&mut self) -> Request {
        let entries = self.history.entries();
        let paying = years::paying(entries);
        let year = match self.random.below(8) {
            0 => self.random.pick(&[0, 1_999, 2_100, u16::MAX]),
            1..=3 if !paying.is_empty() => year_of(self.random.pick(&paying).day),
            1..=6 if !entries.is_empty() => year_of(self.random.pick(entries).day),
            _ => self.random.within(1_999..=2_100),
        };
        Request::Year { year }
    }

    fn page(&mut self) -> Request {
        Request::Page {
            account: self.account(),
            output: self.output(PAGE),
        }
    }

    /// An account of the list, or sometimes any, also one that is none.
    fn account(&mut self) -> u16 {
        match self.random.below(8) {
            0 => self.random.pick(&[0, 129, 257, u16::MAX]),
            1 => self.random.within(0..=130),
            _ => self.random.pick(&self.pool.accounts),
        }
    }
}

/// A history of so many entries. Each leaves its node a serial for every entry
/// still to come and one more, so that another can always be written.
fn begun(random: &mut Random, pool: &Pool, count: usize) -> History {
    let mut history = History::empty();
    while history.entries().len() < count {
        let left = (count - history.entries().len()) as u32;
        let raw = entries::entry(random, pool, &history);
        if raw.serial <= u32::MAX - left {
            history.record(&raw);
        }
    }
    history
}
