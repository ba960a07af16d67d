//! A plain book and the entries that it accepted, in order, late charges and
//! bills of zero days served as records alone.

use contribution_book::plain::*;

/// Days from the first of a common year to its last.
const COMMON_YEAR: u32 = 364;

#[derive(Clone)]
pub struct History {
    book: Book,
    entries: Vec<Raw>,
}

impl History {
    pub fn empty() -> History {
        History {
            book: Book::fresh(),
            entries: Vec::new(),
        }
    }

    /// Posts the entry, which joins the history unless it is refused.
    pub fn offer(&mut self, raw: &Raw) {
        if self.book.post(raw).refusal == 0 {
            self.entries.push(*raw);
        }
    }

    /// Takes the entry in as a record, which joins the history unless it is
    /// refused.
    pub fn record(&mut self, raw: &Raw) {
        if self.book.record(raw).refusal == 0 {
            self.entries.push(*raw);
        }
    }

    /// What the entry is refused by, or 0.
    pub fn refusal(&self, raw: &Raw, incoming: Incoming) -> u8 {
        self.book.refusal(raw, incoming)
    }

    pub fn entries(&self) -> &[Raw] {
        &self.entries
    }

    /// The history of the first entries.
    pub fn first(&self, count: usize) -> History {
        let mut history = History::empty();
        for raw in &self.entries[..count] {
            history.record(raw);
        }
        history
    }

    /// The history of these entries with all their days in the year of the book
    /// that is nearest to `year`, in their order, without entries that are
    /// refused then.
    pub fn in_year(&self, year: u16) -> History {
        let first_day = day_of(Date {
            year: year.clamp(2000, 2099),
            month: 1,
            day: 1,
        });
        let mut history = History::empty();
        for raw in &self.entries {
            let days = u32::from(raw.day) * COMMON_YEAR / u32::from(LAST_DAY);
            let day = first_day + days as u16;
            history.record(&Raw { day, ..*raw });
        }
        history
    }

    pub fn image(&self) -> Vec<u8> {
        let mut image = vec![0; RECORD * (self.entries.len() + 1)];
        self.book.save(&mut image);
        image
    }

    pub fn last_serial(&self, node: u8) -> u32 {
        let mut newest_first = self.entries.iter().rev();
        newest_first
            .find(|raw| raw.node == node)
            .map_or(0, |raw| raw.serial)
    }

    /// The number of the account's newest entry, or 0.
    pub fn newest(&self, account: u16) -> u16 {
        let place = self.entries.iter().rposition(|raw| raw.account == account);
        place.map_or(0, |place| place as u16 + 1)
    }

    /// How many entries the account has.
    pub fn chain_length(&self, account: u16) -> usize {
        let on_account = self.entries.iter().filter(|raw| raw.account == account);
        on_account.count()
    }
}
