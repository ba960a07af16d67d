//! The statement page of document 02's request 1.

use super::check::is_account;
use super::*;
use std::fmt::Arguments;
use std::io::Write;

impl Book {
    /// Writes the account's page and gives refusal 0 and its length. Refused
    /// by 3, then by 23 where the buffer is shorter; the buffer is then
    /// untouched.
    pub fn page(&self, account: u16, buffer: &mut [u8]) -> (u8, usize) {
        if !is_account(account) {
            return (3, 0);
        }
        let Some(page) = buffer.get_mut(..PAGE) else {
            return (23, 0);
        };
        write_blank(page);
        write_line(page, 1, format_args!("{account:>3}"));
        self.write_figures(account, page);
        for (line, place) in (8..=65).zip(self.chain(account)) {
            self.write_entry(place, page, line);
        }
        (0, PAGE)
    }

    /// Arrears, credit, deposit held and held, in lines 3 to 6.
    fn write_figures(&self, account: u16, page: &mut [u8]) {
        let StatementReply {
            arrears,
            credit,
            deposit,
            held,
            ..
        } = self.statement(account, 0);
        for (line, cents) in (3..=6).zip([arrears, credit, deposit, held]) {
            let (dollars, cents) = (cents / 100, cents % 100);
            write_line(page, line, format_args!("{dollars:>77}.{cents:02}"));
        }
    }

    /// Number, day, kind and amount of the entry at this place.
    fn write_entry(&self, place: usize, page: &mut [u8], line: usize) {
        let Entry { raw, standing, .. } = &self.entries[place];
        let Raw { day, kind, .. } = raw;
        let number = place + 1;
        let amount = match *kind {
            BILL | PAYMENT => *standing,
            _ => raw.amount.into(),
        };
        let (dollars, cents) = (amount / 100, amount % 100);
        write_line(
            page,
            line,
            format_args!("{number:>4} {day:>5} {kind:>2}{dollars:>64}.{cents:02}"),
        );
    }
}

/// Spaces, and the newline of each line.
fn write_blank(page: &mut [u8]) {
    page.fill(b' ');
    for line in page.chunks_exact_mut(COLUMNS + 1) {
        line[COLUMNS] = b'\n';
    }
}

/// Writes the text from column 1 of a line on. Lines are counted from 1.
fn write_line(page: &mut [u8], line: usize, text: Arguments<'_>) {
    let start = (COLUMNS + 1) * (line - 1);
    let mut columns = &mut page[start..start + COLUMNS];
    columns
        .write_fmt(text)
        .expect("the text has 80 columns at most");
}
