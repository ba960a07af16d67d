//! The statement printer over the plain book passed by value.

use contribution_book::by_value::Book;
use contribution_book::plain::ACCOUNTS;
use contribution_book::printer::{read_image, write_account};
use std::io::{self, Write};

fn main() -> io::Result<()> {
    let mut out = io::stdout().lock();
    let (mut book, refusal, record) = Book::load(&read_image()?);
    if refusal != 0 {
        return writeln!(out, "refused {refusal} {record}");
    }
    for account in 1..=ACCOUNTS as u16 {
        let (next, reply) = book.statement(account, 0);
        write_account(&mut out, account, &reply)?;
        book = next;
    }
    writeln!(out, "end {}", book.count())
}
