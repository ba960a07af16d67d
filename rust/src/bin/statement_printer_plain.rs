//! The statement printer over the plain book.

use contribution_book::plain::{Book, ACCOUNTS};
use contribution_book::printer::{read_image, write_account};
use std::io::{self, Write};

fn main() -> io::Result<()> {
    let mut out = io::stdout().lock();
    let (book, refusal, record) = Book::load(&read_image()?);
    if refusal != 0 {
        return writeln!(out, "refused {refusal} {record}");
    }
    for account in 1..=ACCOUNTS as u16 {
        write_account(&mut out, account, &book.statement(account, 0))?;
    }
    writeln!(out, "end {}", book.count())
}
