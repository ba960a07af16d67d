//! Makes the calls of a list to the plain book and to a library, and stops at
//! the first difference.

use crate::call::{Answer, Buffer, Call};
use crate::expected::{expected, Expected};
use crate::list::List;
use crate::tally::Tally;
use std::fmt;

/// A call on which the library differs from the plain book.
pub struct Difference {
    /// The list's seed.
    pub list: u64,
    /// The call's place in the list, from 1.
    place: usize,
    call: Call,
    expected: Expected,
    answer: Answer,
    /// The call with its buffers as the library leaves them.
    after: Call,
}

/// Compares the calls of one list: the answers, and all buffers with the
/// memory around them.
pub fn compare(
    list: u64,
    library: impl Fn(&mut Call) -> Answer,
    tally: &mut Tally,
) -> Result<(), Box<Difference>> {
    let mut calls = List::new(list);
    let mut place = 0;
    while let Some(call) = calls.next_call() {
        place += 1;
        let expected = expected(&call);
        let mut after = call.clone();
        let answer = library(&mut after);
        if answer != expected.answer || after != expected.after {
            return Err(Box::new(Difference {
                list,
                place,
                call,
                expected,
                answer,
                after,
            }));
        }
        tally.count(&expected);
        calls.take(&expected);
    }
    Ok(())
}

impl fmt::Display for Difference {
    fn fmt(&self, out: &mut fmt::Formatter) -> fmt::Result {
        writeln!(out, "difference in list {}, call {}", self.list, self.place)?;
        writeln!(out, "{:#?}", self.call)?;
        writeln!(out, "plain book: {:?}", self.expected.answer)?;
        writeln!(out, "library:    {:?}", self.answer)?;
        let buffers = self.expected.after.buffers().into_iter();
        for ((name, plain), (_, library)) in buffers.zip(self.after.buffers()) {
            write_first_unlike(out, name, plain, library)?;
        }
        write!(out, "--list {} makes this list's calls again", self.list)
    }
}

/// Says where the two first differ, counted from the buffer's first byte.
fn write_first_unlike(
    out: &mut fmt::Formatter,
    name: &str,
    plain: &Buffer,
    library: &Buffer,
) -> fmt::Result {
    match plain.first_unlike(library) {
        None => Ok(()),
        Some((place, byte, other)) => writeln!(
            out,
            "{name}: byte {place} is {byte:02X} after the plain book, {other:02X} after the library"
        ),
    }
}
