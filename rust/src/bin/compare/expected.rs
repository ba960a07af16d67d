//! What the plain book makes of a call: it loads the image, answers the
//! request and saves. The totals of a year are summed over the image's entries.

use crate::call::{Answer, Call, Request};
use crate::images::entries_of;
use crate::years::taken;
use contribution_book::plain::*;
use contribution_book::proved::{
    CarryGiven, CheckGiven, ContributionGiven, PageGiven, PostingGiven, StatementGiven, YearGiven,
};
use contribution_book::summed;

pub struct Expected {
    pub answer: Answer,
    /// The call with its buffers as they are afterwards.
    pub after: Call,
    pub refusal: u8,
    pub image_refused: bool,
    /// The record at fault in a refused image, or 0.
    pub record: u16,
}

/// What a request gives, or its refusal number.
type Given<T> = Result<T, u8>;

pub fn expected(call: &Call) -> Expected {
    let mut after = call.clone();
    let image = call.image.bytes();
    let (mut book, image_refusal, record) = Book::load(image);
    let given = accept(image_refusal).and_then(|()| answer(&mut book, image, &mut after.request));
    Expected {
        answer: given.unwrap_or_else(|refusal| call.request.refused(refusal, record)),
        after,
        refusal: given.err().unwrap_or(0),
        image_refused: image_refusal != 0,
        record,
    }
}

fn accept(refusal: u8) -> Given<()> {
    match refusal {
        0 => Ok(()),
        _ => Err(refusal),
    }
}

fn answer(book: &mut Book, image: &[u8], request: &mut Request) -> Given<Answer> {
    Ok(match request {
        Request::Check => Answer::Checked(CheckGiven {
            entries: book.count() as u16,
            ..CheckGiven::default()
        }),
        Request::Post { entry, output } => {
            Answer::Posted(post(book, entry.bytes(), output.bytes_mut())?)
        }
        Request::CarryOver {
            entries,
            results,
            output,
        } => Answer::Carried(carry_over(
            book,
            entries.bytes(),
            results.bytes_mut(),
            output.bytes_mut(),
        )?),
        &mut Request::Statement { account, allowance } => {
            Answer::Statement(statement(book, account, allowance)?)
        }
        &mut Request::Contribution {
            account,
            node,
            serial,
        } => Answer::Contribution(contribution(book, account, node, serial)?),
        &mut Request::Year { year } => Answer::Year(year_of_entries(book, image, year)),
        Request::Page { account, output } => {
            Answer::Page(page(book, *account, output.bytes_mut())?)
        }
    })
}

fn post(book: &mut Book, entry: &[u8], output: &mut [u8]) -> Given<PostingGiven> {
    if entry.len() != RECORD {
        return Err(17);
    }
    let reply = book.post(&parse_record(entry).0);
    accept(reply.refusal)?;
    Ok(PostingGiven::new(reply, save(book, output)?))
}

fn carry_over(
    book: &mut Book,
    entries: &[u8],
    results: &mut [u8],
    output: &mut [u8],
) -> Given<CarryGiven> {
    let entries = entries.chunks_exact(RECORD);
    if !entries.remainder().is_empty() {
        return Err(17);
    }
    let entries: Vec<Raw> = entries.map(|record| parse_record(record).0).collect();
    let mut written = results.to_vec();
    accept(book.carry_over(&entries, &mut written))?;
    let bytes = save(book, output)?;
    results.copy_from_slice(&written);
    Ok(CarryGiven {
        refusal: 0,
        record: 0,
        bytes,
    })
}

fn save(book: &Book, output: &mut [u8]) -> Given<usize> {
    let (refusal, bytes) = book.save(output);
    accept(refusal).map(|()| bytes)
}

fn statement(book: &Book, account: u16, allowance: u64) -> Given<StatementGiven> {
    let reply = book.statement(account, allowance);
    accept(reply.refusal)?;
    Ok(reply.into())
}

fn contribution(book: &Book, account: u16, node: u8, serial: u32) -> Given<ContributionGiven> {
    let reply = book.contribution_query(account, node, serial);
    accept(reply.refusal)?;
    Ok(reply.into())
}

/// The totals of a year, of which the plain book keeps the same.
fn year_of_entries(book: &Book, image: &[u8], year: u16) -> YearGiven {
    let totals = summed::year_totals(year, &taken(&entries_of(image)));
    assert_eq!(book.year_totals(year), totals, "{year} in the plain book");
    totals.into()
}

fn page(book: &Book, account: u16, output: &mut [u8]) -> Given<PageGiven> {
    let (refusal, bytes) = book.page(account, output);
    accept(refusal)?;
    Ok(PageGiven {
        refusal: 0,
        record: 0,
        bytes,
    })
}
