//! The entries of an image, and damaged images.

use crate::entries::{self, Pool, REFUSALS};
use crate::history::History;
use crate::random::Random;
use contribution_book::plain::{
    parse_record, write_record, Incoming, Raw, BILL, ENTRIES, LATE_CHARGE, LONGEST_IMAGE, RECORD,
};

/// How an image came about.
#[derive(Clone, Copy, Debug, PartialEq, Eq)]
pub enum Kind {
    /// Saved by the plain book.
    Saved,
    /// Saved too; all its days are in one year.
    OneYear,
    /// Cut or lengthened.
    Length,
    /// A byte of the mark or of the header's zeros is another.
    Header,
    /// The count is another.
    Count,
    /// An entry takes the place of another, or comes at the end.
    Entry,
    /// A record's next index is another.
    NextIndex,
    /// A record is left out.
    LeftOut,
    /// One byte somewhere is another.
    Byte,
    /// Random bytes, with or without a right header.
    Random,
}

impl Kind {
    pub const ALL: [Kind; 10] = [
        Kind::Saved,
        Kind::OneYear,
        Kind::Length,
        Kind::Header,
        Kind::Count,
        Kind::Entry,
        Kind::NextIndex,
        Kind::LeftOut,
        Kind::Byte,
        Kind::Random,
    ];
}

/// The entries of an accepted image.
pub fn entries_of(image: &[u8]) -> Vec<Raw> {
    let records = image.chunks_exact(RECORD).skip(1);
    records.map(|record| parse_record(record).0).collect()
}

/// The image of the history, damaged or, by chance, not.
pub fn damaged(random: &mut Random, pool: &Pool, history: &History) -> (Kind, Vec<u8>) {
    let image = history.image();
    match random.below(16) {
        0 => (Kind::Length, other_length(random, image)),
        1 => (Kind::Header, other_header(random, image)),
        2 => (Kind::Count, other_count(random, image)),
        3 | 4 => (Kind::NextIndex, other_next_index(random, image)),
        5 => (Kind::LeftOut, left_out(random, image)),
        6 => (Kind::Byte, other_byte(random, image)),
        7 => (Kind::Random, random_bytes(random)),
        _ => (Kind::Entry, other_entry(random, pool, history)),
    }
}

fn other_length(random: &mut Random, mut image: Vec<u8>) -> Vec<u8> {
    let more = 1 + random.below(2 * RECORD);
    let length = match random.below(8) {
        0 => 0,
        1 => RECORD - 1,
        2 => LONGEST_IMAGE + RECORD,
        3 => LONGEST_IMAGE + more,
        4 | 5 => image.len() + more,
        _ => random.below(image.len()),
    };
    image.resize(length, random.next() as u8);
    image
}

/// Changes the byte at this place.
fn change(random: &mut Random, image: &mut [u8], place: usize) {
    image[place] ^= random.within(1..=u8::MAX);
}

fn other_header(random: &mut Random, mut image: Vec<u8>) -> Vec<u8> {
    let place = random.below(RECORD - 2);
    let place = if place < 4 { place } else { place + 2 };
    change(random, &mut image, place);
    image
}

fn other_count(random: &mut Random, mut image: Vec<u8>) -> Vec<u8> {
    let place = random.pick(&[4, 5]);
    change(random, &mut image, place);
    image
}

/// An entry made for the history up to its place, where it may be refused by
/// any number of a posting, 7 and 30 apart, more often by one that few entries
/// meet, or is a late charge or a bill of zero days served and refused by its
/// fields or its serial; with the next index that it would get. The records after
/// it stay or are left out.
fn other_entry(random: &mut Random, pool: &Pool, history: &History) -> Vec<u8> {
    let count = history.entries().len();
    let place = random.below((count + 1).min(ENTRIES));
    let before = history.first(place);
    let recorded = pool.recorded(random.pick(&[LATE_CHARGE, BILL]));
    let (pool, refusal) = match random.below(16) {
        0 => (&recorded, random.within(2..=6)),
        1..=7 => (pool, random.pick(&REFUSALS)),
        _ => (pool, random.pick(&[11, 12, 13, 14, 14, 15, 15, 16, 25, 26])),
    };
    let raw = entries::aimed(random, pool, &before, Incoming::Recorded, refusal);
    let mut record = [0; RECORD];
    write_record(&mut record, &raw, before.newest(raw.account));

    let mut image = before.image();
    image.extend(record);
    if random.one_in(2) {
        let after = history.image();
        image.extend(after.iter().skip(image.len()));
    }
    set_count(&mut image);
    image
}

/// Sets the count that the image's length asks for.
fn set_count(image: &mut [u8]) {
    let count = (image.len() / RECORD - 1) as u16;
    image[4..6].copy_from_slice(&count.to_le_bytes());
}

/// Where a record of the image begins; none where it has no record.
fn any_record(random: &mut Random, image: &[u8]) -> Option<usize> {
    match image.len() / RECORD - 1 {
        0 => None,
        count => Some(RECORD * (1 + random.below(count))),
    }
}

fn other_next_index(random: &mut Random, mut image: Vec<u8>) -> Vec<u8> {
    if let Some(start) = any_record(random, &image) {
        let number = (start / RECORD) as u16;
        let index = match random.below(4) {
            0 => 0,
            1 => random.within(0..=number),
            2 => number - 1,
            _ => random.next() as u16,
        };
        image[start + 6..start + 8].copy_from_slice(&index.to_le_bytes());
    }
    image
}

fn left_out(random: &mut Random, mut image: Vec<u8>) -> Vec<u8> {
    if let Some(start) = any_record(random, &image) {
        image.drain(start..start + RECORD);
        set_count(&mut image);
    }
    image
}

fn other_byte(random: &mut Random, mut image: Vec<u8>) -> Vec<u8> {
    let place = random.below(image.len());
    change(random, &mut image, place);
    image
}

fn random_bytes(random: &mut Random) -> Vec<u8> {
    let length = random.below(100 * RECORD);
    let mut image = random.bytes(length);
    if length >= RECORD && random.one_in(2) {
        image.truncate(length - length % RECORD);
        image[..RECORD].fill(0);
        image[..4].copy_from_slice(b"CHB1");
        set_count(&mut image);
    }
    image
}
