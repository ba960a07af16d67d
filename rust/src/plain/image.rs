//! The image: a header of 24 bytes and 24 bytes for each entry,
//! little-endian.

use super::*;

const MARK: &[u8; 4] = b"CHB1";

impl Book {
    /// Writes the image and gives refusal 0 and its length. Refused by 29
    /// during a run, then by 21 where the buffer is shorter; the buffer is then
    /// untouched.
    pub fn save(&self, buffer: &mut [u8]) -> (u8, usize) {
        if self.run.is_some() {
            return (29, 0);
        }
        let length = RECORD * (self.count + 1);
        if buffer.len() < length {
            return (21, 0);
        }
        let (header, records) = buffer[..length].split_at_mut(RECORD);
        write_header(header, self.count as u16);
        let entries = &self.entries[..self.count];
        for (record, entry) in records.chunks_exact_mut(RECORD).zip(entries) {
            write_record(record, &entry.raw, entry.next);
        }
        (0, length)
    }

    /// Reads an image: the book, refusal 0 and record 0; or a fresh book, the
    /// first refusal and its record, 0 where no record is at fault.
    pub fn load(image: &[u8]) -> (Book, u8, u16) {
        match Book::read(image) {
            Ok(book) => (book, 0, 0),
            Err((refusal, record)) => (Book::fresh(), refusal, record),
        }
    }

    fn read(image: &[u8]) -> Result<Book, (u8, u16)> {
        check_header(image).map_err(|refusal| (refusal, 0))?;
        let mut book = Book::fresh();
        for (record, number) in image[RECORD..].chunks_exact(RECORD).zip(1..) {
            book.read_record(record)
                .map_err(|refusal| (refusal, number))?;
        }
        Ok(book)
    }

    fn read_record(&mut self, record: &[u8]) -> Result<(), u8> {
        let (raw, next) = parse_record(record);
        let reply = self.record(&raw);
        self.check_record(reply, next)
    }

    /// The record taken in last: as it was answered, then its next index by
    /// 20.
    pub(crate) fn check_record(&self, reply: PostingReply, next: u16) -> Result<(), u8> {
        if reply.refusal != 0 {
            return Err(reply.refusal);
        }
        if next != self.entries[self.count - 1].next {
            return Err(20);
        }
        Ok(())
    }
}

/// Refusals 17, 18 and 19.
pub(crate) fn check_header(image: &[u8]) -> Result<(), u8> {
    let length = image.len();
    if !(RECORD..=LONGEST_IMAGE).contains(&length) || !length.is_multiple_of(RECORD) {
        return Err(17);
    }
    if image[..4] != MARK[..] || image[6..RECORD].iter().any(|&byte| byte != 0) {
        return Err(18);
    }
    if usize::from(u16_at(image, 4)) != length / RECORD - 1 {
        return Err(19);
    }
    Ok(())
}

fn write_header(header: &mut [u8], count: u16) {
    header.fill(0);
    header[..4].copy_from_slice(MARK);
    header[4..6].copy_from_slice(&count.to_le_bytes());
}

/// Writes an entry and its next index to a record of 24 bytes.
pub fn write_record(record: &mut [u8], raw: &Raw, next: u16) {
    record[0] = raw.kind;
    record[1] = raw.node;
    record[2..4].copy_from_slice(&raw.account.to_le_bytes());
    record[4..6].copy_from_slice(&raw.day.to_le_bytes());
    record[6..8].copy_from_slice(&next.to_le_bytes());
    record[8..12].copy_from_slice(&raw.serial.to_le_bytes());
    record[12..16].copy_from_slice(&raw.amount.to_le_bytes());
    record[16..20].copy_from_slice(&raw.named_serial.to_le_bytes());
    record[20..22].copy_from_slice(&raw.a.to_le_bytes());
    record[22] = raw.b;
    record[23] = raw.named_node;
}

/// The entry and the next index of a record of 24 bytes.
pub fn parse_record(record: &[u8]) -> (Raw, u16) {
    let raw = Raw {
        kind: record[0],
        node: record[1],
        account: u16_at(record, 2),
        day: u16_at(record, 4),
        serial: u32_at(record, 8),
        amount: u32_at(record, 12),
        named_serial: u32_at(record, 16),
        a: u16_at(record, 20),
        b: record[22],
        named_node: record[23],
    };
    (raw, u16_at(record, 6))
}

fn u16_at(bytes: &[u8], at: usize) -> u16 {
    u16::from_le_bytes([bytes[at], bytes[at + 1]])
}

fn u32_at(bytes: &[u8], at: usize) -> u32 {
    u32::from_le_bytes([bytes[at], bytes[at + 1], bytes[at + 2], bytes[at + 3]])
}
