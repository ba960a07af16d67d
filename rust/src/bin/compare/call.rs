//! A call of the library with all that it is given, and its answer.

use crate::images;
use crate::random::Random;
use contribution_book::proved::*;
use std::fmt;
use std::ops::Range;

/// A buffer and some memory before and after it, which no call may change.
#[derive(Clone, PartialEq, Eq)]
pub struct Buffer {
    pub memory: Vec<u8>,
    place: Range<usize>,
}

impl Buffer {
    /// A buffer of random bytes.
    pub fn random(random: &mut Random, length: usize) -> Buffer {
        let start = random.within(1..=16u8).into();
        let memory = random.bytes(start + length + 16);
        let place = start..start + length;
        Buffer { memory, place }
    }

    pub fn of(random: &mut Random, bytes: &[u8]) -> Buffer {
        let mut buffer = Buffer::random(random, bytes.len());
        buffer.bytes_mut().copy_from_slice(bytes);
        buffer
    }

    pub fn bytes(&self) -> &[u8] {
        &self.memory[self.place.clone()]
    }

    pub fn bytes_mut(&mut self) -> &mut [u8] {
        &mut self.memory[self.place.clone()]
    }

    /// Where the memory first differs from the other's, counted from the
    /// buffer's first byte, and the two bytes there.
    pub fn first_unlike(&self, other: &Buffer) -> Option<(isize, u8, u8)> {
        let mut pairs = self.memory.iter().zip(&other.memory);
        let place = pairs.position(|(byte, other)| byte != other)?;
        let from_start = place as isize - self.place.start as isize;
        Some((from_start, self.memory[place], other.memory[place]))
    }
}

/// The buffer's length and its bytes, a record's together.
impl fmt::Debug for Buffer {
    fn fmt(&self, out: &mut fmt::Formatter) -> fmt::Result {
        write!(out, "{} bytes", self.bytes().len())?;
        for (place, byte) in self.bytes().iter().enumerate() {
            let space = if place % RECORD == 0 { " " } else { "" };
            write!(out, "{space}{byte:02X}")?;
        }
        Ok(())
    }
}

#[derive(Clone, Debug, PartialEq, Eq)]
pub struct Call {
    pub image_kind: images::Kind,
    pub image: Buffer,
    pub request: Request,
}

/// What is asked of the image.
#[derive(Clone, Debug, PartialEq, Eq)]
pub enum Request {
    Check,
    Post {
        entry: Buffer,
        output: Buffer,
    },
    CarryOver {
        entries: Buffer,
        results: Buffer,
        output: Buffer,
    },
    Statement {
        account: u16,
        allowance: u64,
    },
    Contribution {
        account: u16,
        node: u8,
        serial: u32,
    },
    Year {
        year: u16,
    },
    Page {
        account: u16,
        output: Buffer,
    },
}

/// The kinds of call, in the order of `Request::kind`.
pub const KINDS: [&str; 7] = [
    "check",
    "post",
    "carry over",
    "statement",
    "contribution",
    "year",
    "page",
];

#[derive(Clone, Copy, Debug, PartialEq, Eq)]
pub enum Answer {
    Checked(CheckGiven),
    Posted(PostingGiven),
    Carried(CarryGiven),
    Statement(StatementGiven),
    Contribution(ContributionGiven),
    Year(YearGiven),
    Page(PageGiven),
}

impl Request {
    /// The request's place in `KINDS`.
    pub fn kind(&self) -> usize {
        match self {
            Request::Check => 0,
            Request::Post { .. } => 1,
            Request::CarryOver { .. } => 2,
            Request::Statement { .. } => 3,
            Request::Contribution { .. } => 4,
            Request::Year { .. } => 5,
            Request::Page { .. } => 6,
        }
    }

    /// A refused call's answer: zeros but for the refusal and the record.
    pub fn refused(&self, refusal: u8, record: u16) -> Answer {
        match self {
            Request::Check => Answer::Checked(CheckGiven {
                refusal,
                record,
                ..CheckGiven::default()
            }),
            Request::Post { .. } => Answer::Posted(PostingGiven {
                refusal,
                record,
                ..PostingGiven::default()
            }),
            Request::CarryOver { .. } => Answer::Carried(CarryGiven {
                refusal,
                record,
                ..CarryGiven::default()
            }),
            Request::Statement { .. } => Answer::Statement(StatementGiven {
                refusal,
                record,
                ..StatementGiven::default()
            }),
            Request::Contribution { .. } => Answer::Contribution(ContributionGiven {
                refusal,
                record,
                ..ContributionGiven::default()
            }),
            Request::Year { .. } => Answer::Year(YearGiven {
                refusal,
                record,
                ..YearGiven::default()
            }),
            Request::Page { .. } => Answer::Page(PageGiven {
                refusal,
                record,
                ..PageGiven::default()
            }),
        }
    }
}

impl Call {
    pub fn buffers(&self) -> Vec<(&'static str, &Buffer)> {
        let mut buffers = vec![("image", &self.image)];
        match &self.request {
            Request::Post { entry, output } => {
                buffers.extend([("entry", entry), ("output", output)]);
            }
            Request::CarryOver {
                entries,
                results,
                output,
            } => buffers.extend([
                ("entries", entries),
                ("results", results),
                ("output", output),
            ]),
            Request::Page { output, .. } => buffers.push(("output", output)),
            _ => {}
        }
        buffers
    }

    /// Calls the proved library.
    pub fn proved(&mut self) -> Answer {
        let image = self.image.bytes();
        match &mut self.request {
            Request::Check => Answer::Checked(check(image)),
            Request::Post { entry, output } => {
                Answer::Posted(post(image, entry.bytes(), output.bytes_mut()))
            }
            Request::CarryOver {
                entries,
                results,
                output,
            } => Answer::Carried(carry_over(
                image,
                entries.bytes(),
                results.bytes_mut(),
                output.bytes_mut(),
            )),
            &mut Request::Statement { account, allowance } => {
                Answer::Statement(statement(image, account, allowance))
            }
            &mut Request::Contribution {
                account,
                node,
                serial,
            } => Answer::Contribution(contribution(image, account, node, serial)),
            &mut Request::Year { year: asked } => Answer::Year(year(image, asked)),
            Request::Page { account, output } => {
                Answer::Page(page(image, *account, output.bytes_mut()))
            }
        }
    }
}
