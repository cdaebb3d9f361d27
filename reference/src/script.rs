//! The scripts of REPLAY.md: calls to one desk, as bytes.

use crate::book;
use crate::events::{Event, EVERY_EVENT};
use std::fmt;

/// The longest buffer that a script may lend to pool or shortlist, in numbers.
pub const MAX_LENT_NUMBERS: u32 = 512;
/// The longest buffer that a script may lend to write, in bytes.
pub const MAX_WRITE_LENGTH: u32 = 8_192;
/// The longest book that a script may lend to load or shortlist, in bytes.
pub const MAX_BOOK_LENGTH: u32 = 65_535;

#[derive(Clone, Debug, PartialEq, Eq)]
pub enum Call {
    Load {
        place: u32,
        rater: u32,
        book: Vec<u8>,
    },
    Clear {
        place: u32,
    },
    Pool {
        place: u32,
        length: u32,
    },
    Cheapest {
        place: u32,
        u: u32,
        v: u32,
    },
    Compare,
    Measures {
        place: u32,
    },
    Brier {
        place: u32,
    },
    Spread {
        place: u32,
    },
    Write {
        length: u32,
    },
    CompareShares,
    Shortlist {
        length: u32,
        book: Vec<u8>,
    },
    Event {
        event: Event,
        place: u32,
        grade: u32,
    },
}

/// The operation of the first event; those of the others follow it.
const FIRST_EVENT: u32 = 12;
const LAST_EVENT: u32 = FIRST_EVENT + EVERY_EVENT.len() as u32 - 1;

impl Call {
    /// Operation number and operands, without the book.
    fn numbers(&self) -> Vec<u32> {
        match *self {
            Call::Load {
                place,
                rater,
                ref book,
            } => vec![1, place, rater, book.len() as u32],
            Call::Clear { place } => vec![2, place],
            Call::Pool { place, length } => vec![3, place, length],
            Call::Cheapest { place, u, v } => vec![4, place, u, v],
            Call::Compare => vec![5],
            Call::Measures { place } => vec![6, place],
            Call::Brier { place } => vec![7, place],
            Call::Spread { place } => vec![8, place],
            Call::Write { length } => vec![9, length],
            Call::CompareShares => vec![10],
            Call::Shortlist { length, ref book } => vec![11, length, book.len() as u32],
            Call::Event {
                event,
                place,
                grade,
            } => vec![FIRST_EVENT + event as u32, place, grade],
        }
    }

    /// The book that the call is lent, if it is lent one.
    pub fn book(&self) -> Option<&[u8]> {
        match self {
            Call::Load { book, .. } | Call::Shortlist { book, .. } => Some(book),
            _ => None,
        }
    }

    pub fn encode(&self) -> Vec<u8> {
        let numbers = self.numbers();
        let mut bytes: Vec<u8> = numbers.iter().flat_map(|n| n.to_le_bytes()).collect();
        bytes.extend(self.book().unwrap_or_default());
        bytes
    }

    pub fn name(&self) -> &'static str {
        match self {
            Call::Load { .. } => "load",
            Call::Clear { .. } => "clear",
            Call::Pool { .. } => "pool",
            Call::Cheapest { .. } => "cheapest",
            Call::Compare => "compare",
            Call::Measures { .. } => "measures",
            Call::Brier { .. } => "brier",
            Call::Spread { .. } => "spread",
            Call::Write { .. } => "write",
            Call::CompareShares => "compare_shares",
            Call::Shortlist { .. } => "shortlist",
            Call::Event { event, .. } => event.name(),
        }
    }
}

/// The call in words, the start of a book in hex, and what the book reads as.
impl fmt::Display for Call {
    fn fmt(&self, out: &mut fmt::Formatter) -> fmt::Result {
        write!(out, "{}", self.name())?;
        for operand in &self.numbers()[1..] {
            write!(out, " {operand}")?;
        }
        if let Some(book) = self.book() {
            let shown = &book[..book.len().min(1_024)];
            write!(out, "\n  book {}", crate::answer::hex(shown))?;
            if shown.len() < book.len() {
                write!(out, "..")?;
            }
        }
        match self {
            Call::Load { rater, book, .. } => {
                write!(out, "\n  read {:?}", book::read(book, *rater))
            }
            Call::Shortlist { book, .. } => write!(out, "\n  read {:?}", book::read_all(book)),
            _ => Ok(()),
        }
    }
}

/// Reads the numbers of a script one after the other.
struct Reader<'a> {
    rest: &'a [u8],
}

impl<'a> Reader<'a> {
    fn bytes(&mut self, length: usize) -> Option<&'a [u8]> {
        if self.rest.len() < length {
            return None;
        }
        let (taken, rest) = self.rest.split_at(length);
        self.rest = rest;
        Some(taken)
    }

    fn number(&mut self) -> Option<u32> {
        let bytes = self.bytes(4)?;
        Some(u32::from_le_bytes(bytes.try_into().expect("four bytes")))
    }

    /// A length of at most `limit`.
    fn length(&mut self, limit: u32) -> Option<u32> {
        self.number().filter(|&length| length <= limit)
    }

    /// None for an unknown operation, an operand cut short or a length above its limit.
    fn call(&mut self) -> Option<Call> {
        Some(match self.number()? {
            1 => Call::Load {
                place: self.number()?,
                rater: self.number()?,
                book: self.book()?,
            },
            2 => Call::Clear {
                place: self.number()?,
            },
            3 => Call::Pool {
                place: self.number()?,
                length: self.length(MAX_LENT_NUMBERS)?,
            },
            4 => Call::Cheapest {
                place: self.number()?,
                u: self.number()?,
                v: self.number()?,
            },
            5 => Call::Compare,
            6 => Call::Measures {
                place: self.number()?,
            },
            7 => Call::Brier {
                place: self.number()?,
            },
            8 => Call::Spread {
                place: self.number()?,
            },
            9 => Call::Write {
                length: self.length(MAX_WRITE_LENGTH)?,
            },
            10 => Call::CompareShares,
            11 => Call::Shortlist {
                length: self.length(MAX_LENT_NUMBERS)?,
                book: self.book()?,
            },
            operation @ FIRST_EVENT..=LAST_EVENT => Call::Event {
                event: EVERY_EVENT[(operation - FIRST_EVENT) as usize],
                place: self.number()?,
                grade: self.number()?,
            },
            _ => return None,
        })
    }

    /// A length, then so many bytes.
    fn book(&mut self) -> Option<Vec<u8>> {
        let length = self.length(MAX_BOOK_LENGTH)?;
        Some(self.bytes(length as usize)?.to_vec())
    }
}

/// The calls of a script, and whether the script breaks off with the line `end`.
pub fn decode(script: &[u8]) -> (Vec<Call>, bool) {
    let mut reader = Reader { rest: script };
    let mut calls = Vec::new();
    while !reader.rest.is_empty() {
        match reader.call() {
            Some(call) => calls.push(call),
            None => return (calls, true),
        }
    }
    (calls, false)
}
