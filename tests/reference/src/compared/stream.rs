//! The stream of records that the comparison of the archive reads: numbers of
//! seven bits a byte, the lowest first, and runs of bytes.
//!
//! A record is its length in four bytes, a number that names it, and then
//! operations, each a letter and what `tests/c/compared.c` reads after it, or
//! `tests/c/codes_compared.c` after `K`. What is due goes through `due`, so that one value
//! can be altered on purpose.

use super::alter::{Alteration, Place};

/// A record that is being written.
pub struct Record {
    bytes: Vec<u8>,
    alteration: Option<Alteration>,
    altered: bool,
}

/// Lent memory as a call uses it: the bytes it may fill, and all that are lent.
pub struct Span {
    /// The number of the memory: 0 to 12 the tables, then TEXT, OUT and so on.
    pub region: usize,
    pub name: &'static str,
    pub used: std::ops::Range<usize>,
    /// A byte that is lent and not filled, if there is one.
    pub past: Option<usize>,
    pub length: usize,
    pub side: u64,
}

/// The lent memory ends at a forbidden page, or starts at one.
pub const AT_END: u64 = 0;
pub const AT_START: u64 = 1;

impl Record {
    pub fn new(name: u64, alteration: Option<Alteration>) -> Record {
        let mut record = Record { bytes: vec![0; 4], alteration, altered: false };
        record.number(name);
        record
    }

    /// A part of a record, which nothing alters.
    pub fn part() -> Record {
        Record { bytes: Vec::new(), alteration: None, altered: false }
    }

    /// Adds a part.
    pub fn append(&mut self, part: Record) {
        self.bytes.extend(part.bytes);
    }

    /// True if the alteration that was asked for has been made.
    pub fn is_altered(&self) -> bool {
        self.altered
    }

    /// The record with its length before it.
    pub fn finish(mut self) -> Vec<u8> {
        let length = (self.bytes.len() - 4) as u32;
        self.bytes[..4].copy_from_slice(&length.to_le_bytes());
        self.bytes
    }

    pub fn operation(&mut self, letter: u8) {
        self.bytes.push(letter);
    }

    pub fn number(&mut self, number: u64) {
        let mut left = number;
        while left > 127 {
            self.bytes.push(left as u8 | 128);
            left >>= 7;
        }
        self.bytes.push(left as u8);
    }

    /// A number with a sign, the sign lowest.
    pub fn signed(&mut self, number: i64) {
        self.number((number << 1 ^ number >> 63) as u64);
    }

    /// Bytes with their count before them.
    pub fn bytes(&mut self, bytes: &[u8]) {
        self.number(bytes.len() as u64);
        self.bytes.extend_from_slice(bytes);
    }

    /// A value that is due.
    pub fn due(&mut self, name: &str, number: u64) {
        let altered = self.takes(name, Place::Due);
        self.number(number ^ u64::from(altered));
    }

    /// Entries that are due, each a number; one in the middle may be altered.
    pub fn due_entries(&mut self, name: &str, entries: impl ExactSizeIterator<Item = u64>) {
        let middle = entries.len() / 2;
        for (place, entry) in entries.enumerate() {
            if place == middle {
                self.due(name, entry);
            } else {
                self.number(entry);
            }
        }
    }

    /// Bytes that are due, with their count before them.
    pub fn due_bytes(&mut self, name: &str, bytes: &[u8]) {
        self.bytes(bytes);
        if !bytes.is_empty() && self.takes(name, Place::Due) {
            let middle = self.bytes.len() - 1 - bytes.len() / 2;
            self.bytes[middle] ^= 1;
        }
    }

    /// Before a call: the stray change of a byte after it, if it is asked for.
    pub fn stray(&mut self, operation: &str, span: &Span) {
        if self.alteration.is_none() || self.altered {
            return;
        }
        let fills = !span.used.is_empty();
        let past = span.past.map(|past| past as i64);
        let end = span.length as i64;
        let at_end = span.side == AT_END;
        let before = at_end.then_some(-1);
        let behind = (span.side == AT_START).then_some(end);
        let places = [
            (Place::Used, fills.then_some(span.used.start as i64)),
            (Place::Past, past.filter(|_| fills)),
            (Place::Untouched, past.filter(|_| !fills)),
            (Place::Before, before),
            (Place::Behind, behind),
            (Place::Far, Some(if at_end { -500 } else { end + 500 })),
            (Place::Forbidden, Some(if at_end { end } else { -1 })),
        ];
        for (place, offset) in places {
            let Some(offset) = offset else {
                continue;
            };
            if self.takes(&format!("{operation}: {}", span.name), place) {
                self.operation(b'X');
                self.number(span.region as u64);
                self.signed(offset);
            }
        }
    }

    /// True, once, if this is what is to be altered.
    pub fn takes(&mut self, name: &str, place: Place) -> bool {
        let wanted =
            self.alteration.is_some_and(|wanted| wanted.what == name && wanted.place == place);
        let takes = wanted && !self.altered;
        self.altered |= takes;
        takes
    }
}
