//! The undo log that a swap is made with: its records, byte by byte. In front
//! stand the entries, each with what a record of the table or a pair of the
//! order held before; the last record is the seal.

use crate::layout::{RecordNumber, RECORD_BYTES};

/// At least one record, the seal, and at most so many, each of so many bytes.
pub const LOG_RECORD_BYTES: usize = 16;
pub const MOST_LOG_RECORDS: usize = 4_096;

/// Byte 0 of the seal while a swap is on its way.
pub const SEALED: u8 = 0xA5;

pub type LogRecord = [u8; LOG_RECORD_BYTES];

/// The kinds of entries, in byte 1.
const TABLE_RECORD: u8 = 0;
const ORDER_PAIR: u8 = 1;

/// The parts of an entry besides byte 0, which is zero, and its kind: a number,
/// the bytes that were there before, and zeros.
const NUMBER: usize = 2;
const OLD: usize = 4;
const REST: usize = 12;
/// A pair's old bytes are two, and zeros follow.
const PAIR_BYTES: usize = 2;

/// What an entry is about.
#[derive(Clone, Copy, Debug, PartialEq, Eq, Hash)]
pub enum Subject {
    Record(RecordNumber),
    /// The variables of this level and of the one below it.
    Pair(usize),
}

impl Subject {
    /// How many bytes of the table or of the order it has.
    pub fn size(self) -> usize {
        match self {
            Subject::Record(_) => RECORD_BYTES,
            Subject::Pair(_) => PAIR_BYTES,
        }
    }

    /// Where these bytes begin.
    pub fn offset(self) -> usize {
        match self {
            Subject::Record(number) => number.0 * RECORD_BYTES,
            Subject::Pair(level) => level,
        }
    }
}

/// What a subject held before the swap; those of a pair are the first two.
#[derive(Clone, Copy, Debug, PartialEq, Eq)]
pub struct Entry {
    pub subject: Subject,
    pub old: [u8; RECORD_BYTES],
}

impl Entry {
    pub fn to_bytes(self) -> LogRecord {
        let (kind, number) = match self.subject {
            Subject::Record(number) => (TABLE_RECORD, number.0),
            Subject::Pair(level) => (ORDER_PAIR, level),
        };
        let mut bytes = [0; LOG_RECORD_BYTES];
        bytes[1] = kind;
        bytes[NUMBER..OLD].copy_from_slice(&two_bytes(number));
        bytes[OLD..REST].copy_from_slice(&self.old);
        bytes
    }

    /// None where it is malformed. Its number may be any, and so may the old
    /// bytes that there are.
    pub fn from_bytes(bytes: &[u8]) -> Option<Entry> {
        let number = number(bytes);
        let subject = match bytes[1] {
            TABLE_RECORD => Subject::Record(RecordNumber(number)),
            ORDER_PAIR => Subject::Pair(number),
            _ => return None,
        };
        let behind_old = &bytes[OLD + subject.size()..];
        if bytes[0] != 0 || behind_old.iter().any(|&byte| byte != 0) {
            return None;
        }
        let mut old = [0; RECORD_BYTES];
        old.copy_from_slice(&bytes[OLD..REST]);
        Some(Entry { subject, old })
    }

    /// The bytes that the subject had.
    pub fn old_bytes(&self) -> &[u8] {
        &self.old[..self.subject.size()]
    }
}

/// The number of an entry, or the seal's number of entries.
fn number(record: &[u8]) -> usize {
    usize::from(u16::from_le_bytes([record[NUMBER], record[NUMBER + 1]]))
}

fn two_bytes(number: usize) -> [u8; 2] {
    let number = u16::try_from(number).expect("a log and a table have fewer records");
    number.to_le_bytes()
}

/// The seal of a swap with so many entries, at this byte 0.
pub fn seal(byte_0: u8, entries: usize) -> LogRecord {
    let mut bytes = [0; LOG_RECORD_BYTES];
    bytes[0] = byte_0;
    bytes[NUMBER..OLD].copy_from_slice(&two_bytes(entries));
    bytes
}

/// A log without any entry, of so many records.
pub fn empty_log(records: usize) -> Vec<u8> {
    vec![0; records * LOG_RECORD_BYTES]
}

/// A log of a good length, as it was lent.
#[derive(Clone, Copy)]
pub struct Log<'a>(pub &'a [u8]);

impl<'a> Log<'a> {
    pub fn has_good_length(self) -> bool {
        let records = self.0.len() / LOG_RECORD_BYTES;
        self.0.len().is_multiple_of(LOG_RECORD_BYTES) && (1..=MOST_LOG_RECORDS).contains(&records)
    }

    /// All records but the seal can hold an entry. It is the seal's own number
    /// too.
    pub fn held(self) -> usize {
        self.0.len() / LOG_RECORD_BYTES - 1
    }

    pub fn record(self, number: usize) -> &'a [u8] {
        &self.0[number * LOG_RECORD_BYTES..][..LOG_RECORD_BYTES]
    }

    pub fn seal(self) -> &'a [u8] {
        self.record(self.held())
    }

    pub fn is_sealed(self) -> bool {
        self.seal()[0] == SEALED
    }

    /// The number of entries that the seal tells.
    pub fn count(self) -> usize {
        number(self.seal())
    }

    /// The records that the seal counts as entries; there are as many.
    pub fn counted(self) -> impl Iterator<Item = &'a [u8]> {
        (0..self.count()).map(move |number| self.record(number))
    }
}
