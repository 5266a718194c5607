//! What the relay stores: the buffers and their records, byte by byte.

use std::collections::HashSet;

/// The table: at most so many records of so many bytes.
pub const RECORD_BYTES: usize = 8;
pub const MOST_RECORDS: usize = 8_192;

/// The roots: at most so many references of so many bytes.
pub const ROOT_BYTES: usize = 2;
pub const MOST_ROOTS: usize = 64;

/// n is at least 1 and at most this.
pub const MOST_VARIABLES: usize = 64;

/// Up to this n a root is counted: a double holds every count exactly.
pub const MOST_COUNTED: usize = 52;

/// Byte 0 of a free record, and the whole of a well-formed one.
pub const FREE: u8 = 255;
pub const FREE_RECORD: [u8; RECORD_BYTES] = [FREE, 0, 0, 0, 0, 0, 0, 0];

// Record numbers, references and variables are easily taken for one another:
// each has a type of its own.

#[derive(Clone, Copy, Debug, PartialEq, Eq, PartialOrd, Ord, Hash)]
pub struct RecordNumber(pub usize);

#[derive(Clone, Copy, Debug, PartialEq, Eq, Hash)]
pub struct Reference(pub u16);

#[derive(Clone, Copy, Debug, PartialEq, Eq, Hash)]
pub struct Variable(pub u8);

impl Reference {
    /// The references 0 and 1 are the constants.
    pub fn constant(value: bool) -> Reference {
        Reference(u16::from(value))
    }

    /// The reference that names this record.
    pub fn to(number: RecordNumber) -> Reference {
        Reference(
            u16::try_from(number.0 + 2)
                .expect("a record number has 16 bits, with room for the constants"),
        )
    }

    /// The record that this names, two below it; none for a constant.
    pub fn record(self) -> Option<RecordNumber> {
        usize::from(self.0).checked_sub(2).map(RecordNumber)
    }
}

/// What a used record says; equal where variable, low and high are the same.
#[derive(Clone, Copy, Debug, PartialEq, Eq, Hash)]
pub struct Record {
    pub variable: Variable,
    pub low: Reference,
    pub high: Reference,
}

impl Record {
    /// The variable, and from bytes 2 and 4 onwards both references,
    /// little-endian (docs/RULES.md, 1.1); the other bytes aren't looked at.
    pub fn from_bytes(bytes: &[u8]) -> Record {
        Record {
            variable: Variable(bytes[0]),
            low: Reference(u16::from_le_bytes([bytes[2], bytes[3]])),
            high: Reference(u16::from_le_bytes([bytes[4], bytes[5]])),
        }
    }

    pub fn to_bytes(self) -> [u8; RECORD_BYTES] {
        let [low_0, low_1] = self.low.0.to_le_bytes();
        let [high_0, high_1] = self.high.0.to_le_bytes();
        [self.variable.0, 0, low_0, low_1, high_0, high_1, 0, 0]
    }

    /// Both references, low first.
    pub fn children(self) -> [Reference; 2] {
        [self.low, self.high]
    }

    /// The records that this one names. The constants are no records.
    pub fn child_records(self) -> impl Iterator<Item = RecordNumber> {
        self.children().into_iter().filter_map(Reference::record)
    }
}

/// The buffers lent by the caller. The methods below `n` speak of whole
/// records and roots: bytes left over at an end are no business of theirs.
#[derive(Clone, Copy, PartialEq, Eq)]
pub struct Store<'a> {
    pub table: &'a [u8],
    pub roots: &'a [u8],
    pub order: &'a [u8],
}

impl<'a> Store<'a> {
    /// The number of variables is the length of the order.
    pub fn n(self) -> usize {
        self.order.len()
    }

    pub fn record_count(self) -> usize {
        self.table.len() / RECORD_BYTES
    }

    pub fn record_numbers(self) -> impl Iterator<Item = RecordNumber> {
        (0..self.record_count()).map(RecordNumber)
    }

    pub fn bytes(self, number: RecordNumber) -> &'a [u8] {
        &self.table[number.0 * RECORD_BYTES..][..RECORD_BYTES]
    }

    /// Byte 0 alone tells it; the others may be anything.
    pub fn is_free(self, number: RecordNumber) -> bool {
        self.bytes(number)[0] == FREE
    }

    /// The records that aren't free, in rising record number.
    pub fn used(self) -> impl Iterator<Item = (RecordNumber, Record)> + 'a {
        self.record_numbers()
            .filter(move |&number| !self.is_free(number))
            .map(move |number| (number, self.record(number)))
    }

    /// The free ones, in rising record number.
    pub fn free(self) -> impl Iterator<Item = RecordNumber> + 'a {
        self.record_numbers()
            .filter(move |&number| self.is_free(number))
    }

    /// The records that a root or a used record names.
    pub fn named(self) -> HashSet<RecordNumber> {
        let by_roots = self.roots().filter_map(Reference::record);
        let by_records = self.used().flat_map(|(_, record)| record.child_records());
        by_roots.chain(by_records).collect()
    }

    pub fn record(self, number: RecordNumber) -> Record {
        Record::from_bytes(self.bytes(number))
    }

    /// The roots in their positions.
    pub fn roots(self) -> impl Iterator<Item = Reference> + 'a {
        self.roots
            .chunks_exact(ROOT_BYTES)
            .map(|bytes| Reference(u16::from_le_bytes([bytes[0], bytes[1]])))
    }

    /// The level is the place in the order, counted from 0 at the top; none for
    /// a variable that the order lacks.
    pub fn level(self, variable: Variable) -> Option<usize> {
        self.order.iter().position(|&byte| byte == variable.0)
    }
}
