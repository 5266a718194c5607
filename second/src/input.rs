//! The four buffers of one comparison, owned, and what fills or alters them.

use crate::layout::{Record, RecordNumber, Reference, Store, Variable, FREE_RECORD, RECORD_BYTES};
use crate::log::{empty_log, MOST_LOG_RECORDS};

/// Empty by default: what isn't asked of a store has none.
#[derive(Clone, Debug, Default, PartialEq, Eq)]
pub struct Input {
    pub table: Vec<u8>,
    pub roots: Vec<u8>,
    pub order: Vec<u8>,
    pub log: Vec<u8>,
}

impl Input {
    /// Free records only, no roots and no log.
    pub fn free(records: usize, order: Vec<u8>) -> Input {
        Input {
            table: FREE_RECORD.repeat(records),
            order,
            ..Input::default()
        }
    }

    /// With another log, or with its first one.
    pub fn with_log(self, log: Vec<u8>) -> Input {
        Input { log, ..self }
    }

    /// With an empty log that holds an entry for every record and one for the
    /// pair, or as many as a log can: of a large table more may change.
    pub fn with_enough_log(self) -> Input {
        let records = self.store().record_count() + 2;
        self.with_log(empty_log(records.min(MOST_LOG_RECORDS)))
    }

    pub fn store(&self) -> Store<'_> {
        Store {
            table: &self.table,
            roots: &self.roots,
            order: &self.order,
        }
    }

    pub fn used_numbers(&self) -> Vec<RecordNumber> {
        self.store().used().map(|(number, _)| number).collect()
    }

    pub fn free_numbers(&self) -> Vec<RecordNumber> {
        self.store().free().collect()
    }

    /// The level of a used record; none where a damaged order lacks its variable.
    pub fn level_of(&self, number: RecordNumber) -> Option<usize> {
        self.store().level(self.store().record(number).variable)
    }

    pub fn bytes_mut(&mut self, number: RecordNumber) -> &mut [u8] {
        &mut self.table[number.0 * RECORD_BYTES..][..RECORD_BYTES]
    }

    pub fn set_record(&mut self, number: RecordNumber, record: Record) {
        self.bytes_mut(number).copy_from_slice(&record.to_bytes());
    }

    pub fn set_free(&mut self, number: RecordNumber) {
        self.bytes_mut(number).copy_from_slice(&FREE_RECORD);
    }

    /// With so many free records more, at the end; perhaps with more than a table
    /// may have.
    pub fn with_more_free(&self, more: usize) -> Input {
        let mut longer = self.clone();
        longer.table.extend(FREE_RECORD.repeat(more));
        longer
    }

    pub fn root_list(&self) -> Vec<Reference> {
        self.store().roots().collect()
    }

    /// The root at a position; there is such a root.
    pub fn root_at(&self, position: u32) -> Reference {
        self.root_list()[position as usize]
    }

    pub fn set_roots(&mut self, roots: &[Reference]) {
        self.roots = roots.iter().flat_map(|root| root.0.to_le_bytes()).collect();
    }

    /// The variable at a level; the level is within the order.
    pub fn variable_at(&self, level: usize) -> Variable {
        Variable(self.order[level])
    }
}
