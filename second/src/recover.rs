//! Recovery: what a cut swap has changed is put back.

use crate::input::Input;
use crate::log::{Entry, Log, Subject, LOG_RECORD_BYTES};

/// How many entries were put back, of an input that checks 1 and 14 pass. They
/// are taken in their order, so that of two pairs with a level in common the
/// later one has the last word.
pub fn recover(input: &mut Input) -> usize {
    let log = Log(&input.log);
    if !log.is_sealed() {
        return 0;
    }
    let whole = |bytes| Entry::from_bytes(bytes).expect("check 14 has passed");
    let entries: Vec<Entry> = log.counted().map(whole).collect();
    for entry in &entries {
        put_back(input, entry);
    }
    clear_seal(&mut input.log);
    entries.len()
}

fn put_back(input: &mut Input, entry: &Entry) {
    let buffer = match entry.subject {
        Subject::Record(_) => &mut input.table,
        Subject::Pair(_) => &mut input.order,
    };
    let old = entry.old_bytes();
    buffer[entry.subject.offset()..][..old.len()].copy_from_slice(old);
}

/// Byte 0 alone: the number of entries and the entries stay where they are.
pub fn clear_seal(log: &mut [u8]) {
    let place_of_seal = log.len() - LOG_RECORD_BYTES;
    log[place_of_seal] = 0;
}
