//! The refusals that speak of the log.

use std::collections::HashSet;

use crate::layout::Store;
use crate::log::{Entry, Log, Subject, SEALED};

/// 14: no swap that is cut leaves such a log. Its length goes first, at place
/// 0; then the seal; then the counted entries, of which the lowest bad one is
/// told. Under a seal whose byte 0 is 0 nothing is looked at.
pub fn log_outside(store: Store, log: &[u8]) -> Option<usize> {
    let log = Log(log);
    if !log.has_good_length() {
        return Some(0);
    }
    match log.seal()[0] {
        0 => None,
        SEALED if is_seal(log) => bad_entry(store, log),
        _ => Some(log.held()),
    }
}

/// Is it a seal but for its byte 0: no other byte than the number of entries
/// set, and no more of these than there can be?
fn is_seal(log: Log) -> bool {
    let seal = log.seal();
    let others = seal[1..2].iter().chain(&seal[4..]);
    others.into_iter().all(|&byte| byte == 0) && log.count() <= log.held()
}

/// The lowest counted entry that is malformed, about something that there isn't,
/// or about what an earlier one is about.
fn bad_entry(store: Store, log: Log) -> Option<usize> {
    let mut earlier = HashSet::new();
    log.counted()
        .position(|bytes| match Entry::from_bytes(bytes) {
            None => true,
            Some(entry) => !is_there(store, entry.subject) || !earlier.insert(entry.subject),
        })
}

/// The lowest level has none below it, so that there is one pair fewer than
/// there are variables.
fn is_there(store: Store, subject: Subject) -> bool {
    match subject {
        Subject::Record(number) => number.0 < store.record_count(),
        Subject::Pair(level) => level + 1 < store.n(),
    }
}

/// 15: a swap was cut, and recovery hasn't been asked for. Its place is 0. Check
/// 14 has passed.
pub fn still_sealed(log: &[u8]) -> Option<usize> {
    Log(log).is_sealed().then_some(0)
}
