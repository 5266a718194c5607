//! A swap as it is made with a log: what it logs, whether the log can hold it,
//! and what it leaves in the log.

use crate::input::Input;
use crate::layout::RECORD_BYTES;
use crate::log::{seal, Entry, Log, Subject, LOG_RECORD_BYTES};
use crate::swap::{swap, Lack};

/// What stands in the way where the log is too short.
#[derive(Clone, Copy, Debug, PartialEq, Eq)]
pub struct Short {
    pub level: usize,
    pub needed: usize,
    pub held: usize,
}

/// Why a swap isn't begun.
pub enum Obstacle {
    NoRoom(Lack),
    LogShort(Short),
}

/// Swaps levels k and k+1 of an accepted input that has both of them and a log
/// that isn't sealed. Where there is no room, nobody asks how long the log is.
pub fn logged_swap(before: &Input, k: usize) -> Result<Input, Obstacle> {
    let made = swap(before, k).map_err(Obstacle::NoRoom)?;
    let entries = entries(before, &made.after, k);
    let held = Log(&before.log).held();
    if entries.len() > held {
        return Err(Obstacle::LogShort(Short {
            level: k,
            needed: entries.len(),
            held,
        }));
    }
    let mut after = made.after;
    after.log = log_after(&before.log, &entries);
    Ok(after)
}

/// What a swap of levels k and k+1 logs: each record of which a byte changes,
/// lowest number first, and then the pair.
pub fn entries(before: &Input, after: &Input, k: usize) -> Vec<Entry> {
    let (old, new) = (before.store(), after.store());
    let changed = old
        .record_numbers()
        .filter(|&number| old.bytes(number) != new.bytes(number));
    changed
        .map(Subject::Record)
        .chain([Subject::Pair(k)])
        .map(|subject| entry(before, subject))
        .collect()
}

fn entry(before: &Input, subject: Subject) -> Entry {
    let bytes = match subject {
        Subject::Record(number) => before.store().bytes(number),
        Subject::Pair(level) => &before.order[level..][..subject.size()],
    };
    let mut old = [0; RECORD_BYTES];
    old[..bytes.len()].copy_from_slice(bytes);
    Entry { subject, old }
}

/// The entries in front, and the seal cleared; what stands between them stays.
fn log_after(log: &[u8], entries: &[Entry]) -> Vec<u8> {
    let mut log = log.to_vec();
    for (record, entry) in log.chunks_exact_mut(LOG_RECORD_BYTES).zip(entries) {
        record.copy_from_slice(&entry.to_bytes());
    }
    let place_of_seal = log.len() - LOG_RECORD_BYTES;
    log[place_of_seal..].copy_from_slice(&seal(0, entries.len()));
    log
}
