//! The ordinary program's undo log: plain copies of slices, with no care for
//! what the compiler makes of their order.

use std::collections::HashSet;

use super::Answer;
use crate::generate::Buffers;
use crate::limits::{LOG_RECORDS, LOG_RECORD_SIZE, RECORDS, RECORD_SIZE, SEALED, VARIABLES};

const RECORD: u8 = 0;
const PAIR: u8 = 1;

/// How many entries the log holds besides its seal.
pub fn held(log: &[u8]) -> usize {
    log.len() / LOG_RECORD_SIZE - 1
}

/// Logs the old bytes of these records, in rising number, and of the pair of
/// levels; then seals.
pub fn seal(buffers: &mut Buffers, changed: &[u16], level: usize) {
    let (entries, seal) = split(&mut buffers.log);
    let mut entries = entries.chunks_exact_mut(LOG_RECORD_SIZE);
    for (&number, entry) in changed.iter().zip(&mut entries) {
        let old = &buffers.table[number as usize * RECORD_SIZE..][..RECORD_SIZE];
        write(entry, RECORD, number, old);
    }
    let entry = entries.next().expect("the log is long enough");
    write(entry, PAIR, level as u16, &buffers.order[level..][..2]);
    seal.fill(0);
    seal[2..4].copy_from_slice(&(changed.len() as u16 + 1).to_le_bytes());
    seal[0] = SEALED;
}

pub fn clear(log: &mut [u8]) {
    split(log).1[0] = 0;
}

/// Puts the old bytes back where the log is sealed.
pub fn recover(buffers: &mut Buffers) -> Answer {
    let (n, length) = (buffers.order.len(), buffers.table.len());
    if !(1..=VARIABLES).contains(&n) || length % RECORD_SIZE != 0 || length > RECORDS * RECORD_SIZE
    {
        return Answer::Refused {
            number: 1,
            place: 0,
        };
    }
    let count = match judge(buffers) {
        Ok(count) => count.unwrap_or(0),
        Err(refused) => return refused,
    };
    for entry in buffers.log.chunks_exact(LOG_RECORD_SIZE).take(count) {
        let number = number_of(entry) as usize;
        if entry[1] == RECORD {
            buffers.table[number * RECORD_SIZE..][..RECORD_SIZE].copy_from_slice(&entry[4..12]);
        } else {
            buffers.order[number..][..2].copy_from_slice(&entry[4..6]);
        }
    }
    clear(&mut buffers.log);
    Answer::PutBack { entries: count }
}

/// How many entries a sealed log counts, none of one that isn't sealed; or the
/// refusal of a log that no cut leaves.
pub fn judge(buffers: &Buffers) -> Result<Option<usize>, Answer> {
    let log = &buffers.log;
    let refused = |place: usize| Err(Answer::Refused { number: 14, place });
    if log.is_empty()
        || log.len() % LOG_RECORD_SIZE != 0
        || log.len() > LOG_RECORDS * LOG_RECORD_SIZE
    {
        return refused(0);
    }
    let seal = &log[log.len() - LOG_RECORD_SIZE..];
    let count = number_of(seal) as usize;
    match seal[0] {
        0 => return Ok(None),
        SEALED if seal[1] == 0 && seal[4..] == [0; 12] && count <= held(log) => {}
        _ => return refused(held(log)),
    }
    let mut seen = HashSet::with_capacity(count);
    for (place, entry) in log.chunks_exact(LOG_RECORD_SIZE).take(count).enumerate() {
        let number = number_of(entry);
        let fits = match entry[1] {
            RECORD => (number as usize) < buffers.records(),
            PAIR => number as usize + 1 < buffers.order.len() && entry[6..12] == [0; 6],
            _ => false,
        };
        if !fits || entry[0] != 0 || entry[12..] != [0; 4] || !seen.insert((entry[1], number)) {
            return refused(place);
        }
    }
    Ok(Some(count))
}

fn split(log: &mut [u8]) -> (&mut [u8], &mut [u8]) {
    log.split_at_mut(log.len() - LOG_RECORD_SIZE)
}

fn number_of(entry: &[u8]) -> u16 {
    u16::from_le_bytes([entry[2], entry[3]])
}

fn write(entry: &mut [u8], kind: u8, number: u16, old: &[u8]) {
    entry.fill(0);
    entry[1] = kind;
    entry[2..4].copy_from_slice(&number.to_le_bytes());
    entry[4..][..old.len()].copy_from_slice(old);
}
