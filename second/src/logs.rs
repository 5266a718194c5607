//! Random logs: with a cleared seal and anything beneath it, and sealed as a
//! cut swap might have left them.

use crate::input::Input;
use crate::layout::{RecordNumber, RECORD_BYTES};
use crate::log::{
    empty_log, seal, Entry, Log, Subject, LOG_RECORD_BYTES, MOST_LOG_RECORDS, SEALED,
};
use crate::log_faults::{any_fault, two_faults, wrong_length};
use crate::random::Random;
use crate::recover::clear_seal;

/// For a swap or run of which some swaps need so many entries: mostly a log that
/// holds them all, otherwise one too short for some, sealed, or bad.
pub fn random_log(input: &Input, needs: &[usize], random: &mut Random) -> Vec<u8> {
    let need = random.pick(needs).unwrap_or(random.between(1, 8));
    let most = needs.iter().copied().max().unwrap_or(need);
    match random.below(100) {
        0..=31 => cleared(input, most + 1, random),
        32..=58 => cleared(input, most + random.between(2, 12), random),
        60..=61 => cleared(input, MOST_LOG_RECORDS, random),
        62..=65 => cleared(input, need, random),
        66..=75 => cleared(input, most, random),
        76 => cleared(input, random.between(1, need), random),
        59 | 77..=82 => cleared(input, 1, random),
        83..=85 => wrong_length(random_log_records(random), random),
        86..=91 => sealed(input, random_log_records(random), random),
        _ => bad(input, random),
    }
}

/// How many records: few mostly, so that an end is near.
pub fn random_log_records(random: &mut Random) -> usize {
    match random.below(10) {
        0 => 1,
        1..=7 => random.between(2, 12),
        8 => random.between(13, 300),
        _ if random.once_in(20) => MOST_LOG_RECORDS,
        _ => random.between(2, 40),
    }
}

/// The seal's byte 0 is 0: nothing beneath it counts, whether it is zeros, the
/// log of an earlier swap, or garbage.
pub fn cleared(input: &Input, records: usize, random: &mut Random) -> Vec<u8> {
    let records = records.min(MOST_LOG_RECORDS);
    let mut log = match random.below(4) {
        0 => empty_log(records),
        1 => sealed(input, records, random),
        _ => random.bytes(records * LOG_RECORD_BYTES),
    };
    clear_seal(&mut log);
    log
}

/// A good log for this table and order: entries about different things, in any
/// order and with any old bytes, and garbage behind them.
pub fn sealed(input: &Input, records: usize, random: &mut Random) -> Vec<u8> {
    let mut subjects = subjects(input, random);
    let held = records - 1;
    let most = held.min(subjects.len());
    subjects.truncate(match random.below(6) {
        0 => 0,
        1..=3 => most,
        _ => random.between(0, most),
    });
    let mut log = match random.coin() {
        true => empty_log(records),
        false => random.bytes(records * LOG_RECORD_BYTES),
    };
    for (record, &subject) in log.chunks_exact_mut(LOG_RECORD_BYTES).zip(&subjects) {
        record.copy_from_slice(&random_entry(subject, random).to_bytes());
    }
    log[held * LOG_RECORD_BYTES..].copy_from_slice(&seal(SEALED, subjects.len()));
    log
}

/// Everything that an entry can be about, in any order; often with the pairs in
/// front, which are few.
fn subjects(input: &Input, random: &mut Random) -> Vec<Subject> {
    let records = input.store().record_count();
    let pairs = input.order.len().saturating_sub(1);
    let mut records: Vec<Subject> = (0..records)
        .map(RecordNumber)
        .map(Subject::Record)
        .collect();
    let mut pairs: Vec<Subject> = (0..pairs).map(Subject::Pair).collect();
    random.shuffle(&mut records);
    random.shuffle(&mut pairs);
    let some = random.between(0, records.len().min(5));
    let behind = records.split_off(some);
    let mut subjects = [records, pairs].concat();
    random.shuffle(&mut subjects);
    subjects.extend(behind);
    subjects
}

pub fn random_entry(subject: Subject, random: &mut Random) -> Entry {
    let mut old = [0; RECORD_BYTES];
    old[..subject.size()].copy_from_slice(&random.bytes(subject.size()));
    Entry { subject, old }
}

/// A sealed log with a fault or two.
fn bad(input: &Input, random: &mut Random) -> Vec<u8> {
    let records = random_log_records(random);
    let mut with_log = Input {
        table: input.table.clone(),
        order: input.order.clone(),
        log: sealed(input, records, random),
        ..Input::default()
    };
    if random.coin() {
        any_fault(&mut with_log, random);
    } else {
        two_faults(&mut with_log, random);
    }
    with_log.log
}

/// What a log holds as entries, as far as its seal tells so and they are whole.
pub fn counted_entries(log: &[u8]) -> Vec<Entry> {
    let log = Log(log);
    let counted = (0..log.count().min(log.held())).map(|number| log.record(number));
    counted.filter_map(Entry::from_bytes).collect()
}
