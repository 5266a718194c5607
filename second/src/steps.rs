//! A swap and a recovery store by store: each step writes a single byte, so that
//! supply can be lost before or after any of them.

use crate::commit::entries;
use crate::input::Input;
use crate::log::{seal, Entry, Log, Subject, LOG_RECORD_BYTES, SEALED};
use crate::random::Random;

#[derive(Clone, Copy)]
enum Buffer {
    Table,
    Order,
    Log,
}

#[derive(Clone, Copy)]
pub struct Step {
    buffer: Buffer,
    position: usize,
    byte: u8,
}

impl Step {
    pub fn make(self, input: &mut Input) {
        let buffer = match self.buffer {
            Buffer::Table => &mut input.table,
            Buffer::Order => &mut input.order,
            Buffer::Log => &mut input.log,
        };
        buffer[self.position] = self.byte;
    }
}

/// The steps between two of which nothing is promised but what is promised of
/// both: in each part they may come in any order.
pub type Parts = Vec<Vec<Step>>;

/// A swap from one input to the other, in four parts: the log but for byte 0 of
/// the seal; that byte, set; table and order; that byte, cleared.
pub fn swap_parts(before: &Input, after: &Input, level: usize) -> Parts {
    let held = Log(&before.log).held();
    let entries = entries(before, after, level);
    let place_of_seal = held * LOG_RECORD_BYTES;
    let seal_byte_0 = |byte| bytes(Buffer::Log, place_of_seal, &[byte]);
    let records = entries.iter().map(|entry| entry.to_bytes());
    let logged = records
        .enumerate()
        .flat_map(|(place, record)| bytes(Buffer::Log, place * LOG_RECORD_BYTES, &record));
    let rest_of_seal = bytes(Buffer::Log, place_of_seal + 1, &seal(0, entries.len())[1..]);
    let changed = entries
        .iter()
        .flat_map(|entry| subject_bytes(entry.subject, after));
    vec![
        logged.chain(rest_of_seal).collect(),
        seal_byte_0(SEALED),
        changed.collect(),
        seal_byte_0(0),
    ]
}

/// A recovery of an input that is sealed and that check 14 passes: the old bytes
/// of one entry after the other, and then the seal.
pub fn recovery_parts(input: &Input) -> Parts {
    let log = Log(&input.log);
    let old = |record| {
        let entry = Entry::from_bytes(record).expect("check 14 has passed");
        let buffer = buffer_of(entry.subject);
        bytes(buffer, entry.subject.offset(), entry.old_bytes())
    };
    let clear = bytes(Buffer::Log, log.held() * LOG_RECORD_BYTES, &[0]);
    log.counted().map(old).chain([clear]).collect()
}

/// The steps in turn, those of each part shuffled.
pub fn in_turn(parts: Parts, random: &mut Random) -> Vec<Step> {
    let shuffled = parts.into_iter().map(|mut part| {
        random.shuffle(&mut part);
        part
    });
    shuffled.flatten().collect()
}

fn bytes(buffer: Buffer, first: usize, bytes: &[u8]) -> Vec<Step> {
    let numbered = bytes.iter().enumerate();
    numbered
        .map(|(position, &byte)| Step {
            buffer,
            position: first + position,
            byte,
        })
        .collect()
}

fn buffer_of(subject: Subject) -> Buffer {
    match subject {
        Subject::Record(_) => Buffer::Table,
        Subject::Pair(_) => Buffer::Order,
    }
}

/// All bytes of what an entry is about, as they are in this input.
fn subject_bytes(subject: Subject, input: &Input) -> Vec<Step> {
    let buffer = match subject {
        Subject::Record(_) => &input.table,
        Subject::Pair(_) => &input.order,
    };
    let offset = subject.offset();
    bytes(
        buffer_of(subject),
        offset,
        &buffer[offset..][..subject.size()],
    )
}

#[cfg(test)]
mod tests {
    use super::*;
    use crate::commit::logged_swap;
    use crate::generate::busy;
    use crate::model::{answer, Answer, Question};

    /// Every cut of a swap, and every cut of its recovery, lead to what was
    /// before, or after the last step to what is afterwards.
    #[test]
    fn every_cut_is_recovered_from() {
        for seed in 0..60 {
            let random = &mut Random::from_seed(seed);
            let before = busy(random).with_enough_log();
            let level = random.below(before.order.len() - 1);
            let Ok(after) = logged_swap(&before, level) else {
                continue;
            };
            let mut state = before.clone();
            let steps = in_turn(swap_parts(&before, &after, level), random);
            for (made, step) in steps.iter().enumerate() {
                check_cut(&state, &before, random);
                step.make(&mut state);
                assert_eq!(state == after, made + 1 == steps.len());
            }
        }
    }

    fn check_cut(state: &Input, before: &Input, random: &mut Random) {
        let mut whole = state.clone();
        assert!(matches!(
            answer(&mut whole, &Question::Recover),
            Answer::PutBack { .. }
        ));
        assert!(whole.store() == before.store());
        if !Log(&state.log).is_sealed() {
            assert_eq!(whole, *state);
            return;
        }
        let mut cut = state.clone();
        for step in in_turn(recovery_parts(state), random) {
            let mut again = cut.clone();
            answer(&mut again, &Question::Recover);
            assert_eq!(again, whole);
            step.make(&mut cut);
        }
        assert_eq!(cut, whole);
    }
}
