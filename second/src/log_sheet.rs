//! The bench sheet's case A with its log, with the answers and buffers written
//! out by hand.

use crate::by_hand::{input, used, Case, A_0, A_1, FREE};
use crate::commit::Short;
use crate::input::Input;
use crate::model::{Answer, Question};
use crate::refusals::Refusal;
use crate::swap::Lack;

pub fn cases() -> Vec<Case> {
    [
        logged(),
        too_short(),
        no_room_goes_first(),
        refused_logs(),
        refused_before_others(),
    ]
    .concat()
}

pub type LogBytes = [u8; 16];

pub const ZEROS: LogBytes = [0; 16];
pub const ONES: LogBytes = [255; 16];

/// Case A's log: the records 0, 1 and 2 as they were, and levels 0 and 1.
const RECORD_0: LogBytes = [0, 0, 0, 0, 1, 0, 0, 0, 1, 0, 0, 0, 0, 0, 0, 0];
const RECORD_1: LogBytes = [0, 0, 1, 0, 0, 0, 0, 0, 2, 0, 0, 0, 0, 0, 0, 0];
const RECORD_2: LogBytes = [0, 0, 2, 0, 255, 0, 0, 0, 0, 0, 0, 0, 0, 0, 0, 0];
const PAIR_0: LogBytes = [0, 1, 0, 0, 0, 1, 0, 0, 0, 0, 0, 0, 0, 0, 0, 0];
pub const ENTRIES: [LogBytes; 4] = [RECORD_0, RECORD_1, RECORD_2, PAIR_0];

/// The seal while the swap is made, and after it.
pub const SEALED_4: LogBytes = [0xA5, 0, 4, 0, 0, 0, 0, 0, 0, 0, 0, 0, 0, 0, 0, 0];
pub const CLEARED_4: LogBytes = [0, 0, 4, 0, 0, 0, 0, 0, 0, 0, 0, 0, 0, 0, 0, 0];

pub fn sealed(entries: u8) -> LogBytes {
    with(SEALED_4, 2, entries)
}

/// The record of a log with one byte exchanged for another.
pub fn with(mut record: LogBytes, position: usize, byte: u8) -> LogBytes {
    record[position] = byte;
    record
}

pub fn a(log: &[LogBytes]) -> Input {
    input(&[A_0, A_1, FREE], &[3], &[0, 1]).with_log(log.concat())
}

pub fn a_after(log: &[LogBytes]) -> Input {
    let records = [FREE, used(1, 0, 4), used(0, 0, 1)];
    input(&records, &[3], &[1, 0]).with_log(log.concat())
}

/// With one record more or another, where only lengths and numbers count.
pub fn stored(records: usize, order: &[u8], log: &[LogBytes]) -> Input {
    input(&vec![FREE; records], &[], order).with_log(log.concat())
}

const SWAP: Question = Question::Swap { level: 0 };

fn run(budget: u32) -> Question {
    Question::Run {
        target: vec![1, 0],
        plan: 0,
        budget,
    }
}

pub fn refused(number: u32, place: usize) -> Answer {
    Answer::Refused(Refusal { number, place })
}

/// All three records change and the pair: four entries, and the seal. What the
/// log held there before is gone, and what stands beyond stays.
fn logged() -> Vec<Case> {
    let made = |name, log: &[LogBytes], after: &[LogBytes]| {
        let done = Answer::Done { swaps: 1, left: 0 };
        [
            Case::changed(name, a(log), SWAP, Answer::Made, a_after(after)),
            Case::changed(name, a(log), run(1), done, a_after(after)),
            Case::changed(name, a(log), run(u32::MAX), done, a_after(after)),
        ]
    };
    let [e, f, g, h] = ENTRIES;
    let garbage = with(ONES, 0, 0);
    let (o, z) = (ONES, ZEROS);
    [
        made("A logged", &[z; 5], &[e, f, g, h, CLEARED_4]),
        made(
            "A logged, five ones before",
            &[o, o, o, o, garbage],
            &[e, f, g, h, CLEARED_4],
        ),
        made(
            "A logged, a log longer by one",
            &[o, o, o, o, o, garbage],
            &[e, f, g, h, o, CLEARED_4],
        ),
        made(
            "A logged, the place of a seal beyond",
            &[z, z, z, z, SEALED_4, z, z],
            &[e, f, g, h, SEALED_4, z, CLEARED_4],
        ),
    ]
    .concat()
}

/// Three entries, one or none, whatever the budget.
fn too_short() -> Vec<Case> {
    let short = |name, log: &[LogBytes], held| {
        let needed = 4;
        let short = Short {
            level: 0,
            needed,
            held,
        };
        let out_of_log = Answer::OutOfLog {
            swaps: 0,
            left: 1,
            short,
        };
        [
            Case::unchanged(name, a(log), SWAP, Answer::LogShort(short)),
            Case::unchanged(name, a(log), run(0), out_of_log),
            Case::unchanged(name, a(log), run(1), out_of_log),
            Case::unchanged(name, a(log), run(u32::MAX), out_of_log),
        ]
    };
    let garbage = with(ONES, 0, 0);
    let there = Question::Run {
        target: vec![0, 1],
        plan: 0,
        budget: 1,
    };
    let done = Answer::Done { swaps: 0, left: 0 };
    let at_its_target = Case::unchanged("A, nothing to log", a(&[ZEROS]), there, done);
    [
        &short("A, log of 4", &[ZEROS; 4], 3)[..],
        &short("A, log of 4, ones", &[ONES, ONES, ONES, garbage], 3),
        &short("A, log of 2", &[ZEROS; 2], 1),
        &short("A, a seal alone", &[ZEROS], 0),
        &[at_its_target],
    ]
    .concat()
}

/// Case B with a root to each record: no room, and no entry would fit either.
fn no_room_goes_first() -> Vec<Case> {
    let b = || input(&[A_0, A_1], &[3, 2], &[0, 1]).with_log(ZEROS.to_vec());
    let lack = Lack {
        level: 0,
        needed: 1,
        free: 0,
    };
    let stuck = Answer::Stuck {
        swaps: 0,
        left: 1,
        lack,
    };
    let name = "B, both named, a seal alone";
    vec![
        Case::unchanged(name, b(), SWAP, Answer::NoRoom(lack)),
        Case::unchanged(name, b(), run(0), stuck),
        Case::unchanged(name, b(), run(1), stuck),
    ]
}

/// Asked for a swap or a run, each with the whole of case A.
fn swapped_and_run(name: &'static str, input: Input, answer: Answer) -> [Case; 2] {
    [SWAP, run(1)].map(|question| Case::unchanged(name, input.clone(), question, answer))
}

fn refused_logs() -> Vec<Case> {
    let no_log = Input {
        log: Vec::new(),
        ..a(&[])
    };
    let part = Input {
        log: vec![0; 79],
        ..a(&[])
    };
    let [e, f, g, h] = ENTRIES;
    [
        swapped_and_run("no log", no_log, refused(14, 0)),
        swapped_and_run("79 bytes", part, refused(14, 0)),
        swapped_and_run("4,097 log records", a(&[ZEROS; 4_097]), refused(14, 0)),
        swapped_and_run(
            "a seal of 1",
            a(&[e, f, g, h, with(ZEROS, 0, 1)]),
            refused(14, 4),
        ),
        swapped_and_run(
            "5 of 4 entries",
            a(&[e, f, g, h, sealed(5)]),
            refused(14, 4),
        ),
        swapped_and_run("twice record 0", a(&[e, f, e, h, SEALED_4]), refused(14, 2)),
        swapped_and_run("A sealed", a(&[e, f, g, h, SEALED_4]), refused(15, 0)),
        swapped_and_run(
            "sealed, no entry",
            a(&[e, f, g, h, sealed(0)]),
            refused(15, 0),
        ),
        swapped_and_run("a seal alone, sealed", a(&[sealed(0)]), refused(15, 0)),
    ]
    .concat()
}

/// 1 goes before 14, 14 before 15, and both before all others.
fn refused_before_others() -> Vec<Case> {
    let [e, f, g, h] = ENTRIES;
    let no_order = || stored(3, &[], &[ONES]);
    let twice = |log: &[LogBytes]| input(&[A_0, A_0, FREE], &[9], &[0, 0]).with_log(log.concat());
    let at = |level| Question::Swap { level };
    let by = |plan| Question::Run {
        target: vec![1, 1],
        plan,
        budget: 1,
    };
    let both = |name, input: Input, answer| {
        [at(0), at(7), by(0), by(9)]
            .map(|question| Case::unchanged(name, input.clone(), question, answer))
    };
    let short_target = Question::Run {
        target: vec![1],
        plan: 0,
        budget: 1,
    };
    let sealed = [e, f, g, h, SEALED_4];
    let malformed = [e, f, g, with(h, 1, 2), SEALED_4];
    let mut cases = [
        both("1 and 14", no_order(), refused(1, 0)),
        both("14 and 2", twice(&[ONES]), refused(14, 0)),
        both("14 and 15, and 2", twice(&malformed), refused(14, 3)),
        both("15 and 2", twice(&sealed), refused(15, 0)),
    ]
    .concat();
    cases.push(Case::unchanged(
        "1 of the target, and 15",
        a(&sealed),
        short_target,
        refused(1, 0),
    ));
    cases
}
