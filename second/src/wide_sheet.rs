//! Swaps of thousands of records, with the answers and buffers made by hand: the
//! longest log holds 4,095 entries, and that isn't enough for all of them.

use std::ops::Range;

use crate::by_hand::{input, used, Bytes, Case, FREE};
use crate::commit::Short;
use crate::input::Input;
use crate::model::{Answer, Question};
use crate::refusals::Refusal;

pub fn cases() -> Vec<Case> {
    [
        just_enough(),
        too_short(),
        short_on_the_way(),
        whole(),
        put_back(),
    ]
    .concat()
}

/// 64 variables in rising order. Those of levels 0 to 5 are for trees, and the
/// swap is that of levels 6 and 7.
pub const LEVEL: usize = 6;
const X: u8 = 6;
const Y: u8 = 7;
/// Each of the others has a record 1 where its input is.
const LITERALS: Range<u8> = 8..64;
/// These 56 and both constants.
const GRANDCHILDREN: usize = 58;
const TREES: usize = 64;

pub fn rising() -> Vec<u8> {
    (0..64).collect()
}

/// The order after the swap.
pub fn swapped() -> Vec<u8> {
    let mut order = rising();
    order.swap(6, 7);
    order
}

/// So many records cross, each with a child of its own that dies, and so many
/// are free. The table is
///
/// from 0 on: x (0, its child);
/// then: y (two grandchildren), no two of them alike;
/// then: a literal for each of the variables 8 to 63;
/// then: the free ones;
/// then: the records of 64 trees, which name what crosses, and of which the
/// topmost are the roots.
pub fn wide(crossing: usize, free: usize) -> Input {
    let (mut records, roots) = of(crossing, free, |child, low, high| {
        (used(X, 0, child), used(Y, low, high))
    });
    let first_free = 2 * crossing + LITERALS.len();
    records[first_free..first_free + free].fill(FREE);
    input(&records, &roots, &rising())
}

/// What crosses is y (X(0, low), X(0, high)) afterwards: X(0, 0) is 0, and each
/// X(0, b) is new where b is met for the first time. It takes the first free
/// record that is left, and then the first child.
pub fn wide_after(crossing: usize, free: usize) -> Input {
    let first_child = crossing;
    let first_free = 2 * crossing + LITERALS.len();
    let places: Vec<usize> = (first_free..first_free + free)
        .chain(first_child..2 * crossing)
        .collect();
    let (mut records, roots) = of(crossing, free, |_, low, high| (used(Y, low, high), FREE));
    records[first_free..first_free + free].fill(FREE);
    let mut made: Vec<u16> = Vec::new();
    for number in 0..crossing {
        let bytes = records[number];
        let [low, high] = [2, 4].map(|at| u16::from_le_bytes([bytes[at], bytes[at + 1]]));
        let [low, high] = [low, high].map(|b| {
            if b == 0 {
                return 0;
            }
            let known = made.iter().position(|&other| other == b);
            let which = known.unwrap_or_else(|| {
                made.push(b);
                made.len() - 1
            });
            places[which] as u16 + 2
        });
        records[number] = used(Y, low, high);
    }
    for (b, &place) in made.into_iter().zip(&places) {
        records[place] = used(X, 0, b);
    }
    input(&records, &roots, &swapped())
}

/// The records and roots; what crosses and its child are made of the child's
/// reference and of its low and high one.
fn of(
    crossing: usize,
    free: usize,
    made: impl Fn(u16, u16, u16) -> (Bytes, Bytes),
) -> (Vec<Bytes>, Vec<u16>) {
    let first_literal = 2 * crossing;
    let grandchild = |which: usize| match which {
        0 | 1 => which as u16,
        _ => (first_literal + which) as u16,
    };
    let both = |number: usize| {
        let low = number / (GRANDCHILDREN - 1);
        let high = number % (GRANDCHILDREN - 1);
        let high = if high < low { high } else { high + 1 };
        let child = (crossing + number + 2) as u16;
        made(child, grandchild(low), grandchild(high))
    };
    let (upper, lower): (Vec<Bytes>, Vec<Bytes>) = (0..crossing).map(both).unzip();
    let literals = LITERALS.map(|variable| used(variable, 0, 1)).collect();
    let mut records = [upper, lower, literals, vec![FREE; free]].concat();
    let leaves = |tree: usize| tree * crossing / TREES..(tree + 1) * crossing / TREES;
    let roots = (0..TREES).map(|root| tree(&mut records, 0, leaves(root)));
    let roots = roots.collect();
    (records, roots)
}

/// The reference to a tree over these records, whose upper half is its high one.
fn tree(records: &mut Vec<Bytes>, level: u8, leaves: Range<usize>) -> u16 {
    if leaves.len() == 1 {
        return leaves.start as u16 + 2;
    }
    let middle = leaves.start + leaves.len() / 2;
    let low = tree(records, level + 1, leaves.start..middle);
    let high = tree(records, level + 1, middle..leaves.end);
    records.push(used(level, low, high));
    records.len() as u16 + 1
}

const SWAP: Question = Question::Swap { level: 6 };

fn run(target: &[u8], plan: u32, budget: u32) -> Question {
    Question::Run {
        target: target.to_vec(),
        plan,
        budget,
    }
}

/// 2,047 and as many children, and the pair: 4,095.
fn just_enough() -> Vec<Case> {
    let made = |question, answer| {
        let (before, after) = (wide(2_047, 0), wide_after(2_047, 0));
        Case::logged("4,095 entries", before, question, answer, after)
    };
    let done = Answer::Done { swaps: 1, left: 0 };
    vec![
        made(SWAP, Answer::Made),
        made(run(&swapped(), 0, 1), done),
        made(run(&swapped(), 3, u32::MAX), done),
    ]
}

fn short(needed: usize) -> Short {
    Short {
        level: LEVEL,
        needed,
        held: 4_095,
    }
}

/// Of the 57 that are new, one takes the free record where there is one.
fn too_short() -> Vec<Case> {
    let row = |name, before: Input, needed| {
        let (short, target) = (short(needed), swapped());
        let out_of_log = Answer::OutOfLog {
            swaps: 0,
            left: 1,
            short,
        };
        let case = |question, answer| {
            let (before, after) = (before.clone(), before.clone());
            Case::logged(name, before, question, answer, after)
        };
        let mut cases = vec![
            case(SWAP, Answer::LogShort(short)),
            case(run(&target, 0, 0), out_of_log),
            case(run(&target, 0, 1), out_of_log),
        ];
        cases.extend((0..4).map(|plan| case(run(&target, plan, u32::MAX), out_of_log)));
        cases
    };
    [
        row("4,096 entries", wide(2_047, 1), 4_096),
        row("4,097 entries", wide(2_048, 0), 4_097),
        row("4,152 entries", wide(2_047, 100), 4_152),
        row("8,192 records, 5,468 entries", wide(2_733, 1), 5_468),
    ]
    .concat()
}

/// Levels 62 and 63 are to be exchanged too, which changes no record: Sink Down
/// and Lowest Inversion do that first.
fn short_on_the_way() -> Vec<Case> {
    let before = || wide(2_733, 1);
    let mut target = swapped();
    target.swap(62, 63);
    let by = |plan, budget, swaps: u32| {
        let mut after = before();
        if swaps > 0 {
            after.order.swap(62, 63);
        }
        let answer = Answer::OutOfLog {
            swaps,
            left: 2 - swaps as usize,
            short: short(5_468),
        };
        let question = run(&target, plan, budget);
        Case::logged("short on the way", before(), question, answer, after)
    };
    vec![
        by(0, u32::MAX, 0),
        by(1, 1, 1),
        by(1, u32::MAX, 1),
        by(2, 1, 1),
        by(2, u32::MAX, 1),
        by(3, u32::MAX, 0),
    ]
}

/// What the other entries say of it: 64 inputs are too many to count.
fn whole() -> Vec<Case> {
    let refused_16 = Answer::Refused(Refusal {
        number: 16,
        place: 64,
    });
    // Under ones the last root leads to the last record that crosses, and that by
    // way of its child to a literal.
    let ones = vec![1; 64];
    let read = |position, inputs| Question::Read { position, inputs };
    let mut no_x = ones.clone();
    no_x[usize::from(X)] = 0;
    let case =
        |question, answer| Case::unchanged("8,192 records", wide(2_733, 1), question, answer);
    vec![
        case(Question::Check, Answer::Accepted { used: 8_191 }),
        case(read(63, ones), Answer::Value(1)),
        case(read(63, no_x), Answer::Value(0)),
        case(
            Question::Show { position: 63 },
            Answer::Part {
                offset: 65_528,
                length: 8,
            },
        ),
        case(Question::Count { position: 63 }, refused_16),
        case(Question::Count { position: 64 }, refused_16),
    ]
}

/// A swap of 4,095 entries that was cut just before its seal was cleared.
fn put_back() -> Vec<Case> {
    let made = just_enough().swap_remove(0);
    let (before, after) = (made.input, made.expected.after);
    let mut cut = after.clone();
    let place_of_seal = 65_520;
    cut.log[place_of_seal] = 0xA5;
    vec![Case::changed(
        "4,095 entries put back",
        cut,
        Question::Recover,
        Answer::PutBack { entries: 4_095 },
        before.with_log(after.log),
    )]
}
