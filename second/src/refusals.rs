//! The refusals, in plain functions, one for each check.

use std::collections::HashSet;

use crate::layout::{
    Record, RecordNumber, Reference, Store, MOST_COUNTED, MOST_RECORDS, MOST_ROOTS, MOST_VARIABLES,
    RECORD_BYTES, ROOT_BYTES,
};
use crate::log_refusals::{log_outside, still_sealed};
use crate::plans;

#[derive(Clone, Copy, Debug, PartialEq, Eq)]
pub struct Refusal {
    pub number: u32,
    pub place: usize,
}

/// What an operation is given beside the table, its roots and order; none for
/// an argument that it doesn't have.
#[derive(Clone, Copy, Default)]
pub struct Arguments<'a> {
    pub log: Option<&'a [u8]>,
    pub target: Option<&'a [u8]>,
    pub plan: Option<u32>,
    /// Are combinations of the inputs counted?
    pub counts: bool,
    pub position: Option<u32>,
    pub inputs: Option<&'a [u8]>,
    pub level: Option<u32>,
}

/// A check gives the place where it fails, or none where it passes. One that
/// speaks of an argument passes where the operation doesn't have it.
type Check = fn(Store, Arguments) -> Option<usize>;

/// In the order in which they are made: that of their numbers, but for those of
/// the log, which come after 1, and for 13 and 16, which come after 9
/// (docs/RULES.md, 2.2).
const CHECKS: [(u32, Check); 16] = [
    (1, length_outside),
    (14, |store, arguments| log_outside(store, arguments.log?)),
    (15, |_, arguments| still_sealed(arguments.log?)),
    (2, |store, _| not_a_permutation(store.order)),
    (3, |_, arguments| not_a_permutation(arguments.target?)),
    (4, |store, _| record_malformed(store)),
    (5, |store, _| child_not_below(store)),
    (6, |store, _| low_equals_high(store)),
    (7, |store, _| repeating_record(store)),
    (8, |store, _| root_astray(store)),
    (9, |store, _| idle_record(store)),
    (13, |_, arguments| no_such_plan(arguments.plan?)),
    (16, |store, arguments| {
        arguments.counts.then(|| too_many_to_count(store))?
    }),
    (10, |store, arguments| {
        no_such_root(store, arguments.position?)
    }),
    (11, |store, arguments| {
        inputs_outside(store, arguments.inputs?)
    }),
    (12, |store, arguments| {
        no_such_level(store, arguments.level?)
    }),
];

/// Each goes over its whole buffer before the next: the first check that says
/// no gives its number and place.
pub fn first_refusal(store: Store, arguments: Arguments) -> Option<Refusal> {
    first_of(&CHECKS, store, arguments)
}

/// Table and order may be half of one swap and half of another, and there are no
/// roots: only 1 and 14 are made, the first two.
pub fn first_refusal_of_recovery(store: Store, log: &[u8]) -> Option<Refusal> {
    let store = Store {
        roots: &[],
        ..store
    };
    let arguments = Arguments {
        log: Some(log),
        ..Arguments::default()
    };
    first_of(&CHECKS[..2], store, arguments)
}

fn first_of(checks: &[(u32, Check)], store: Store, arguments: Arguments) -> Option<Refusal> {
    checks.iter().find_map(|&(number, check)| {
        let place = check(store, arguments)?;
        Some(Refusal { number, place })
    })
}

/// 1: a length is wrong: of the order, which is n, of the target, of the table
/// or of the roots. Its place is 0.
fn length_outside(store: Store, arguments: Arguments) -> Option<usize> {
    let outside = store.n() < 1
        || store.n() > MOST_VARIABLES
        || arguments
            .target
            .is_some_and(|target| target.len() != store.n())
        || !store.table.len().is_multiple_of(RECORD_BYTES)
        || store.table.len() > MOST_RECORDS * RECORD_BYTES
        || !store.roots.len().is_multiple_of(ROOT_BYTES)
        || store.roots.len() > MOST_ROOTS * ROOT_BYTES;
    outside.then_some(0)
}

/// 2 and 3: order and target; the first position that is no variable's, or a
/// variable's for the second time. Check 1 has passed: each of the two has
/// length n.
fn not_a_permutation(list: &[u8]) -> Option<usize> {
    (0..list.len()).find(|&position| {
        let variable = list[position];
        usize::from(variable) >= list.len() || list[..position].contains(&variable)
    })
}

/// 4: a record is malformed; the lowest such one.
fn record_malformed(store: Store) -> Option<usize> {
    store
        .record_numbers()
        .find(|&number| is_malformed(store, number))
        .map(place)
}

/// A free record must be zero but for its first byte; a used one needs a
/// variable below n, zeros in the bytes that hold nothing, and good references.
fn is_malformed(store: Store, number: RecordNumber) -> bool {
    let bytes = store.bytes(number);
    if store.is_free(number) {
        return bytes[1..].iter().any(|&byte| byte != 0);
    }
    let record = store.record(number);
    usize::from(record.variable.0) >= store.n()
        || [bytes[1], bytes[6], bytes[7]] != [0, 0, 0]
        || is_astray(store, record.low)
        || is_astray(store, record.high)
}

/// Does the reference name a record that there isn't, or a free one? A constant
/// names none.
fn is_astray(store: Store, reference: Reference) -> bool {
    match reference.record() {
        None => false,
        Some(number) => number.0 >= store.record_count() || store.is_free(number),
    }
}

/// 5: a child that is a record stands no lower than its parent; the lowest such
/// parent. Levels are counted from the top, so that a lower one is greater.
fn child_not_below(store: Store) -> Option<usize> {
    store
        .used()
        .find(|&(_, parent)| {
            parent
                .child_records()
                .any(|child| level(store, store.record(child)) <= level(store, parent))
        })
        .map(|(number, _)| place(number))
}

/// The level of a record's variable. Checks 2 and 4 have passed: the order
/// holds each variable below n, and each used record has one of these.
fn level(store: Store, record: Record) -> usize {
    store
        .level(record.variable)
        .expect("an order that is a permutation holds the variable")
}

/// 6: the two references of a record are equal; the lowest such one.
fn low_equals_high(store: Store) -> Option<usize> {
    store
        .used()
        .find(|(_, record)| record.low == record.high)
        .map(|(number, _)| place(number))
}

/// 7: a record says what one before it says; the lowest such one.
fn repeating_record(store: Store) -> Option<usize> {
    let mut earlier = HashSet::new();
    store
        .used()
        .find(|&(_, record)| !earlier.insert(record))
        .map(|(number, _)| place(number))
}

/// 8: a root names no used record and isn't a constant; the first such position.
fn root_astray(store: Store) -> Option<usize> {
    store.roots().position(|root| is_astray(store, root))
}

/// 9: a used record is named by nothing; the lowest such one.
fn idle_record(store: Store) -> Option<usize> {
    let named = store.named();
    store
        .used()
        .find(|(number, _)| !named.contains(number))
        .map(|(number, _)| place(number))
}

/// 13: a number that no plan has; the number is the place.
fn no_such_plan(number: u32) -> Option<usize> {
    plans::plan(number).is_none().then_some(number as usize)
}

/// 16: more inputs than a root's count is told for; n itself is the place.
fn too_many_to_count(store: Store) -> Option<usize> {
    (store.n() > MOST_COUNTED).then_some(store.n())
}

/// 10: there is no root at the position; it is the place.
fn no_such_root(store: Store, position: u32) -> Option<usize> {
    let position = position as usize;
    (position >= store.roots().count()).then_some(position)
}

/// 11: too few or too many inputs, or one that isn't 0 or 1. Its place is 0.
fn inputs_outside(store: Store, inputs: &[u8]) -> Option<usize> {
    let outside = inputs.len() != store.n() || inputs.iter().any(|&byte| byte != 0 && byte != 1);
    outside.then_some(0)
}

/// 12: the level has none below it, so that there is no pair to swap; it is the
/// place. With n = 1 there is no pair at all.
fn no_such_level(store: Store, level: u32) -> Option<usize> {
    let level = level as usize;
    (level + 1 >= store.n()).then_some(level)
}

/// The place of a refusal that speaks of a record is the record's number.
fn place(number: RecordNumber) -> usize {
    number.0
}
