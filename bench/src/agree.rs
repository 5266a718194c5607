//! Before anything is timed: both sides give the same answers and leave the same
//! buffers.

use crate::generate::{self, Buffers, Case, PLAN};
use crate::library::{self, Numbers};
use crate::limits::{COUNTED, RECORDS, VARIABLES};
use crate::ordinary::{self, Answer, Counted, Plan};
use crate::points::{Point, SLICE};

/// On a full table: check, counts, and what is done at each point and by each
/// plan.
pub fn on_case(case: &Case, points: &[Point]) {
    on_accepted(&case.before);
    on_counts(&case.before);
    on_counts(&case.after);
    for point in points {
        on_swap(&point.buffers, point.level);
        on_recovery(&point.cut, &point.buffers);
        let expected = on_run(&point.buffers, &case.target, PLAN, SLICE);
        let whole = matches!(expected, Answer::Paused { swaps: SLICE, .. });
        assert!(whole, "a slice isn't paused after its swaps: {expected:?}");
    }
    for plan in Plan::ALL {
        on_run(&case.before, &case.target, plan, u32::MAX);
    }
}

/// Both sides accept the table and tell how many of its records are used.
pub fn on_accepted(buffers: &Buffers) {
    let used = buffers.used();
    assert_eq!(on_check(buffers), Answer::Accepted { used });
}

/// At the limits and beyond them, on tables in which nothing is used.
pub fn on_edges() {
    for n in [0, 1, COUNTED, COUNTED + 1, VARIABLES, VARIABLES + 1] {
        on_edge(n, 0);
    }
    for records in [RECORDS, RECORDS + 1] {
        on_edge(1, records);
    }
}

/// With n variables and that many records, all of them free.
fn on_edge(n: usize, records: usize) {
    let buffers = Buffers::of_free_records(n, records);
    on_check(&buffers);
    on_counts(&buffers);
    on_run(&buffers, &buffers.order, PLAN, u32::MAX);
    on_swap(&buffers, 0);
    on_recovery(&buffers, &buffers);
}

/// On a swap that is too large for the longest log.
pub fn on_log_short() {
    let buffers = generate::one_function(1, 15);
    let pairs = 0..buffers.order.len() - 1;
    let answers = pairs.map(|level| on_swap(&buffers, level));
    let short = answers.filter(|answer| matches!(answer, Answer::LogShort(_)));
    assert_eq!(short.count(), 1, "not one swap is too large");
}

/// The answer that both sides give.
fn on_check(buffers: &Buffers) -> Answer {
    let mut answer = Numbers::default();
    let count = library::check(buffers, &mut answer);
    let expected = ordinary::check(buffers);
    same(&answer[..count], expected);
    expected
}

/// Both sides count the same for each root, with a share of the same bits, or
/// refuse alike, as they do at the position after the last.
fn on_counts(buffers: &Buffers) {
    let mut answer = Numbers::default();
    for position in 0..=buffers.positions() {
        let mut counted = Counted::default();
        let numbers = library::count(buffers, position as u32, &mut counted, &mut answer);
        match ordinary::count(buffers, position) {
            Ok(expected) => {
                assert_eq!(answer[..numbers], [0], "root {position} isn't counted");
                assert_eq!(counted.count, expected.count, "the counts differ");
                let (ours, theirs) = (counted.share.to_bits(), expected.share.to_bits());
                assert_eq!(ours, theirs, "the shares differ");
            }
            Err(refused) => same(&answer[..numbers], refused),
        }
    }
}

/// The answer that both sides give.
fn on_swap(before: &Buffers, level: usize) -> Answer {
    let mut answer = Numbers::default();
    let (mut ours, mut theirs) = (before.clone(), before.clone());
    let count = library::swap(&mut ours, level as u32, &mut answer);
    let expected = ordinary::swap(&mut theirs, level);
    same(&answer[..count], expected);
    assert!(ours == theirs, "the buffers differ after a swap");
    expected
}

/// From a cut, back to what was before it.
fn on_recovery(cut: &Buffers, before: &Buffers) {
    let mut answer = Numbers::default();
    let (mut ours, mut theirs) = (cut.clone(), cut.clone());
    let count = library::recover(&mut ours, &mut answer);
    same(&answer[..count], ordinary::recover(&mut theirs));
    assert!(ours == theirs, "the buffers differ after a recovery");
    let whole = ours.table == before.table && ours.order == before.order;
    assert!(whole, "a recovery leaves something else than was before");
}

/// The answer that both sides give.
fn on_run(before: &Buffers, target: &[u8], plan: Plan, budget: u32) -> Answer {
    let mut answer = Numbers::default();
    let (mut ours, mut theirs) = (before.clone(), before.clone());
    let count = library::run(&mut ours, target, plan, budget, &mut answer);
    let expected = ordinary::run(&mut theirs, target, plan, budget);
    same(&answer[..count], expected);
    let same = ours == theirs;
    assert!(same, "the buffers differ after {budget} swaps by {plan:?}");
    expected
}

fn same(answer: &[u32], expected: Answer) {
    assert_eq!(answer, expected.numbers(), "the answers differ");
}
