//! The library's own stores, watched one by one: in which order a swap, a run
//! and a recovery change their bytes, and what a cut after each would leave.

use std::ops::Range;

use super::{random_questions, sizes};
use crate::commit::logged_swap;
use crate::generate::{busy, spacious};
use crate::hold::hex;
use crate::input::Input;
use crate::library::{watch, Change};
use crate::log::{Log, Subject, LOG_RECORD_BYTES, SEALED};
use crate::logs::{cleared, counted_entries};
use crate::model::{answer, Answer, Question};
use crate::plans::{plan, PLANS};
use crate::random::Random;
use crate::steps::{in_turn, swap_parts};
use crate::tally::Tally;

pub const QUESTIONS: u64 = 1_500;
const FIRST_SEED: u64 = 21_300_000;
const FEWEST: usize = 500;
const MOST_BUDGET: usize = 6;
const LARGEST_ONCE_IN: usize = 40;
const FEWEST_LARGEST: usize = 10;

pub fn compare(count: u64) -> Result<Tally, String> {
    let tally = Tally::new("swaps, runs and recoveries watched", FEWEST)
        .line(SWAPS, FEWEST)
        .line(RUNS, FEWEST)
        .line(SWAPS_OF_RUNS, FEWEST)
        .line(RECOVERIES, FEWEST)
        .line(UNCHANGED, 100)
        .line(STORES, 10_000);
    let tally = [SWAPS, RUNS].into_iter().fold(tally, |tally, what| {
        sizes::lines(tally, what, FEWEST_LARGEST)
    });
    random_questions(tally, FIRST_SEED, count, |random, tally| {
        tally.call();
        watched_swap(random, tally)?;
        watched_run(random, tally)
    })
}

const SWAPS: &str = "swaps made";
const RUNS: &str = "runs with a swap";
const SWAPS_OF_RUNS: &str = "swaps made in runs";
const RECOVERIES: &str = "recoveries of a torn store";
const UNCHANGED: &str = "swaps and runs that change nothing";
const STORES: &str = "stores after which a cut was tried";

/// A random input with a log, mostly long enough.
fn random_input(random: &mut Random) -> Input {
    let input = if random.once_in(LARGEST_ONCE_IN) {
        spacious(random)
    } else {
        busy(random)
    };
    let records = random.between(2, 50);
    let log = cleared(&input, records, random);
    input.with_log(log)
}

fn watched_swap(random: &mut Random, tally: &mut Tally) -> Result<(), String> {
    let before = random_input(random);
    let level = random.below(before.order.len() - 1);
    let question = Question::Swap {
        level: level as u32,
    };
    let stores = stores_of(&before, &question)?;
    let Ok(after) = logged_swap(&before, level) else {
        tally.count(UNCHANGED);
        return unless(
            stores.is_empty(),
            "a swap that isn't made changes something",
            &before,
        );
    };
    tally.count(SWAPS);
    sizes::count(&before, SWAPS, tally);
    swap_in_turn(&before, &after, &stores, tally)?;
    watched_recovery(&before, &after, level, random, tally)
}

/// A torn store, made by this program's own stores.
fn watched_recovery(
    before: &Input,
    after: &Input,
    level: usize,
    random: &mut Random,
    tally: &mut Tally,
) -> Result<(), String> {
    let parts = swap_parts(before, after, level);
    let first_under_seal = parts[0].len() + 1;
    let steps = in_turn(parts, random);
    let cut = random.between(first_under_seal, steps.len() - 1);
    let mut torn = before.clone();
    steps[..cut].iter().for_each(|step| step.make(&mut torn));
    let stores = stores_of(&torn, &Question::Recover)?;
    tally.count(RECOVERIES);
    recovery_in_turn(&torn, before, &stores, tally)
}

fn watched_run(random: &mut Random, tally: &mut Tally) -> Result<(), String> {
    let before = random_input(random);
    let mut target = before.order.clone();
    random.shuffle(&mut target);
    let number = random.below(PLANS.len()) as u32;
    let plan = plan(number).expect("only plans' numbers are drawn");
    let budget = random.between(0, MOST_BUDGET);
    let question = Question::Run {
        target: target.clone(),
        plan: number,
        budget: budget as u32,
    };
    let stores = stores_of(&before, &question)?;
    let mut rest = stores.as_slice();
    let mut state = before.clone();
    let mut swaps = 0;
    while swaps < budget {
        let next = (plan.next)(&state.order, &target);
        let Some(after) = next.and_then(|level| logged_swap(&state, level).ok()) else {
            break;
        };
        let (swap, others) = rest.split_at(stores_of_first_swap(&state, rest));
        swap_in_turn(&state, &after, swap, tally)?;
        tally.count(SWAPS_OF_RUNS);
        (state, rest) = (after, others);
        swaps += 1;
    }
    tally.count(if swaps > 0 { RUNS } else { UNCHANGED });
    if swaps > 0 {
        sizes::count(&before, RUNS, tally);
    }
    unless(
        rest.is_empty(),
        "a run changes more than its swaps do",
        &before,
    )
}

/// What one store changes.
type Store = Vec<Change>;

/// The changes of the whole call, store by store; those that change nothing are
/// not told.
fn stores_of(before: &Input, question: &Question) -> Result<Vec<Store>, String> {
    let mut after = before.clone();
    let changes = watch(&mut after, question)?;
    let stores = changes.chunk_by(|one, next| one.store == next.store);
    let stores: Vec<Store> = stores.map(<[Change]>::to_vec).collect();
    let mut state = before.clone();
    stores.iter().for_each(|store| make(&mut state, store));
    unless(state == after, "not all stores were seen", before)?;
    Ok(stores)
}

fn unless(right: bool, what: &str, input: &Input) -> Result<(), String> {
    match right {
        true => Ok(()),
        false => Err(format!("{what}\n{}", hex(input))),
    }
}

/// Up to the one that clears the seal.
fn stores_of_first_swap(state: &Input, stores: &[Store]) -> usize {
    let seal = place_of_seal(state);
    let clears = |store: &Store| {
        let mut changes = store.iter();
        changes.any(|change| change.position == seal && change.byte == 0)
    };
    let last = stores.iter().position(clears);
    last.map_or(stores.len(), |last| last + 1)
}

/// Byte 0 of the seal, in table, order and log.
fn place_of_seal(input: &Input) -> usize {
    input.table.len() + input.order.len() + input.log.len() - LOG_RECORD_BYTES
}

fn make(input: &mut Input, store: &Store) {
    let table = input.table.len();
    let order = table + input.order.len();
    for change in store {
        let place = change.position;
        if place < table {
            input.table[place] = change.byte;
        } else if place < order {
            input.order[place - table] = change.byte;
        } else {
            input.log[place - order] = change.byte;
        }
    }
}

/// The parts of a swap, in the order in which they must come.
#[derive(Clone, Copy, Debug, PartialEq, Eq, PartialOrd, Ord)]
enum Part {
    Log,
    Seal,
    TableAndOrder,
    Clear,
}

fn part(input: &Input, change: &Change) -> Part {
    let is_seal = change.position == place_of_seal(input);
    match change.byte {
        SEALED if is_seal => Part::Seal,
        0 if is_seal => Part::Clear,
        _ if change.position < input.table.len() + input.order.len() => Part::TableAndOrder,
        _ => Part::Log,
    }
}

/// No part begins before the one before it has ended, the seal's byte is stored
/// alone, and a cut after any store but the last leads back.
fn swap_in_turn(
    before: &Input,
    after: &Input,
    stores: &[Store],
    tally: &mut Tally,
) -> Result<(), String> {
    let parts: Vec<Part> = stores
        .iter()
        .flatten()
        .map(|change| part(before, change))
        .collect();
    unless(parts.is_sorted(), "a swap stores out of turn", before)?;
    let times = |wanted| parts.iter().filter(|&&part| part == wanted).count();
    let once = times(Part::Seal) == 1 && times(Part::Clear) == 1;
    unless(once, "a swap isn't sealed and cleared once", before)?;
    let seal = place_of_seal(before);
    let mut state = before.clone();
    for (number, store) in stores.iter().enumerate() {
        let has_seal = store.iter().any(|change| change.position == seal);
        unless(
            !has_seal || store.len() == 1,
            "the seal isn't stored alone",
            before,
        )?;
        make(&mut state, store);
        if number + 1 < stores.len() {
            tally.count(STORES);
            leads_back(&state, before)?;
        }
    }
    unless(state == *after, "the stores lead elsewhere", before)
}

fn leads_back(state: &Input, before: &Input) -> Result<(), String> {
    let mut recovered = state.clone();
    let answered = answer(&mut recovered, &Question::Recover);
    let is_put_back = matches!(answered, Answer::PutBack { .. });
    let is_back = is_put_back && recovered.store() == before.store();
    unless(is_back, "a cut here doesn't lead back", state)
}

/// The entries in turn, and then the seal; a cut after any store but the last is
/// recovered from.
fn recovery_in_turn(
    torn: &Input,
    before: &Input,
    stores: &[Store],
    tally: &mut Tally,
) -> Result<(), String> {
    let seal = place_of_seal(torn);
    let mut places = places_of_entries(torn).into_iter();
    let mut here = places.next();
    let mut state = torn.clone();
    for (number, store) in stores.iter().enumerate() {
        for change in store {
            while here
                .as_ref()
                .is_some_and(|place| !place.contains(&change.position))
            {
                here = places.next();
            }
            let in_turn = here.is_some() || (change.position == seal && change.byte == 0);
            unless(in_turn, "a recovery stores out of turn", torn)?;
        }
        make(&mut state, store);
        let is_last = number + 1 == stores.len();
        unless(
            Log(&state.log).is_sealed() != is_last,
            "the seal isn't cleared last",
            torn,
        )?;
        tally.count(STORES);
        leads_back(&state, before)?;
    }
    Ok(())
}

/// Where each entry's bytes are in table and order, one after the other.
fn places_of_entries(input: &Input) -> Vec<Range<usize>> {
    let place = |subject: Subject| {
        let buffer = match subject {
            Subject::Record(_) => 0,
            Subject::Pair(_) => input.table.len(),
        };
        let first = buffer + subject.offset();
        first..first + subject.size()
    };
    let entries = counted_entries(&input.log);
    entries.iter().map(|entry| place(entry.subject)).collect()
}
