//! Supply lost at every store of a swap, and anywhere in a run, by this program's
//! own list of stores; the library recovers. What it must leave is told from the
//! buffers before and after the swap, without the model's recovery.

use super::job::Job;
use super::run::{swaps, with_swaps};
use super::{compared, random_questions, sizes};
use crate::commit::logged_swap;
use crate::generate::{busy, spacious};
use crate::hold::{hex, hold_library_to, Expected};
use crate::input::Input;
use crate::lists::{Lengths, NUMBERS};
use crate::log::Log;
use crate::logs::cleared;
use crate::model::{Answer, Question};
use crate::plans::{plan, PLANS};
use crate::random::Random;
use crate::recover::clear_seal;
use crate::steps::{in_turn, recovery_parts, swap_parts, Step};
use crate::tally::Tally;

pub const QUESTIONS: u64 = 2_000;
const FIRST_SEED: u64 = 21_200_000;
const FEWEST_SWAPS: usize = 500;
/// Stores of a swap, so that its cuts can all be made.
const MOST_STEPS: usize = 500;
/// A run is cut so many times at most.
const MOST_CUTS: usize = 3;
const MOST_BUDGET: usize = 12;
/// So much is sent for each cut that few of the largest stores are cut.
const LARGEST_ONCE_IN: usize = 100;
const FEWEST_LARGEST: usize = 5;

pub fn compare(count: u64) -> Result<Tally, String> {
    let tally = Tally::new(
        "swaps cut at every store, and runs cut anywhere",
        FEWEST_SWAPS,
    )
    .line("cuts before the seal", 10_000)
    .line("cuts under the seal", 10_000)
    .line("cuts after the last store", FEWEST_SWAPS)
    .line("cuts of a recovery", 10_000)
    .line("swaps that change no record", 10)
    .line("swaps with just as much log as they need", 100)
    .line("swaps that change a record", 100)
    .line("runs cut", FEWEST_SWAPS)
    .line("runs cut in a swap under its seal", 100)
    .line("runs cut after some swaps", 100)
    .line("runs cut more than once", 100)
    .line("runs gone on with after a cut", 100);
    let tally = sizes::lines(tally, "swaps cut", FEWEST_LARGEST);
    let tally = sizes::lines(tally, "runs cut", FEWEST_LARGEST);
    random_questions(tally, FIRST_SEED, count, |random, tally| {
        cut_swap(random, tally)?;
        cut_run(random, tally)
    })
}

/// A swap that was made, and the stores that make it.
struct Made {
    before: Input,
    after: Input,
    steps: Vec<Step>,
}

fn busy_or_largest(random: &mut Random) -> Input {
    if random.once_in(LARGEST_ONCE_IN) {
        spacious(random)
    } else {
        busy(random)
    }
}

fn made_swap(random: &mut Random) -> Made {
    loop {
        let input = busy_or_largest(random);
        let level = random.below(input.order.len() - 1);
        let Ok(roomy) = logged_swap(&input.clone().with_enough_log(), level) else {
            continue;
        };
        let needed = Log(&roomy.log).count();
        let records = needed + 1 + random.below(2) * random.below(5);
        let log = cleared(&input, records, random);
        let before = input.with_log(log);
        let Ok(after) = logged_swap(&before, level) else {
            panic!("the log holds {needed} entries");
        };
        let steps = in_turn(swap_parts(&before, &after, level), random);
        if steps.len() <= MOST_STEPS {
            return Made {
                before,
                after,
                steps,
            };
        }
    }
}

fn cut_swap(random: &mut Random, tally: &mut Tally) -> Result<(), String> {
    let made = made_swap(random);
    tally.call();
    count_swap(&made, tally);
    let every_cut_of = random.below(made.steps.len());
    let mut state = made.before.clone();
    for (cut, step) in made.steps.iter().enumerate() {
        let report = |report| format!("cut before store {cut} of {}\n{report}", made.steps.len());
        hold_to_recovery(&made, &state, tally).map_err(report)?;
        cut_recovery(&made, &state, cut == every_cut_of, random, tally).map_err(report)?;
        step.make(&mut state);
    }
    if state != made.after {
        return Err("the stores of a swap don't make it".to_string());
    }
    tally.count("cuts after the last store");
    hold_to(&state, 0, &state)
}

fn count_swap(made: &Made, tally: &mut Tally) {
    let log = Log(&made.after.log);
    tally.count_if(log.count() == 1, "swaps that change no record");
    let just_enough = log.count() == log.held();
    tally.count_if(just_enough, "swaps with just as much log as they need");
    tally.count_if(log.count() > 1, "swaps that change a record");
    sizes::count(&made.before, "swaps cut", tally);
}

/// Before the seal nothing has happened; under it all is put back. Recovered
/// once more, it stays so.
fn hold_to_recovery(made: &Made, state: &Input, tally: &mut Tally) -> Result<(), String> {
    if !Log(&state.log).is_sealed() {
        tally.count("cuts before the seal");
        if state.store() != made.before.store() {
            return Err("a swap has begun before its seal".to_string());
        }
        return hold_to(state, 0, state);
    }
    tally.count("cuts under the seal");
    let back = back(made, state);
    hold_to(state, Log(&state.log).count(), &back)?;
    hold_to(&back, 0, &back)
}

/// The table and order before the swap, the log with its seal cleared.
fn back(made: &Made, state: &Input) -> Input {
    let mut log = state.log.clone();
    clear_seal(&mut log);
    made.before.clone().with_log(log)
}

fn hold_to(state: &Input, entries: usize, after: &Input) -> Result<(), String> {
    let expected = Expected {
        answer: Answer::PutBack { entries },
        after: after.clone(),
    };
    let lengths = Lengths {
        numbers: NUMBERS,
        counts: 0,
        shares: 0,
    };
    hold_library_to(&expected, state, &Question::Recover, lengths)
}

/// A recovery that is cut itself, at every store or at any, and begun again by
/// the library.
fn cut_recovery(
    made: &Made,
    state: &Input,
    at_every: bool,
    random: &mut Random,
    tally: &mut Tally,
) -> Result<(), String> {
    if !Log(&state.log).is_sealed() {
        return Ok(());
    }
    let steps = in_turn(recovery_parts(state), random);
    let only = random.below(steps.len());
    let entries = Log(&state.log).count();
    let back = back(made, state);
    let mut torn = state.clone();
    for (cut, step) in steps.iter().enumerate() {
        if at_every || cut == only {
            tally.count("cuts of a recovery");
            hold_to(&torn, entries, &back)
                .map_err(|report| format!("recovery cut before store {cut}\n{report}"))?;
        }
        step.make(&mut torn);
    }
    if torn == back {
        Ok(())
    } else {
        Err("the stores of a recovery don't make it".to_string())
    }
}

/// The stores of a run, and behind which of them a swap has been made.
fn steps_of(
    job: &Job,
    before: &Input,
    budget: u32,
    random: &mut Random,
) -> (Vec<Step>, Vec<usize>) {
    let plan = plan(job.plan).expect("only plans' numbers are drawn");
    let mut state = before.clone();
    let mut steps = Vec::new();
    let mut ends = Vec::new();
    while ends.len() < budget as usize {
        let Some(level) = (plan.next)(&state.order, &job.target) else {
            break;
        };
        let Ok(after) = logged_swap(&state, level) else {
            break;
        };
        steps.extend(in_turn(swap_parts(&state, &after, level), random));
        ends.push(steps.len());
        state = after;
    }
    (steps, ends)
}

/// What is run whole is then cut, recovered by the library and gone on with.
fn cut_run(random: &mut Random, tally: &mut Tally) -> Result<(), String> {
    let input = busy_or_largest(random);
    let records = random.between(2, 40);
    let log = cleared(&input, records, random);
    let before = input.with_log(log);
    let mut target = before.order.clone();
    random.shuffle(&mut target);
    let plan = random.below(PLANS.len()) as u32;
    let job = Job { target, plan };
    let budget = random.between(0, MOST_BUDGET) as u32;

    let mut whole = before.clone();
    let answer = compared(&mut whole, &job.slice(budget), random)?;
    let mut state = before;
    let mut made = 0;
    let mut cuts = 0;
    for _ in 0..random.between(1, MOST_CUTS) {
        let Some(here) = cut_once(&job, &mut state, budget - made, random, tally)? else {
            break;
        };
        made += here;
        cuts += 1;
    }
    tally.count_if(cuts > 0, "runs cut");
    if cuts > 0 {
        sizes::count(&whole, "runs cut", tally);
    }
    tally.count_if(cuts > 1, "runs cut more than once");
    let last = compared(&mut state, &job.slice(budget - made), random)?;
    tally.count_if(cuts > 0 && swaps(last) > 0, "runs gone on with after a cut");
    if with_swaps(last, made + swaps(last)) == answer && state.store() == whole.store() {
        return Ok(());
    }
    Err(format!(
        "cut {cuts} times: {made} swaps, and at last {last:?}\n{}\n\
         in one: {answer:?}\n{}",
        hex(&state),
        hex(&whole)
    ))
}

/// The run from this state is cut, and what is left is recovered: how many swaps
/// had been made. None where there is no swap to be cut.
fn cut_once(
    job: &Job,
    state: &mut Input,
    budget: u32,
    random: &mut Random,
    tally: &mut Tally,
) -> Result<Option<u32>, String> {
    let (steps, ends) = steps_of(job, state, budget, random);
    if steps.is_empty() {
        return Ok(None);
    }
    let cut = random.between(0, steps.len());
    steps[..cut].iter().for_each(|step| step.make(state));
    let made = ends.iter().filter(|&&end| end <= cut).count();
    tally.count_if(made > 0, "runs cut after some swaps");
    let is_sealed = Log(&state.log).is_sealed();
    tally.count_if(is_sealed, "runs cut in a swap under its seal");
    compared(state, &Question::Recover, random)?;
    Ok(Some(made as u32))
}
