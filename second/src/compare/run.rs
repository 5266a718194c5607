//! Run, whole and cut into slices, by every plan, with good and bad targets and
//! logs, and with budgets of every size.

use super::job::Job;
use super::{
    compared, counts_kept_lines, hold_to_counts_kept, name, past, random_questions, sizes,
    with_log, KeptCounts, FEWEST_OF_EACH_ANSWER,
};
use crate::commit::entries;
use crate::generate::{big, busy, random_order, roomy};
use crate::hold::hex;
use crate::input::Input;
use crate::kept::{no_room_keeps, run_keeps};
use crate::layout::MOST_VARIABLES;
use crate::log::MOST_LOG_RECORDS;
use crate::log_kept::short_keeps;
use crate::logs::{cleared, random_log};
use crate::model::{answer, Answer};
use crate::plans::{plan, Plan, PLANS};
use crate::random::Random;
use crate::sample::sample;
use crate::swap::swap;
use crate::tally::Tally;
use crate::wide::{wide, Wide};

pub const QUESTIONS: u64 = 36_000;
const FIRST_SEED: u64 = 20_600_000;
const FEWEST: usize = 1_000;
const KEPT: KeptCounts = KeptCounts {
    once_in: 7,
    fewest: 2_000,
};
const FEWEST_OF_EACH_PLAN: usize = 3_000;
const FEWEST_LARGEST: usize = 20;
const WIDE_ONCE_IN: usize = 150;
const MANY_RECORDS: usize = 200;
/// Some swaps before it must have had a log that was long enough for them.
const FEWEST_SHORT_AFTER_DYING: usize = 20;
/// A run is cut into so many slices at most.
const MOST_SLICES: usize = 6;
/// So many swaps tell how long a log may be.
const MOST_SOUNDED: usize = 12;

pub fn compare(count: u64) -> Result<Tally, String> {
    let tally = Tally::new("random runs, each whole and in slices", 20_000)
        .line("done", FEWEST)
        .line("done with the budget just spent", FEWEST_OF_EACH_ANSWER)
        .line("done without a swap", FEWEST_OF_EACH_ANSWER)
        .line("paused", FEWEST)
        .line("paused with budget 0", FEWEST_OF_EACH_ANSWER)
        .line("no room", FEWEST)
        .line("no room after some swaps", FEWEST_OF_EACH_ANSWER)
        .line("no room with the budget just spent", FEWEST_OF_EACH_ANSWER)
        .line("no room with budget 0", FEWEST_OF_EACH_ANSWER)
        .line("log short after some swaps", FEWEST_OF_EACH_ANSWER)
        .line(
            "log short with the budget just spent",
            FEWEST_OF_EACH_ANSWER,
        )
        .line("log short with budget 0", FEWEST_OF_EACH_ANSWER)
        .line(TAKES_DYING, FEWEST)
        .line(&after_dying("done"), FEWEST_OF_EACH_ANSWER)
        .line(&after_dying("paused"), FEWEST_OF_EACH_ANSWER)
        .line(&after_dying("no room"), FEWEST_OF_EACH_ANSWER)
        .line(&after_dying("log short"), FEWEST_SHORT_AFTER_DYING)
        .refusals(&[1, 2, 3, 4, 5, 6, 7, 8, 9, 13], FEWEST_OF_EACH_ANSWER)
        .line(LOWER_REFUSAL, FEWEST_OF_EACH_ANSWER)
        .line("swaps in all", 50_000)
        .line(SWAPS_THAT_TAKE_DYING, FEWEST);
    let answers = ["done", "paused", "no room", "log short", "refused"];
    let tally = sizes::lines(tally, "not refused", FEWEST_LARGEST);
    let tally = counts_kept_lines(with_log::lines(tally), &KEPT, &answers);
    let tally = PLANS.iter().fold(tally, |tally, plan| {
        let of_plan = |what| of_plan(plan, what);
        tally
            .line(&of_plan("not refused"), FEWEST_OF_EACH_PLAN)
            .line(&of_plan("done"), FEWEST_OF_EACH_ANSWER)
            .line(&of_plan("paused"), FEWEST_OF_EACH_ANSWER)
            .line(&of_plan("no room"), FEWEST_OF_EACH_ANSWER)
            .line(&of_plan("log short"), FEWEST_OF_EACH_ANSWER)
            .line(&of_plan(ITS_OWN), FEWEST_OF_EACH_ANSWER)
    });
    random_questions(tally, FIRST_SEED, count, one)
}

const TAKES_DYING: &str = "a dying record taken";
const SWAPS_THAT_TAKE_DYING: &str = "swaps that take a dying record";

fn after_dying(answer: &str) -> String {
    format!("{answer}, a dying record taken")
}

const LOWER_REFUSAL: &str = "refused 1 to 9, with no such plan besides";

/// No other plan would swap first what this one does.
const ITS_OWN: &str = "a first pair of its own";

/// The name of a plan's line in the tally.
fn of_plan(plan: &Plan, what: &str) -> String {
    format!("{}: {what}", plan.name)
}

fn one(random: &mut Random, tally: &mut Tally) -> Result<(), String> {
    let (before, job) = if random.once_in(WIDE_ONCE_IN) {
        wide_run(random)
    } else {
        any_run(random)
    };
    let budget = random_budget(&before, &job, random);
    let mut after = before.clone();
    let question = job.slice(budget);
    let answer = compared(&mut after, &question, random)?;
    tally.call();
    tally.count(&name(answer));
    with_log::count(&before, &question, answer, &after, tally);
    hold_to_counts_kept(&KEPT, &before, &after, answer, random, tally)?;
    if let Answer::Refused(refusal) = answer {
        let besides = refusal.number != 13 && plan(job.plan).is_none();
        tally.count_if(besides, LOWER_REFUSAL);
        return Ok(());
    }
    let plan = plan(job.plan).expect("no other number is a plan's");
    sizes::count(&before, "not refused", tally);
    let has_its_own = has_its_own(&before.order, &job.target, plan);
    tally.count_if(has_its_own, &of_plan(plan, ITS_OWN));
    count(plan, budget, answer, tally);
    let took_dying = keeps(&before, &job.target, plan, answer, &after, random)?;
    count_dying(took_dying, answer, tally);
    in_slices(&before, &job, budget, answer, &after, random)
}

/// A swap of all that cross, alone or with another one at the top.
fn wide_run(random: &mut Random) -> (Input, Job) {
    let Wide { input, level } = wide(random);
    let log = cleared(&input, MOST_LOG_RECORDS, random);
    let mut target = input.order.clone();
    target.swap(level, level + 1);
    if random.coin() {
        target.swap(0, 1);
    }
    let plan = random.below(PLANS.len()) as u32;
    (input.with_log(log), Job { target, plan })
}

fn any_run(random: &mut Random) -> (Input, Job) {
    let input = match random.below(1_000) {
        0..=579 => busy(random),
        580..=659 => roomy(random),
        660..=663 => big(random),
        _ => sample(random).input,
    };
    let job = Job {
        target: random_target(&input, random),
        plan: random_plan(random),
    };
    let log = random_log(&input, &needs(&input, &job), random);
    (input.with_log(log), job)
}

/// How many entries each of the first swaps needs; none where it is refused with
/// any log.
fn needs(input: &Input, job: &Job) -> Vec<usize> {
    let mut state = input.clone().with_enough_log();
    let Some(plan) = plan(job.plan) else {
        return Vec::new();
    };
    if let Answer::Refused(_) = answer(&mut state, &job.slice(0)) {
        return Vec::new();
    }
    let mut needs = Vec::new();
    while needs.len() < MOST_SOUNDED {
        let next = (plan.next)(&state.order, &job.target);
        let Some((level, made)) = next.and_then(|level| Some((level, swap(&state, level).ok()?)))
        else {
            break;
        };
        needs.push(entries(&state, &made.after, level).len());
        state = made.after;
    }
    needs
}

/// How many of its swaps took a dying record.
fn keeps(
    before: &Input,
    target: &[u8],
    plan: &Plan,
    answer: Answer,
    after: &Input,
    random: &mut Random,
) -> Result<usize, String> {
    let swaps = swaps(answer);
    let took_dying = run_keeps(before, target, plan, swaps, after, random)?;
    match answer {
        Answer::Stuck { lack, .. } => no_room_keeps(after, lack, random)?,
        Answer::OutOfLog { short, .. } => short_keeps(after, short)?,
        _ => {}
    }
    Ok(took_dying)
}

fn count_dying(swaps: usize, answer: Answer, tally: &mut Tally) {
    for _ in 0..swaps {
        tally.count(SWAPS_THAT_TAKE_DYING);
    }
    tally.count_if(swaps > 0, TAKES_DYING);
    tally.count_if(swaps > 0, &after_dying(&name(answer)));
}

/// The same run in slices: their swaps add up, the last answer agrees in all
/// else, and the buffers are the same in the end. The library is held to the
/// model in every slice, so what is shown of the one holds for the other.
fn in_slices(
    before: &Input,
    job: &Job,
    budget: u32,
    answer: Answer,
    after: &Input,
    random: &mut Random,
) -> Result<(), String> {
    let slices = cut(budget, random);
    let mut state = before.clone();
    let mut made = 0;
    let mut last = answer;
    for &budget in &slices {
        last = compared(&mut state, &job.slice(budget), random)
            .map_err(|report| format!("in slices {slices:?}\n{report}"))?;
        made += swaps(last);
    }
    if with_swaps(last, made) == answer && state == *after {
        return Ok(());
    }
    Err(format!(
        "slices {slices:?}: {made} swaps, and at last {last:?}\n{}\n\
         in one: {answer:?}\n{}",
        hex(&state),
        hex(after)
    ))
}

/// Budgets that add up to this one: some small ones, and the rest.
fn cut(budget: u32, random: &mut Random) -> Vec<u32> {
    let mut rest = budget;
    let mut slices = Vec::new();
    for _ in 1..random.between(1, MOST_SLICES) {
        let most = rest.min([0, 1, 5, 50][random.below(4)]);
        let slice = random.between(0, most as usize) as u32;
        slices.push(slice);
        rest -= slice;
    }
    slices.push(rest);
    slices
}

pub fn swaps(answer: Answer) -> u32 {
    match answer {
        Answer::Done { swaps, .. }
        | Answer::Paused { swaps, .. }
        | Answer::Stuck { swaps, .. }
        | Answer::OutOfLog { swaps, .. } => swaps,
        other => panic!("a run that is not refused is never answered {other:?}"),
    }
}

/// The answer with another number of swaps.
pub fn with_swaps(answer: Answer, swaps: u32) -> Answer {
    match answer {
        Answer::Done { left, .. } => Answer::Done { swaps, left },
        Answer::Paused { left, .. } => Answer::Paused { swaps, left },
        Answer::Stuck { left, lack, .. } => Answer::Stuck { swaps, left, lack },
        Answer::OutOfLog { left, short, .. } => Answer::OutOfLog { swaps, left, short },
        other => other,
    }
}

/// Counts a run that is not refused.
fn count(plan: &Plan, budget: u32, answer: Answer, tally: &mut Tally) {
    tally.count(&of_plan(plan, "not refused"));
    tally.count(&of_plan(plan, &name(answer)));
    let swaps = swaps(answer);
    for _ in 0..swaps {
        tally.count("swaps in all");
    }
    let just_spent = swaps > 0 && swaps == budget;
    match answer {
        Answer::Done { .. } => {
            tally.count_if(just_spent, "done with the budget just spent");
            tally.count_if(swaps == 0, "done without a swap");
        }
        Answer::Paused { .. } => tally.count_if(budget == 0, "paused with budget 0"),
        other => {
            let answer = name(other);
            tally.count_if(swaps > 0, &format!("{answer} after some swaps"));
            tally.count_if(just_spent, &format!("{answer} with the budget just spent"));
            tally.count_if(budget == 0, &format!("{answer} with budget 0"));
        }
    }
}

fn has_its_own(order: &[u8], target: &[u8], plan: &Plan) -> bool {
    let first = |plan: &Plan| (plan.next)(order, target);
    let alike = PLANS.iter().filter(|other| first(other) == first(plan));
    alike.count() == 1
}

/// Mostly a permutation: the order itself, near to it, its reverse or any
/// other. Now and then none, or one of another length.
fn random_target(input: &Input, random: &mut Random) -> Vec<u8> {
    let n = input.order.len();
    let mut target = input.order.clone();
    match random.below(20) {
        0 => {}
        1..=4 => exchange_some(&mut target, 3, random),
        5 => target.reverse(),
        6 => {
            random.shuffle(&mut target);
            spoil(&mut target, random);
        }
        7 => spoil(&mut target, random),
        8 => {
            target = random_order(
                [0, n + 1, n.saturating_sub(1), MOST_VARIABLES + 1][random.below(4)],
                random,
            )
        }
        _ => target = any_order(input, random),
    }
    target
}

/// Any order of the same bytes; near to this one where each swap on the way takes
/// long.
pub fn any_order(input: &Input, random: &mut Random) -> Vec<u8> {
    let mut order = input.order.clone();
    if input.store().record_count() < MANY_RECORDS {
        random.shuffle(&mut order);
    } else {
        exchange_some(&mut order, 12, random);
    }
    order
}

/// Neighbours, so many times at most.
fn exchange_some(list: &mut [u8], most: usize, random: &mut Random) {
    for _ in 0..random.between(0, most) {
        if list.len() >= 2 {
            let upper = random.below(list.len() - 1);
            list.swap(upper, upper + 1);
        }
    }
}

/// One byte is made that of another level, or n or more.
fn spoil(list: &mut [u8], random: &mut Random) {
    if list.is_empty() {
        return;
    }
    let n = list.len();
    let byte = match random.below(3) {
        0 => list[random.below(n)],
        1 => n as u8,
        _ => 255,
    };
    list[random.below(n)] = byte;
}

/// Mostly a plan's number; now and then one that is none's, near, far, or
/// seeming a plan's to a reader of its last bits alone.
fn random_plan(random: &mut Random) -> u32 {
    match random.below(48) {
        0 => past(PLANS.len(), random),
        1 => [5, 255, 256, 257, 1 << 16, 1 << 31][random.below(6)],
        2 => random.between(PLANS.len(), u32::MAX as usize) as u32,
        _ => random.below(PLANS.len()) as u32,
    }
}

/// 0, small, huge, or near the number of swaps that the run can make before it
/// is done, without room or out of log.
fn random_budget(before: &Input, job: &Job, random: &mut Random) -> u32 {
    let enough = match answer(&mut before.clone(), &job.slice(u32::MAX)) {
        Answer::Refused(_) => 3,
        other => swaps(other),
    };
    match random.below(8) {
        0 => 0,
        1 => random.between(1, 3) as u32,
        2 => enough,
        3 => enough.saturating_sub(1),
        4 => enough + 1,
        5 => random.between(0, enough as usize) as u32,
        6 => 1 << random.between(8, 31),
        _ => u32::MAX,
    }
}
