//! Check, and now and then Swap and Run, on tables made for check 7.

use super::{compared, name, random_questions, sizes, FEWEST_OF_EACH_ANSWER};
use crate::bucket::{bucket, sizes};
use crate::chains::{walks, FEWEST_FOR_CHAINS, FEWEST_OF_A_CROWD, MOST_STEPS};
use crate::input::Input;
use crate::layout::{RecordNumber, MOST_RECORDS};
use crate::model::{Answer, Question};
use crate::plans::PLANS;
use crate::random::Random;
use crate::repeats::{kind_names, often_full, sample, Repeat, Sample};
use crate::tally::Tally;

pub const QUESTIONS: u64 = 8_000;
const FIRST_SEED: u64 = 20_900_000;
const FEWEST_OF_EACH_KIND: usize = 200;
const FEWEST_FULL: usize = 30;
const FEWEST_LARGEST: usize = 10;
const FEWEST_FULL_GIVEN_UP: usize = 15;
const FEWEST_FULL_OF_EACH_KIND: usize = 2;
const FEWEST_GIVEN_UP: usize = 1_000;
/// In tables that take more steps than the chains are given.
const FEWEST_OF_EACH_PLACE: usize = 300;
const FEWEST_EXACT: usize = 5;
/// So few steps from the limit are near it.
const NEAR: usize = 128;
const MANY_RECORDS: usize = 200;
/// Once in so many tables each of the other entries is asked as well.
const OTHERS_ONCE_IN: usize = 6;
const MOST_SWAPS: usize = 2;

pub fn compare(count: u64) -> Result<Tally, String> {
    let tally = Tally::new("random tables for check 7", 5_000)
        .line("accepted", FEWEST_OF_EACH_ANSWER)
        .refusals(&[7, 8, 9], FEWEST_OF_EACH_ANSWER);
    let tally = lines_of_records(tally);
    let tally = lines_of_steps(tally);
    let tally = lines_of_giving_up(tally);
    let tally = ENTRIES_TOO.iter().fold(tally, |tally, entry| {
        both_lines(tally, entry, FEWEST_OF_EACH_KIND)
    });
    let tally = sizes::lines(tally, NOT_7, FEWEST_LARGEST);
    random_questions(lines_of_kinds(tally), FIRST_SEED, count, one)
}

fn lines_of_records(tally: Tally) -> Tally {
    let tally = tally
        .line(FREE_BETWEEN, FEWEST_OF_EACH_KIND)
        .line(MORE_FREE, FEWEST_OF_EACH_KIND)
        .line(MANY, FEWEST_OF_EACH_KIND)
        .line(ALL_USED, FEWEST_FULL)
        .line(FULL_WITHIN, FEWEST_FULL)
        .line(FULL_PAST, FEWEST_FULL);
    AROUND_CHAINS.iter().fold(tally, |tally, &records| {
        both_lines(tally, &just_so_many(records), FEWEST_OF_EACH_ANSWER)
    })
}

fn lines_of_steps(tally: Tally) -> Tally {
    let tally = both_lines(tally, PLAINLY, FEWEST_OF_EACH_KIND);
    both_lines(tally, BY_CHAINS, FEWEST_OF_EACH_KIND)
        .line(NEARLY_PAST, FEWEST_OF_EACH_ANSWER)
        .line(LAST_STEP, FEWEST_EXACT)
        .line(STEP_TOO_MANY, FEWEST_EXACT)
        .line(JUST_PAST, FEWEST_OF_EACH_ANSWER)
}

fn lines_of_giving_up(tally: Tally) -> Tally {
    let tally = tally.line(GIVEN_UP, FEWEST_GIVEN_UP);
    let tally = both_lines(tally, GIVEN_UP, FEWEST_OF_EACH_PLACE)
        .line(GIVEN_UP_FREE, FEWEST_OF_EACH_KIND)
        .line(GIVEN_UP_NONE_FREE, FEWEST_OF_EACH_KIND)
        .line(BOTH_AFTER, FEWEST_OF_EACH_ANSWER)
        .line(AT_THE_POINT, FEWEST_OF_EACH_ANSWER)
        .line(BEFORE, FEWEST_OF_EACH_PLACE);
    let tally = both_lines(tally, FULL_GIVEN_UP, FEWEST_FULL_GIVEN_UP);
    [GIVEN_UP, BEFORE].into_iter().fold(tally, |tally, place| {
        tally
            .line(&in_crowd(place, true), FEWEST_OF_EACH_ANSWER)
            .line(&in_crowd(place, false), FEWEST_OF_EACH_ANSWER)
    })
}

fn lines_of_kinds(tally: Tally) -> Tally {
    let tally = kind_names().fold(tally, |tally, kind| {
        tally.line(&kind_name(kind), FEWEST_OF_EACH_KIND)
    });
    often_full().fold(tally, |tally, kind| {
        tally.line(&full_kind_name(kind), FEWEST_FULL_OF_EACH_KIND)
    })
}

const FREE_BETWEEN: &str = "refused 7, with free records between";
const MORE_FREE: &str = "more free records than used ones";
const MANY: &str = "200 records or more";
const ALL_USED: &str = "the longest table, none of it free";
const FULL_WITHIN: &str = "the longest table, not too many steps";
const FULL_PAST: &str = "the longest table, too many steps";

const AROUND_CHAINS: [usize; 3] = [
    FEWEST_FOR_CHAINS - 1,
    FEWEST_FOR_CHAINS,
    FEWEST_FOR_CHAINS + 1,
];

const PLAINLY: &str = "under 24 records";
const BY_CHAINS: &str = "24 or more, not too many steps";
const NEARLY_PAST: &str = "up to 128 steps before too many";
const LAST_STEP: &str = "just as many steps as may be";
const STEP_TOO_MANY: &str = "one step too many";
const JUST_PAST: &str = "up to 128 steps too many";

const GIVEN_UP: &str = "chains given up";
const GIVEN_UP_FREE: &str = "chains given up, some free";
const GIVEN_UP_NONE_FREE: &str = "chains given up, none free";
const FULL_GIVEN_UP: &str = "the longest table, given up";
const BOTH_AFTER: &str = "chains given up, and then two alike";
const AT_THE_POINT: &str = "refused 7 just at giving up";
const BEFORE: &str = "refused 7 before giving up";

/// No repeat, whatever the checks after that say.
const NOT_7: &str = "not refused 7";

const SWAP_TOO: &str = "Swap too";
const RUN_TOO: &str = "Run too";
const ENTRIES_TOO: [&str; 2] = [SWAP_TOO, RUN_TOO];

fn kind_name(kind: &str) -> String {
    format!("kind: {kind}")
}

/// Of a kind, and full, and with more steps than the chains are given.
fn full_kind_name(kind: &str) -> String {
    format!("full, more steps: {kind}")
}

fn just_so_many(records: usize) -> String {
    format!("{records} records")
}

fn in_crowd(place: &str, is_in_it: bool) -> String {
    format!(
        "{place}: {}",
        if is_in_it {
            "in a crowd"
        } else {
            "in another bucket"
        }
    )
}

fn with_repeat(what: &str, repeats: bool) -> String {
    format!(
        "{what}, {}",
        if repeats {
            "refused 7"
        } else {
            "not refused 7"
        }
    )
}

/// A tally with a line more for both: with a repeat, and with none.
fn both_lines(tally: Tally, what: &str, fewest: usize) -> Tally {
    tally
        .line(&with_repeat(what, true), fewest)
        .line(&with_repeat(what, false), fewest)
}

fn one(random: &mut Random, tally: &mut Tally) -> Result<(), String> {
    let sample = sample(random);
    let answer = hold_to_maker(&sample, &Question::Check, random)?;
    tally.call();
    tally.count(&name(answer));
    tally.count(&kind_name(sample.kind));
    count_records(&sample, tally);
    count_steps(&sample, tally);
    if random.once_in(OTHERS_ONCE_IN) {
        let level = random.below(sample.input.order.len()) as u32;
        hold_to_maker(&sample, &Question::Swap { level }, random)?;
        tally.count(&with_repeat(SWAP_TOO, sample.repeat.is_some()));
    }
    if random.once_in(OTHERS_ONCE_IN) {
        hold_to_maker(&sample, &random_run(&sample.input, random), random)?;
        tally.count(&with_repeat(RUN_TOO, sample.repeat.is_some()));
    }
    Ok(())
}

/// The model, the library and the maker of the table are at one.
fn hold_to_maker(
    sample: &Sample,
    question: &Question,
    random: &mut Random,
) -> Result<Answer, String> {
    let kind = sample.kind;
    let mut input = match question.has_log() {
        true => sample.input.clone().with_enough_log(),
        false => sample.input.clone(),
    };
    let answer = compared(&mut input, question, random)
        .map_err(|report| format!("kind {kind}\n{report}"))?;
    if sample.is_answered_by(answer) {
        return Ok(answer);
    }
    let place = sample.repeat.as_ref().map(|repeat| repeat.place);
    Err(format!(
        "kind {kind}\nmodel:    {answer:?}\nmade for: a repeat at {place:?}"
    ))
}

fn random_run(input: &Input, random: &mut Random) -> Question {
    let mut target = input.order.clone();
    random.shuffle(&mut target);
    Question::Run {
        target,
        plan: random.below(PLANS.len()) as u32,
        budget: random.between(0, MOST_SWAPS) as u32,
    }
}

fn count_records(sample: &Sample, tally: &mut Tally) {
    let store = sample.input.store();
    let (records, used) = (store.record_count(), store.used().count());
    tally.count_if(records >= MANY_RECORDS, MANY);
    tally.count_if(records - used > used, MORE_FREE);
    tally.count_if(used == MOST_RECORDS, ALL_USED);
    if AROUND_CHAINS.contains(&records) {
        tally.count(&with_repeat(
            &just_so_many(records),
            sample.repeat.is_some(),
        ));
    }
    match &sample.repeat {
        Some(repeat) => tally.count_if(has_free_between(&sample.input, repeat), FREE_BETWEEN),
        None => sizes::count(&sample.input, NOT_7, tally),
    }
}

/// Counts which way the library goes, and how near that is to another one.
fn count_steps(sample: &Sample, tally: &mut Tally) {
    let walks = walks(sample.input.store());
    count_near(walks.steps, tally);
    match walks.given_up {
        None => count_within(sample, tally),
        Some(point) => count_past(sample, point, tally),
    }
}

fn count_near(steps: usize, tally: &mut Tally) {
    let past = MOST_STEPS + 1;
    let is_nearly_past = (MOST_STEPS - NEAR..past).contains(&steps);
    let is_just_past = (past..=MOST_STEPS + NEAR).contains(&steps);
    tally.count_if(is_nearly_past, NEARLY_PAST);
    tally.count_if(steps == MOST_STEPS, LAST_STEP);
    tally.count_if(steps == past, STEP_TOO_MANY);
    tally.count_if(is_just_past, JUST_PAST);
}

fn count_within(sample: &Sample, tally: &mut Tally) {
    let records = sample.input.store().record_count();
    let is_small = records < FEWEST_FOR_CHAINS;
    let way = if is_small { PLAINLY } else { BY_CHAINS };
    tally.count(&with_repeat(way, sample.repeat.is_some()));
    tally.count_if(records == MOST_RECORDS, FULL_WITHIN);
}

/// Counts where a repeat stands in a table whose chains are given up at this
/// point, if no repeat ends the search before.
fn count_past(sample: &Sample, point: RecordNumber, tally: &mut Tally) {
    if sample.input.store().record_count() == MOST_RECORDS {
        let is_often_full = often_full().any(|kind| kind == sample.kind);
        tally.count(FULL_PAST);
        tally.count_if(is_often_full, &full_kind_name(sample.kind));
    }
    match &sample.repeat {
        None => count_given_up(sample, tally),
        Some(repeat) if repeat.place < point => {
            tally.count(BEFORE);
            tally.count(&in_crowd(BEFORE, is_in_crowd(sample, repeat)));
        }
        Some(repeat) if repeat.place == point => tally.count(AT_THE_POINT),
        Some(repeat) => {
            count_given_up(sample, tally);
            tally.count(&in_crowd(GIVEN_UP, is_in_crowd(sample, repeat)));
            tally.count_if(point < repeat.earlier, BOTH_AFTER);
        }
    }
}

fn count_given_up(sample: &Sample, tally: &mut Tally) {
    let store = sample.input.store();
    let repeats = sample.repeat.is_some();
    tally.count(GIVEN_UP);
    tally.count(&with_repeat(GIVEN_UP, repeats));
    let none_free = store.free().next().is_none();
    tally.count_if(none_free, GIVEN_UP_NONE_FREE);
    tally.count_if(!none_free, GIVEN_UP_FREE);
    let full = store.record_count() == MOST_RECORDS;
    tally.count_if(full, &with_repeat(FULL_GIVEN_UP, repeats));
}

/// Is the repeat in a bucket that gives the chains up by itself?
fn is_in_crowd(sample: &Sample, repeat: &Repeat) -> bool {
    let store = sample.input.store();
    let sizes = sizes(store.used().map(|(_, record)| record));
    sizes[bucket(store.record(repeat.place))] >= FEWEST_OF_A_CROWD
}

fn has_free_between(input: &Input, repeat: &Repeat) -> bool {
    let mut between = (repeat.earlier.0..repeat.place.0).map(RecordNumber);
    between.any(|number| input.store().is_free(number))
}
