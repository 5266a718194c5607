//! Recover, on whole and torn tables, with logs that are cleared, sealed, and
//! bad in one way or two.

use super::{compared, name, random_questions, sizes, FEWEST_OF_EACH_ANSWER};
use crate::commit::logged_swap;
use crate::generate::{accepted, busy};
use crate::input::Input;
use crate::layout::{MOST_RECORDS, MOST_VARIABLES, RECORD_BYTES};
use crate::log::{Log, Subject, LOG_RECORD_BYTES, MOST_LOG_RECORDS, SEALED};
use crate::log_faults::{any_fault, two_faults, Fault, Part, FAULTS};
use crate::logs::{cleared, counted_entries, random_log_records, sealed};
use crate::model::{Answer, Question};
use crate::random::Random;
use crate::recover::clear_seal;
use crate::refusals::Refusal;
use crate::steps::{in_turn, swap_parts};
use crate::tally::Tally;
use crate::wide::{wide, Wide};

pub const QUESTIONS: u64 = 24_000;
const FIRST_SEED: u64 = 21_100_000;
const FEWEST: usize = 1_000;
const FEWEST_LARGEST: usize = 10;
/// Of the cut swaps, and of the good logs.
const WIDE_ONCE_IN: usize = 200;
const LONGEST_ONCE_IN: usize = 60;

pub fn compare(count: u64) -> Result<Tally, String> {
    let tally = Tally::new("random recoveries", 20_000)
        .line("put back", FEWEST)
        .line(CUT_BEFORE_SEAL, FEWEST)
        .line(CUT_SEALED, FEWEST)
        .line(NOTHING_SEALED, FEWEST)
        .line(NO_ENTRY, FEWEST_OF_EACH_ANSWER)
        .line(ALL_HELD, FEWEST_OF_EACH_ANSWER)
        .line(LONGEST_FULL, FEWEST_LARGEST)
        .line(CUT_WIDE, FEWEST_LARGEST)
        .line(GARBAGE_BEHIND, FEWEST_OF_EACH_ANSWER)
        .line(ONE_NUMBER, FEWEST_OF_EACH_ANSWER)
        .line(OVERLAPPING, FEWEST_OF_EACH_ANSWER)
        .line(NO_ORDER, FEWEST_OF_EACH_ANSWER)
        .line(LAST_RECORD, FEWEST_OF_EACH_ANSWER)
        .line(LAST_PAIR, FEWEST_OF_EACH_ANSWER)
        .refusals(&[1, 14], FEWEST_OF_EACH_ANSWER)
        .line(BOTH, FEWEST_OF_EACH_ANSWER)
        .line(FAULT_CLEARED, FEWEST_OF_EACH_ANSWER);
    let tally = sizes::lines(tally, PUT_BACK_SOME, FEWEST_LARGEST);
    let tally = FAULTS.iter().fold(tally, |tally, fault| {
        tally.line(&alone(fault), FEWEST_OF_EACH_ANSWER)
    });
    let tally = WINS.iter().fold(tally, |tally, &[winner, loser]| {
        tally.line(&goes_first(winner, loser), FEWEST_OF_EACH_ANSWER)
    });
    random_questions(tally, FIRST_SEED, count, one)
}

const CUT_BEFORE_SEAL: &str = "a swap cut while it is logged";
const CUT_SEALED: &str = "a swap cut while it is sealed";
const NOTHING_SEALED: &str = "nothing put back, not sealed";
const NO_ENTRY: &str = "nothing put back, sealed";
const PUT_BACK_SOME: &str = "put back some";
const ALL_HELD: &str = "put back as many as the log holds";
const LONGEST_FULL: &str = "put back as many as the longest log holds";
const CUT_WIDE: &str = "a sealed swap cut that fills the longest log";
const GARBAGE_BEHIND: &str = "put back, with garbage behind";
const ONE_NUMBER: &str = "put back a record and a pair of one number";
const OVERLAPPING: &str = "put back pairs with a level in common";
const NO_ORDER: &str = "put back, and the order is none";
const LAST_RECORD: &str = "put back the last record";
const LAST_PAIR: &str = "put back the lowest pair";
const BOTH: &str = "refused 1, with 14 besides";
const FAULT_CLEARED: &str = "put back nothing, a fault beneath";

/// The pairs of parts of which one can go before the other.
const WINS: [[Part; 2]; 4] = [
    [Part::Length, Part::Seal],
    [Part::Length, Part::Entry],
    [Part::Seal, Part::Entry],
    [Part::Entry, Part::Entry],
];

/// A fault that is the only one.
fn alone(fault: &Fault) -> String {
    format!("14: {}", fault.name)
}

fn goes_first(winner: Part, loser: Part) -> String {
    if winner == loser {
        return "14: the lower of two entries".to_string();
    }
    format!("14: {winner:?} before {loser:?}")
}

fn one(random: &mut Random, tally: &mut Tally) -> Result<(), String> {
    match random.below(100) {
        0..=19 => cut_swap(random, tally),
        20..=36 => good_log(random, tally),
        37..=43 => log_with_cleared_seal(random, tally),
        44..=68 => one_fault(random, tally),
        69..=86 => both_faults(random, tally),
        87..=93 => wrong_sizes(random, tally),
        _ => any_bytes(random, tally),
    }
}

/// Counts the answer, which the maker of the input may know already.
fn recovered(
    mut input: Input,
    known: Option<Answer>,
    random: &mut Random,
    tally: &mut Tally,
) -> Result<(Answer, Input), String> {
    let answer = compared(&mut input, &Question::Recover, random)?;
    if known.is_some_and(|known| known != answer) {
        return Err(format!("model:    {answer:?}\nmade for: {known:?}"));
    }
    tally.call();
    tally.count(&name(answer));
    Ok((answer, input))
}

/// What is torn is whole again: it is held to the table and order before, not
/// to the model alone.
fn cut_swap(random: &mut Random, tally: &mut Tally) -> Result<(), String> {
    let (before, level, after) = made_swap(random);
    let parts = swap_parts(&before, &after, level);
    let first_under_seal = parts[0].len() + 1;
    let steps = in_turn(parts, random);
    let last = steps.len() - 1;
    let cut = match random.coin() {
        true => random.between(first_under_seal, last),
        false => random.between(0, last),
    };
    let mut state = before.clone();
    for step in &steps[..cut] {
        step.make(&mut state);
    }
    let is_sealed = Log(&state.log).is_sealed();
    tally.count(if is_sealed {
        CUT_SEALED
    } else {
        CUT_BEFORE_SEAL
    });
    let fills_longest = Log(&after.log).count() + 1 == MOST_LOG_RECORDS;
    tally.count_if(is_sealed && fills_longest, CUT_WIDE);
    let (_, whole) = recovered(state, None, random, tally)?;
    if whole.store() == before.store() {
        Ok(())
    } else {
        Err("a cut swap is recovered to something else than before".to_string())
    }
}

/// The input before a swap, its level, and the input after it; now and then one
/// that fills the longest log.
fn made_swap(random: &mut Random) -> (Input, usize, Input) {
    let is_wide = random.once_in(WIDE_ONCE_IN);
    loop {
        let (input, level, records) = if is_wide {
            let Wide { input, level } = wide(random);
            (input, level, MOST_LOG_RECORDS)
        } else {
            let input = busy(random);
            let level = random.below(input.order.len() - 1);
            (input, level, random.between(2, 60))
        };
        let log = cleared(&input, records, random);
        let before = input.with_log(log);
        let Ok(after) = logged_swap(&before, level) else {
            continue;
        };
        let log = Log(&after.log);
        if !is_wide || log.count() == log.held() {
            return (before, level, after);
        }
    }
}

/// A table and an order of good lengths, whole or not: recovery doesn't look at
/// them.
fn any_store(random: &mut Random) -> Input {
    if random.once_in(3) {
        return accepted(random).0;
    }
    let records = match random.below(60) {
        0..=9 => 0,
        10..=49 => random.between(1, 12),
        50..=58 => random.between(200, 600),
        _ => MOST_RECORDS,
    };
    let n = match random.below(6) {
        0 => 1,
        1..=4 => random.between(2, 9),
        _ => MOST_VARIABLES,
    };
    Input {
        table: random.bytes(records * RECORD_BYTES),
        order: random.bytes(n),
        ..Input::default()
    }
}

/// A store with a good log that is sealed; now and then as much of both as there
/// may be.
fn sealed_store(random: &mut Random) -> Input {
    if random.once_in(LONGEST_ONCE_IN) {
        let store = Input {
            table: random.bytes(MOST_RECORDS * RECORD_BYTES),
            order: random.bytes(MOST_VARIABLES),
            ..Input::default()
        };
        let log = sealed(&store, MOST_LOG_RECORDS, random);
        return store.with_log(log);
    }
    let store = any_store(random);
    let records = random_log_records(random);
    let log = sealed(&store, records, random);
    store.with_log(log)
}

fn good_log(random: &mut Random, tally: &mut Tally) -> Result<(), String> {
    let before = sealed_store(random);
    let entries = Log(&before.log).count();
    let known = Answer::PutBack { entries };
    let (_, after) = recovered(before, Some(known), random, tally)?;
    count_put_back(&after, tally);
    Ok(())
}

/// The input after a recovery, with the entries still there.
fn count_put_back(after: &Input, tally: &mut Tally) {
    let log = Log(&after.log);
    let behind = &after.log[log.count() * LOG_RECORD_BYTES..log.held() * LOG_RECORD_BYTES];
    let n = after.order.len();
    let is_order = after.order.iter().all(|&byte| usize::from(byte) < n);
    if log.count() == 0 {
        tally.count(NO_ENTRY);
        return;
    }
    tally.count_if(log.count() == log.held(), ALL_HELD);
    let fills_longest = log.count() + 1 == MOST_LOG_RECORDS;
    tally.count_if(fills_longest, LONGEST_FULL);
    sizes::count(after, PUT_BACK_SOME, tally);
    tally.count_if(behind.iter().any(|&byte| byte != 0), GARBAGE_BEHIND);
    tally.count_if(!is_order, NO_ORDER);
    count_subjects(after, tally);
}

/// What the entries were about.
fn count_subjects(after: &Input, tally: &mut Tally) {
    let entries = counted_entries(&after.log);
    let subjects: Vec<Subject> = entries.iter().map(|entry| entry.subject).collect();
    let has = |subject| subjects.contains(&subject);
    let has_pair = |level| has(Subject::Pair(level));
    let mut numbers = after.store().record_numbers();
    let one_number = numbers.any(|number| has(Subject::Record(number)) && has_pair(number.0));
    let pairs = after.order.len() - 1;
    let overlapping = (1..pairs).any(|level| has_pair(level - 1) && has_pair(level));
    let last = after.store().record_numbers().last();
    let has_last = last.is_some_and(|last| has(Subject::Record(last)));
    tally.count_if(one_number, ONE_NUMBER);
    tally.count_if(overlapping, OVERLAPPING);
    tally.count_if(has_last, LAST_RECORD);
    tally.count_if(pairs > 0 && has_pair(pairs - 1), LAST_PAIR);
}

fn log_with_cleared_seal(random: &mut Random, tally: &mut Tally) -> Result<(), String> {
    let before = if random.coin() {
        let store = any_store(random);
        let records = random_log_records(random);
        let log = cleared(&store, records, random);
        store.with_log(log)
    } else {
        tally.count(FAULT_CLEARED);
        fault_beneath(random)
    };
    let unchanged = before.clone();
    let known = Answer::PutBack { entries: 0 };
    let (_, after) = recovered(before, Some(known), random, tally)?;
    tally.count(NOTHING_SEALED);
    if after == unchanged {
        Ok(())
    } else {
        Err("a log that isn't sealed is recovered from".to_string())
    }
}

/// A log that would be refused, were its seal not cleared; its length is good.
fn fault_beneath(random: &mut Random) -> Input {
    loop {
        let mut bad = sealed_store(random);
        let (fault, _) = any_fault(&mut bad, random);
        if fault.part != Part::Length {
            clear_seal(&mut bad.log);
            return bad;
        }
    }
}

fn refused_14(place: usize) -> Option<Answer> {
    let number = 14;
    Some(Answer::Refused(Refusal { number, place }))
}

fn one_fault(random: &mut Random, tally: &mut Tally) -> Result<(), String> {
    let mut input = sealed_store(random);
    let (fault, place) = any_fault(&mut input, random);
    recovered(input, refused_14(place), random, tally)
        .map_err(|report| format!("fault: {}\n{report}", fault.name))?;
    tally.count(&alone(fault));
    Ok(())
}

/// The maker knows which of them is found: that of the part that is looked at
/// first, or the lower place.
fn both_faults(random: &mut Random, tally: &mut Tally) -> Result<(), String> {
    let mut input = sealed_store(random);
    let mut faults = two_faults(&mut input, random);
    faults.sort_by_key(|&(fault, place)| (fault.part, place));
    let [(first, place), (second, other)] = faults;
    recovered(input, refused_14(place), random, tally)
        .map_err(|report| format!("faults: {}, {}\n{report}", first.name, second.name))?;
    let pair = [first.part, second.part];
    let differ = first.part != second.part || place != other;
    tally.count_if(
        differ && WINS.contains(&pair),
        &goes_first(pair[0], pair[1]),
    );
    Ok(())
}

/// Of the table or of the order, whatever the log is.
fn wrong_sizes(random: &mut Random, tally: &mut Tally) -> Result<(), String> {
    let mut input = sealed_store(random);
    let is_bad = random.coin();
    if is_bad {
        any_fault(&mut input, random);
    }
    match random.below(5) {
        0 => input.order.clear(),
        1 => input.order = random.bytes(MOST_VARIABLES + 1),
        2 => input.order = vec![0; random.between(MOST_VARIABLES + 2, 300)],
        3 => input
            .table
            .extend(vec![0; random.between(1, RECORD_BYTES - 1)]),
        _ => input
            .table
            .resize((MOST_RECORDS + random.between(1, 9)) * RECORD_BYTES, 0),
    }
    let refusal = Refusal {
        number: 1,
        place: 0,
    };
    recovered(input, Some(Answer::Refused(refusal)), random, tally)?;
    tally.count_if(is_bad, BOTH);
    Ok(())
}

/// Bytes that were no log's, mostly of a good length and now and then with a
/// seal.
fn any_bytes(random: &mut Random, tally: &mut Tally) -> Result<(), String> {
    let mut store = any_store(random);
    let records = random_log_records(random).min(40);
    let more = usize::from(random.once_in(8));
    store.log = random.bytes(records * LOG_RECORD_BYTES + more);
    let place_of_seal = (records - 1) * LOG_RECORD_BYTES;
    if random.coin() {
        store.log[place_of_seal] = SEALED;
    }
    if random.coin() {
        store.log[place_of_seal + 1..][..LOG_RECORD_BYTES - 1].fill(0);
        store.log[place_of_seal + 2] = random.below(records) as u8;
    }
    recovered(store, None, random, tally)?;
    Ok(())
}
