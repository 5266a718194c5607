//! Swap, on tables with few, some and many free records, and damaged ones,
//! with good and bad levels, and with good and bad logs of all lengths.

use super::{
    compared, counts_kept_lines, hold_to_counts_kept, name, past, random_questions, sizes,
    with_log, KeptCounts, FEWEST_OF_EACH_ANSWER,
};
use crate::commit::entries;
use crate::generate::{accepted, big, busy, with_free};
use crate::input::Input;
use crate::kept::{no_room_keeps, swap_keeps};
use crate::layout::{Reference, MOST_RECORDS, MOST_ROOTS};
use crate::log::{Log, MOST_LOG_RECORDS};
use crate::log_kept::{log_keeps, short_keeps};
use crate::logs::{cleared, random_log};
use crate::model::{answer, Answer, Question};
use crate::random::Random;
use crate::sample::sample;
use crate::swap::{swap, Lack, Swap};
use crate::tally::Tally;
use crate::wide::{wide, Wide};

pub const QUESTIONS: u64 = 36_000;
const FIRST_SEED: u64 = 20_500_000;
const FEWEST: usize = 1_000;
const FEWEST_FULL_TAKEN: usize = 20;
const FEWEST_LARGEST: usize = 50;
const WIDE_ONCE_IN: usize = 200;
const KEPT: KeptCounts = KeptCounts {
    once_in: 16,
    fewest: 1_000,
};

pub fn compare(count: u64) -> Result<Tally, String> {
    let tally = Tally::new("random swaps", 20_000)
        .line("made", FEWEST)
        .line("made with crossing records", FEWEST)
        .line("made with new records", FEWEST)
        .line("made with dying records", FEWEST)
        .line(A_DYING_TAKEN, FEWEST)
        .line(NONE_FREE, FEWEST_OF_EACH_ANSWER)
        .line(SOME_TAKEN, FEWEST_OF_EACH_ANSWER)
        .line(JUST_THE_FREE, FEWEST_OF_EACH_ANSWER)
        .line(JUST_ONE_DYING, FEWEST_OF_EACH_ANSWER)
        .line(ALL_TAKEN, FEWEST_OF_EACH_ANSWER)
        .line("no room", FEWEST)
        .line("no room for a single record", FEWEST_OF_EACH_ANSWER)
        .line("no room, some free and some dying", FEWEST_OF_EACH_ANSWER)
        .line(&full_taken(), FEWEST_FULL_TAKEN)
        .refusals(&[1, 2, 4, 5, 6, 7, 8, 9, 12], FEWEST_OF_EACH_ANSWER);
    let tally = sizes::lines(tally, "not refused", FEWEST_LARGEST);
    let tally = with_log::lines(tally)
        .line(JUST_ENOUGH_LOG, FEWEST)
        .line(MORE_LOG, FEWEST);
    let tally = counts_kept_lines(tally, &KEPT, &["made", "no room", "log short", "refused"]);
    random_questions(tally, FIRST_SEED, count, one)
}

const A_DYING_TAKEN: &str = "made with a dying record taken";
const NONE_FREE: &str = "made with dying records only";
const SOME_TAKEN: &str = "made with some dying taken, some freed";
const JUST_THE_FREE: &str = "made with all free taken, no dying one";
const JUST_ONE_DYING: &str = "made with all free taken, one dying of some";
const ALL_TAKEN: &str = "made with all free and all dying taken";
const JUST_ENOUGH_LOG: &str = "made with just as much log as it needs";
const MORE_LOG: &str = "made with more log than it needs";

fn full_taken() -> String {
    sizes::with_most_records("a dying record taken")
}

fn one(random: &mut Random, tally: &mut Tally) -> Result<(), String> {
    let (before, level) = if random.once_in(WIDE_ONCE_IN) {
        wide_swap(random)
    } else {
        any_swap(random)
    };
    let question = Question::Swap { level };
    let mut after = before.clone();
    let answer = compared(&mut after, &question, random)?;
    tally.call();
    tally.count(&name(answer));
    with_log::count(&before, &question, answer, &after, tally);
    hold_to_counts_kept(&KEPT, &before, &after, answer, random, tally)?;
    if let Answer::Refused(_) = answer {
        return Ok(());
    }
    sizes::count(&before, "not refused", tally);
    match (swap(&before, level as usize), answer) {
        (Err(lack), _) => {
            count_no_room(&before, lack, tally);
            no_room_keeps(&before, lack, random)
        }
        (Ok(_), Answer::LogShort(short)) => short_keeps(&before, short),
        (Ok(made), _) => {
            count_made(&before, &made, tally);
            let log = Log(&after.log);
            let just_enough = log.count() == log.held();
            tally.count(if just_enough {
                JUST_ENOUGH_LOG
            } else {
                MORE_LOG
            });
            log_keeps(&before, &after)?;
            swap_keeps(&before, &made, random)
        }
    }
}

/// A swap for which the longest log is just enough, or too short.
fn wide_swap(random: &mut Random) -> (Input, u32) {
    let Wide { input, level } = wide(random);
    let log = cleared(&input, MOST_LOG_RECORDS, random);
    (input.with_log(log), level as u32)
}

fn any_swap(random: &mut Random) -> (Input, u32) {
    let input = match random.below(100) {
        0..=59 => busy(random),
        60..=74 => accepted(random).0,
        75..=77 => big(random),
        _ => sample(random).input,
    };
    let level = random_level(input.order.len(), random);
    let input = if random.coin() {
        tightened(input, level, random)
    } else {
        input
    };
    let log = random_log(&input, &needs(&input, level), random);
    (input.with_log(log), level)
}

/// How many entries the swap needs; none where it is refused or has no room.
fn needs(input: &Input, level: u32) -> Vec<usize> {
    let is_refused = is_refused(input, level);
    let made = (!is_refused).then(|| swap(input, level as usize).ok());
    let needed = |made: Swap| entries(input, &made.after, level as usize).len();
    made.flatten().map(needed).into_iter().collect()
}

/// Is it refused with any log?
fn is_refused(input: &Input, level: u32) -> bool {
    let mut with_log = input.clone().with_enough_log();
    let answer = answer(&mut with_log, &Question::Swap { level });
    matches!(answer, Answer::Refused(_))
}

fn count_made(before: &Input, made: &Swap, tally: &mut Tally) {
    let free = before.free_numbers().len();
    let full = before.store().record_count() == MOST_RECORDS;
    let dies = made.dying > 0;
    let takes_dying = made.taken > 0;
    tally.count_if(made.crossing > 0, "made with crossing records");
    tally.count_if(made.needed > 0, "made with new records");
    tally.count_if(dies, "made with dying records");
    tally.count_if(takes_dying, A_DYING_TAKEN);
    tally.count_if(takes_dying && free == 0, NONE_FREE);
    tally.count_if(takes_dying && made.freed > 0, SOME_TAKEN);
    tally.count_if(dies && free > 0 && made.needed == free, JUST_THE_FREE);
    tally.count_if(
        free > 0 && made.taken == 1 && made.freed > 0,
        JUST_ONE_DYING,
    );
    tally.count_if(takes_dying && free > 0 && made.freed == 0, ALL_TAKEN);
    tally.count_if(takes_dying && full, &full_taken());
}

fn count_no_room(before: &Input, lack: Lack, tally: &mut Tally) {
    let Asked { needed, dying } = asked(before, lack.level);
    let for_one = needed == lack.free + dying + 1;
    tally.count_if(for_one, "no room for a single record");
    let some = lack.free > 0 && dying > 0;
    tally.count_if(some, "no room, some free and some dying");
}

/// Mostly the upper level of a pair; otherwise n-1, n or more.
fn random_level(n: usize, random: &mut Random) -> u32 {
    if n >= 2 && !random.once_in(12) {
        random.below(n - 1) as u32
    } else {
        past(n.saturating_sub(1), random)
    }
}

/// The input with just as many free records as the swap needs, or as it needs
/// besides the dying ones, or a number between these; or one fewer, or one more.
/// One that is refused, or would be too long, stays as it is.
fn tightened(input: Input, level: u32, random: &mut Random) -> Input {
    if is_refused(&input, level) {
        return input;
    }
    let input = if random.coin() {
        with_lower_named(input, level, random)
    } else {
        input
    };
    let Asked { needed, dying } = asked(&input, level as usize);
    let fewest = needed.saturating_sub(dying);
    let near = match random.below(5) {
        0 => needed,
        1..=3 => fewest,
        _ => random.between(fewest, needed),
    };
    let one_fewer = near.saturating_sub(1);
    let free = [one_fewer, one_fewer, near, near, near + 1][random.below(5)];
    if input.used_numbers().len() + free > MOST_RECORDS {
        return input;
    }
    with_free(&input, free, random)
}

/// Some records of the lower level have a root more, so that they don't die: as
/// many as there is room for at most.
fn with_lower_named(mut input: Input, level: u32, random: &mut Random) -> Input {
    let mut lower = input.used_numbers();
    lower.retain(|&number| input.level_of(number) == Some(level as usize + 1));
    let mut roots = input.root_list();
    random.shuffle(&mut lower);
    lower.truncate(random.between(0, MOST_ROOTS - roots.len()));
    roots.extend(lower.into_iter().map(Reference::to));
    input.set_roots(&roots);
    input
}

/// What a swap that isn't refused asks of its table.
struct Asked {
    needed: usize,
    dying: usize,
}

/// Found where there is room in any case: a used record needs two at most.
fn asked(input: &Input, level: usize) -> Asked {
    let more = 2 * input.used_numbers().len();
    let Ok(made) = swap(&input.with_more_free(more), level) else {
        panic!("no swap needs more than {more} records");
    };
    Asked {
        needed: made.needed,
        dying: made.dying,
    }
}
