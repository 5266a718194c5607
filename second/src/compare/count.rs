//! Count, on accepted and damaged tables, through as many levels as can be
//! counted and through more, with good and bad positions.

use super::{compared, name, random_position, random_questions, sizes, FEWEST_OF_EACH_ANSWER};
use crate::generate::{accepted, big, deep};
use crate::input::Input;
use crate::layout::{Reference, MOST_COUNTED, MOST_RECORDS, MOST_VARIABLES};
use crate::model::{Answer, Question};
use crate::random::Random;
use crate::refusals::Refusal;
use crate::sample::sample;
use crate::tally::Tally;

pub const QUESTIONS: u64 = 24_000;
const FIRST_SEED: u64 = 20_800_000;
const FEWEST: usize = 1_000;
const FEWEST_LARGEST: usize = 15;
/// A single-precision number would hold so many binary digits.
const DIGITS_OF_A_SINGLE: u32 = 24;

pub fn compare(count: u64) -> Result<Tally, String> {
    let tally = Tally::new("random counts, with the bits of the share", 20_000)
        .line("counted", FEWEST)
        .line("counted with n = 1", FEWEST_OF_EACH_ANSWER)
        .line(&counted_with(MOST_COUNTED), FEWEST)
        .line(&longest_counted(), FEWEST_OF_EACH_ANSWER)
        .line("none of the combinations", FEWEST_OF_EACH_ANSWER)
        .line("all of the combinations", FEWEST_OF_EACH_ANSWER)
        .line("a share of more than 24 binary digits", FEWEST)
        .line("a root on the top level", FEWEST)
        .line("a root on a level between", FEWEST)
        .line("a root on the lowest level", FEWEST_OF_EACH_ANSWER)
        .line(A_DIGIT_FOR_EACH, FEWEST_OF_EACH_ANSWER)
        .refusals(&[1, 2, 4, 5, 6, 7, 8, 9, 10], FEWEST_OF_EACH_ANSWER)
        .line("no such root, just past them", FEWEST_OF_EACH_ANSWER)
        .line("no such root, and none at all", FEWEST_OF_EACH_ANSWER)
        .refusals(&[16], FEWEST)
        .line(&too_many(MOST_COUNTED + 1), FEWEST_OF_EACH_ANSWER)
        .line(&too_many(MOST_VARIABLES), FEWEST_OF_EACH_ANSWER)
        .line(TOO_MANY_AND_NO_ROOT, FEWEST_OF_EACH_ANSWER)
        .line(TOO_MANY_BESIDES, FEWEST);
    let tally = sizes::lines(tally, TOO_MANY, FEWEST_LARGEST);
    random_questions(tally, FIRST_SEED, count, one)
}

const A_DIGIT_FOR_EACH: &str = "a share of as many digits as can be";
const TOO_MANY: &str = "refused 16";
const TOO_MANY_AND_NO_ROOT: &str = "refused 16, with no such root besides";
const TOO_MANY_BESIDES: &str = "refused 2 to 9, with 16 besides";

fn counted_with(n: usize) -> String {
    format!("counted with n = {n}")
}

fn longest_counted() -> String {
    sizes::with_most_records("counted")
}

fn too_many(n: usize) -> String {
    format!("{TOO_MANY}, just n = {n}")
}

fn one(random: &mut Random, tally: &mut Tally) -> Result<(), String> {
    let mut input = match random.below(100) {
        0..=69 => sample(random).input,
        70..=79 => accepted(random).0,
        80..=95 => deep(random),
        _ => big(random),
    };
    let position = random_position(&input, random);
    let answer = compared(&mut input, &Question::Count { position }, random)?;
    tally.call();
    tally.count(&name(answer));
    match answer {
        Answer::Counted { count, .. } => {
            count_counted(&input, count, tally);
            count_root(&input, input.root_at(position), tally);
        }
        Answer::Refused(refusal) => count_refused(&input, position, refusal, tally),
        _ => {}
    }
    Ok(())
}

fn count_refused(input: &Input, position: u32, refusal: Refusal, tally: &mut Tally) {
    let n = input.order.len();
    let roots = input.root_list().len();
    match refusal.number {
        10 => {
            tally.count_if(refusal.place == roots, "no such root, just past them");
            tally.count_if(roots == 0, "no such root, and none at all");
        }
        16 => {
            let is_named = [MOST_COUNTED + 1, MOST_VARIABLES].contains(&n);
            tally.count_if(is_named, &too_many(n));
            tally.count_if(position as usize >= roots, TOO_MANY_AND_NO_ROOT);
            sizes::count(input, TOO_MANY, tally);
        }
        number => tally.count_if(number > 1 && n > MOST_COUNTED, TOO_MANY_BESIDES),
    }
}

fn count_counted(input: &Input, count: u64, tally: &mut Tally) {
    let n = input.order.len();
    tally.count_if(n == 1, "counted with n = 1");
    tally.count_if(n == MOST_COUNTED, &counted_with(MOST_COUNTED));
    let full = input.store().record_count() == MOST_RECORDS;
    tally.count_if(full, &longest_counted());
    tally.count_if(count == 0, "none of the combinations");
    tally.count_if(count == 1 << n, "all of the combinations");
    tally.count_if(
        digits(count) > DIGITS_OF_A_SINGLE,
        "a share of more than 24 binary digits",
    );
    tally.count_if(digits(count) == MOST_COUNTED as u32, A_DIGIT_FOR_EACH);
}

/// From the first binary 1 of a count to its last.
fn digits(count: u64) -> u32 {
    u64::BITS.saturating_sub(count.leading_zeros() + count.trailing_zeros())
}

fn count_root(input: &Input, root: Reference, tally: &mut Tally) {
    let level = root.record().and_then(|number| input.level_of(number));
    match level {
        None => {}
        Some(0) => tally.count("a root on the top level"),
        Some(level) if level + 1 == input.order.len() => tally.count("a root on the lowest level"),
        Some(_) => tally.count("a root on a level between"),
    }
}
