//! The comparisons, each with random questions from fixed seeds.

pub mod check;
pub mod count;
pub mod cuts;
mod job;
pub mod label;
pub mod program;
mod program_labels;
pub mod read;
pub mod recover;
pub mod repeats;
pub mod run;
pub mod show;
mod sizes;
pub mod stores;
pub mod swap;
mod with_log;

use crate::counts_kept::counts_kept;
use crate::hold::{hold_library_to, Expected};
use crate::input::Input;
use crate::labels::{Label, List};
use crate::layout::MOST_COUNTED;
use crate::lists::Lengths;
use crate::model::{answer, Answer, Question};
use crate::random::Random;
use crate::tally::Tally;

/// Every answer that an operation can give must be met this often.
const FEWEST_OF_EACH_ANSWER: usize = 100;

/// So many random questions, from seeds rising by one; the first difference
/// ends it.
fn random_questions(
    mut tally: Tally,
    first_seed: u64,
    count: u64,
    compare: impl Fn(&mut Random, &mut Tally) -> Result<(), String>,
) -> Result<Tally, String> {
    for seed in first_seed..first_seed + count {
        compare(&mut Random::from_seed(seed), &mut tally)
            .map_err(|report| format!("seed {seed}\n{report}"))?;
    }
    Ok(tally)
}

/// The model's answer, with the library held to it; the input becomes what it
/// is afterwards. Now and then the library is asked with a list too short
/// first, and must leave it at that.
fn compared(input: &mut Input, question: &Question, random: &mut Random) -> Result<Answer, String> {
    let before = input.clone();
    let answer = answer(input, question);
    let expected = Expected {
        answer,
        after: input.clone(),
    };
    if random.once_in(4) {
        let too_short = Lengths::too_short(question, random);
        hold_library_to(&expected, &before, question, too_short)?;
    }
    let enough = Lengths::enough(question, random);
    hold_library_to(&expected, &before, question, enough)?;
    Ok(answer)
}

/// The name of an answer in a tally.
fn name(answer: Answer) -> String {
    match answer {
        Answer::Refused(refusal) => format!("refused {}", refusal.number),
        Answer::Accepted { .. } => "accepted".to_string(),
        Answer::Value(value) => format!("value {value}"),
        Answer::Counted { .. } => "counted".to_string(),
        Answer::Part { length: 0, .. } => "empty".to_string(),
        Answer::Part { .. } => "not empty".to_string(),
        Answer::Made => "made".to_string(),
        Answer::NoRoom(_) | Answer::Stuck { .. } => "no room".to_string(),
        Answer::LogShort(_) | Answer::OutOfLog { .. } => "log short".to_string(),
        Answer::PutBack { .. } => "put back".to_string(),
        Answer::Done { .. } => "done".to_string(),
        Answer::Paused { .. } => "paused".to_string(),
        Answer::Label(None) => "no label".to_string(),
        Answer::Label(Some(Label { list, .. })) => match list {
            List::Site => "a label of the site".to_string(),
            List::Factory => "a label of the factory".to_string(),
        },
    }
}

/// Once in how many swaps or runs the roots are counted before and after, and to
/// how many that must come.
struct KeptCounts {
    once_in: usize,
    fewest: usize,
}

/// Once in how many of those that are refused, where nothing has changed.
const REFUSED_COUNTED_ONCE_IN: usize = 20;
/// Each call goes over all records: where these are more than so many for all
/// roots together, it would take too long.
const MOST_RECORDS_COUNTED: usize = 1 << 17;

/// A tally with lines more for the counts that swaps or runs with each of these
/// answers kept.
fn counts_kept_lines(tally: Tally, kept: &KeptCounts, answers: &[&str]) -> Tally {
    let tally = tally
        .line("every root's count kept", kept.fewest)
        .line("roots counted before and after", kept.fewest);
    answers.iter().fold(tally, |tally, answer| {
        tally.line(&counts_kept_after(answer), FEWEST_OF_EACH_ANSWER)
    })
}

fn counts_kept_after(answer: &str) -> String {
    format!("every root's count kept, {answer}")
}

/// Now and then the library is held to keep every root's count, whatever a swap
/// or run was answered, where there are not too many inputs to count.
fn hold_to_counts_kept(
    kept: &KeptCounts,
    before: &Input,
    after: &Input,
    answer: Answer,
    random: &mut Random,
    tally: &mut Tally,
) -> Result<(), String> {
    let (once_in, answer) = match answer {
        Answer::Refused(_) => (REFUSED_COUNTED_ONCE_IN, "refused".to_string()),
        other => (kept.once_in, name(other)),
    };
    if !random.once_in(once_in) || takes_too_long(before) || before.order.len() > MOST_COUNTED {
        return Ok(());
    }
    for _ in 0..counts_kept(before, after)? {
        tally.count("roots counted before and after");
    }
    tally.count("every root's count kept");
    tally.count(&counts_kept_after(&answer));
    Ok(())
}

fn takes_too_long(input: &Input) -> bool {
    input.store().record_count() * input.root_list().len() > MOST_RECORDS_COUNTED
}

/// A position of these roots, or one past them, near and far.
fn random_position(input: &Input, random: &mut Random) -> u32 {
    let roots = input.root_list().len();
    if roots > 0 && !random.once_in(8) {
        return random.below(roots) as u32;
    }
    past(roots, random)
}

/// This number, or one above it: near, far, or seeming small to a reader of
/// its last bits alone.
fn past(first: usize, random: &mut Random) -> u32 {
    let first = first as u32;
    match random.below(6) {
        0 | 1 => first,
        2 => first + random.below(10) as u32,
        3 => 1 << random.between(10, 31),
        4 => (random.below(3) as u32) + (1 << random.between(10, 31)),
        _ => u32::MAX,
    }
}
