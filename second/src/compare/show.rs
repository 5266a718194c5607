//! Show, on accepted and damaged tables, with good and bad positions.

use super::{compared, name, random_position, random_questions, sizes, FEWEST_OF_EACH_ANSWER};
use crate::input::Input;
use crate::model::{answer, Answer, Question};
use crate::random::Random;
use crate::sample::sample;
use crate::tally::Tally;

pub const QUESTIONS: u64 = 24_000;
const FIRST_SEED: u64 = 20_400_000;
const FEWEST_LARGEST: usize = 15;

pub fn compare(count: u64) -> Result<Tally, String> {
    let tally = Tally::new("random parts shown", 20_000)
        .line("not empty", FEWEST_OF_EACH_ANSWER)
        .line("empty", FEWEST_OF_EACH_ANSWER)
        .line("empty for a constant root", FEWEST_OF_EACH_ANSWER)
        .line("empty for no such root", FEWEST_OF_EACH_ANSWER);
    let tally = sizes::lines(tally, "not empty", FEWEST_LARGEST);
    let tally = [1, 2, 4, 5, 6, 7, 8, 9]
        .into_iter()
        .fold(tally, |tally, number| {
            tally.line(&refused_table(number), FEWEST_OF_EACH_ANSWER)
        });
    random_questions(tally, FIRST_SEED, count, one)
}

fn one(random: &mut Random, tally: &mut Tally) -> Result<(), String> {
    let mut input = sample(random).input;
    let position = random_position(&input, random);
    let answer = compared(&mut input, &Question::Show { position }, random)?;
    tally.call();
    tally.count(&name(answer));
    if let Answer::Part { length: 0, .. } = answer {
        tally.count(&reason(&mut input, position));
    } else {
        sizes::count(&input, "not empty", tally);
    }
    Ok(())
}

/// Why the part is empty: what Check refuses, or else the root is missing or a
/// constant.
fn reason(input: &mut Input, position: u32) -> String {
    match answer(input, &Question::Check) {
        Answer::Refused(refusal) => refused_table(refusal.number),
        _ if position as usize >= input.root_list().len() => "empty for no such root".to_string(),
        _ => "empty for a constant root".to_string(),
    }
}

fn refused_table(number: u32) -> String {
    format!("empty for a table refused by {number}")
}
