//! Read, on accepted and damaged tables, with good and bad positions and
//! inputs.

use super::{compared, name, random_position, random_questions, sizes, FEWEST_OF_EACH_ANSWER};
use crate::model::{Answer, Question};
use crate::random::Random;
use crate::sample::sample;
use crate::tally::Tally;

pub const QUESTIONS: u64 = 24_000;
const FIRST_SEED: u64 = 20_300_000;
const FEWEST_LARGEST: usize = 15;

pub fn compare(count: u64) -> Result<Tally, String> {
    let tally = Tally::new("random reads", 20_000)
        .line("value 0", FEWEST_OF_EACH_ANSWER)
        .line("value 1", FEWEST_OF_EACH_ANSWER)
        .refusals(&[1, 2, 4, 5, 6, 7, 8, 9, 10, 11], FEWEST_OF_EACH_ANSWER);
    let tally = sizes::lines(tally, "a value", FEWEST_LARGEST);
    random_questions(tally, FIRST_SEED, count, one)
}

fn one(random: &mut Random, tally: &mut Tally) -> Result<(), String> {
    let mut input = sample(random).input;
    let question = Question::Read {
        position: random_position(&input, random),
        inputs: random_inputs(input.order.len(), random),
    };
    let answer = compared(&mut input, &question, random)?;
    tally.call();
    tally.count(&name(answer));
    if let Answer::Value(_) = answer {
        sizes::count(&input, "a value", tally);
    }
    Ok(())
}

/// Mostly n bytes of 0 and 1; now and then another number of them, or one of
/// them another byte.
fn random_inputs(n: usize, random: &mut Random) -> Vec<u8> {
    let mut inputs: Vec<u8> = (0..n).map(|_| random.below(2) as u8).collect();
    match random.below(16) {
        0 => {
            inputs.pop();
        }
        1 => inputs.push(random.below(2) as u8),
        2 => inputs = vec![1; random.below(70)],
        3 if n > 0 => {
            let bad = random.pick(&[2, 3, 128, 254, 255]);
            inputs[random.below(n)] = bad.expect("there are some");
        }
        _ => {}
    }
    inputs
}
