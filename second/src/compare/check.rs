//! Check, on accepted and damaged tables.

use super::{compared, name, random_questions, sizes, FEWEST_OF_EACH_ANSWER};
use crate::layout::MOST_RECORDS;
use crate::model::{Answer, Question};
use crate::random::Random;
use crate::sample::{all_kinds, sample, Sample};
use crate::tally::Tally;

pub const QUESTIONS: u64 = 30_000;
const FIRST_SEED: u64 = 20_260_000;
const FEWEST_LARGEST: usize = 15;

pub fn compare(count: u64) -> Result<Tally, String> {
    let tally = Tally::new("random checks", 20_000)
        .line("accepted", FEWEST_OF_EACH_ANSWER)
        .refusals(&[1, 2, 4, 5, 6, 7, 8, 9], FEWEST_OF_EACH_ANSWER)
        .line("accepted with no used record", FEWEST_OF_EACH_ANSWER)
        .line(&all_used(), FEWEST_LARGEST)
        .line("two damages at once", FEWEST_OF_EACH_ANSWER);
    let tally = sizes::lines(tally, "accepted", FEWEST_LARGEST);
    let tally = all_kinds()
        .into_iter()
        .fold(tally, |tally, kind| tally.line(&kind_name(kind), 1));
    random_questions(tally, FIRST_SEED, count, one)
}

fn all_used() -> String {
    sizes::with_most_records("accepted, none free")
}

/// A damage's name, with the refusal that it aims at.
fn kind_name((aim, name): (Option<u32>, &str)) -> String {
    match aim {
        None => format!("kind: {name}"),
        Some(number) => format!("kind for {number}: {name}"),
    }
}

/// The model, the library and, where it knows, the maker of the input are at
/// one.
fn one(random: &mut Random, tally: &mut Tally) -> Result<(), String> {
    let Sample {
        mut input,
        kinds,
        known,
    } = sample(random);
    let answer = compared(&mut input, &Question::Check, random)
        .map_err(|report| format!("kinds {kinds:?}\n{report}"))?;
    if known.is_some_and(|known| known != answer) {
        return Err(format!(
            "kinds {kinds:?}\nmodel:    {answer:?}\nmade for: {known:?}"
        ));
    }

    tally.call();
    tally.count(&name(answer));
    if let Answer::Accepted { used } = answer {
        tally.count_if(used == 0, "accepted with no used record");
        tally.count_if(used == MOST_RECORDS, &all_used());
        sizes::count(&input, "accepted", tally);
    }
    tally.count_if(kinds.len() > 1, "two damages at once");
    for kind in all_kinds() {
        for _ in kinds.iter().filter(|&&name| name == kind.1) {
            tally.count(&kind_name(kind));
        }
    }
    Ok(())
}
