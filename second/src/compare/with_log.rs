//! What Swap and Run have in common about their log, counted.

use super::FEWEST_OF_EACH_ANSWER;
use crate::input::Input;
use crate::log::{Log, MOST_LOG_RECORDS};
use crate::model::{answer, Answer, Question};
use crate::refusals::Refusal;
use crate::tally::Tally;

const FEWEST: usize = 1_000;
const FEWEST_FULL: usize = 5;

/// A tally with the lines for the log more.
pub fn lines(tally: Tally) -> Tally {
    let tally = tally
        .refusals(&[14, 15], FEWEST)
        .line(AT_LENGTH, FEWEST_OF_EACH_ANSWER)
        .line(AT_SEAL, FEWEST_OF_EACH_ANSWER)
        .line(AT_ENTRY, FEWEST_OF_EACH_ANSWER)
        .line(BESIDES_1, FEWEST_OF_EACH_ANSWER)
        .line("log short", FEWEST)
        .line("log short by one entry", FEWEST_OF_EACH_ANSWER)
        .line("log short, a seal alone", FEWEST_OF_EACH_ANSWER)
        .line("no room, a seal alone", FEWEST_OF_EACH_ANSWER)
        .line(GARBAGE, FEWEST)
        .line(LONGEST, FEWEST_OF_EACH_ANSWER)
        .line(LONGEST_FULL, FEWEST_FULL)
        .line(LONGEST_SHORT, FEWEST_OF_EACH_ANSWER)
        .line(LONGEST_SHORT_BY_ONE, FEWEST_FULL);
    [14, 15].into_iter().fold(tally, |tally, number| {
        tally.line(&besides(number), FEWEST_OF_EACH_ANSWER)
    })
}

const AT_LENGTH: &str = "refused 14 at the length";
const AT_SEAL: &str = "refused 14 at the seal";
const AT_ENTRY: &str = "refused 14 at an entry";
const BESIDES_1: &str = "refused 1, with a log that is refused besides";
const GARBAGE: &str = "a swap logged over something else";
const LONGEST: &str = "a swap logged in the longest log";
const LONGEST_FULL: &str = "a swap logged that fills the longest log";
const LONGEST_SHORT: &str = "log short, the longest log";
const LONGEST_SHORT_BY_ONE: &str = "log short by one entry, the longest log";

/// What a good log would have been answered.
fn besides(number: u32) -> String {
    format!("refused {number}, with another refusal besides")
}

pub fn count(
    before: &Input,
    question: &Question,
    answered: Answer,
    after: &Input,
    tally: &mut Tally,
) {
    match answered {
        Answer::Refused(refusal) => count_refused(before, question, refusal, tally),
        Answer::NoRoom(_) | Answer::Stuck { .. } => {
            tally.count_if(is_seal_alone(before), "no room, a seal alone");
        }
        Answer::LogShort(short) | Answer::OutOfLog { short, .. } => {
            tally.count_if(is_seal_alone(before), "log short, a seal alone");
            let by_one = short.needed == short.held + 1;
            tally.count_if(by_one, "log short by one entry");
            tally.count_if(is_longest(before), LONGEST_SHORT);
            tally.count_if(by_one && is_longest(before), LONGEST_SHORT_BY_ONE);
        }
        _ => {}
    }
    if is_logged(answered) {
        let is_garbage = before.log.iter().any(|&byte| byte != 0);
        tally.count_if(is_garbage, GARBAGE);
        tally.count_if(is_longest(before), LONGEST);
        let log = Log(&after.log);
        let is_full = log.count() == log.held();
        tally.count_if(is_full && is_longest(before), LONGEST_FULL);
    }
}

fn is_longest(before: &Input) -> bool {
    Log(&before.log).held() + 1 == MOST_LOG_RECORDS
}

fn is_seal_alone(before: &Input) -> bool {
    Log(&before.log).held() == 0
}

fn count_refused(before: &Input, question: &Question, refusal: Refusal, tally: &mut Tally) {
    let log = Log(&before.log);
    let number = refusal.number;
    if number == 1 {
        let is_refused = !log.has_good_length() || log.seal()[0] != 0;
        tally.count_if(is_refused, BESIDES_1);
    }
    if number == 14 {
        tally.count(match log.has_good_length() {
            false => AT_LENGTH,
            true if refusal.place == log.held() => AT_SEAL,
            true => AT_ENTRY,
        });
    }
    if number == 14 || number == 15 {
        tally.count_if(is_refused_besides(before, question), &besides(number));
    }
}

fn is_refused_besides(before: &Input, question: &Question) -> bool {
    let mut with_good_log = before.clone().with_enough_log();
    matches!(answer(&mut with_good_log, question), Answer::Refused(_))
}

/// Has a swap been made?
fn is_logged(answered: Answer) -> bool {
    match answered {
        Answer::Made => true,
        Answer::Done { swaps, .. }
        | Answer::Paused { swaps, .. }
        | Answer::Stuck { swaps, .. }
        | Answer::OutOfLog { swaps, .. } => swaps > 0,
        _ => false,
    }
}
