//! Cases made by hand: what they are made of, and the library held to them.

use crate::hold::{hold_library_to, Expected};
use crate::input::Input;
use crate::lists::Lengths;
use crate::model::{answer, Answer, Question};
use crate::{depths, edges, label_edges, log_sheet, recover_sheet, sheet, wide_sheet};

/// A question, and the answer and the buffers afterwards as the rules say.
#[derive(Clone)]
pub struct Case {
    pub name: &'static str,
    pub input: Input,
    pub question: Question,
    pub expected: Expected,
}

impl Case {
    /// A case that leaves every buffer as it was.
    pub fn unchanged(name: &'static str, input: Input, question: Question, answer: Answer) -> Case {
        let after = input.clone();
        Case::changed(name, input, question, answer, after)
    }

    pub fn changed(
        name: &'static str,
        input: Input,
        question: Question,
        answer: Answer,
        after: Input,
    ) -> Case {
        Case {
            name,
            input,
            question,
            expected: Expected { answer, after },
        }
    }

    /// A swap or a run of buffers without a log: with one that is long enough,
    /// and with what that must be afterwards.
    pub fn logged(
        name: &'static str,
        input: Input,
        question: Question,
        answer: Answer,
        after: Input,
    ) -> Case {
        let input = input.with_enough_log();
        let log = match swaps(answer) {
            0 => input.log.clone(),
            1 => log_of_one_swap(&input, &after),
            _ => log_of_some_swaps(&input, &question),
        };
        Case::changed(name, input, question, answer, after.with_log(log))
    }
}

fn swaps(answer: Answer) -> u32 {
    match answer {
        Answer::Made => 1,
        Answer::Done { swaps, .. }
        | Answer::Paused { swaps, .. }
        | Answer::Stuck { swaps, .. }
        | Answer::OutOfLog { swaps, .. } => swaps,
        _ => 0,
    }
}

/// Written into an empty log, from the buffers before and after it, which are
/// made by hand.
fn log_of_one_swap(before: &Input, after: &Input) -> Vec<u8> {
    let (old, new) = (before.table.chunks(8), after.table.chunks(8));
    let mut entries = Vec::new();
    for (number, (old, new)) in old.zip(new).enumerate() {
        if old != new {
            let (low, high) = ((number % 256) as u8, (number / 256) as u8);
            entries.push([&[0, 0, low, high], old, &[0; 4]].concat());
        }
    }
    let mut levels = before.order.iter().zip(&after.order);
    let level = levels.position(|(old, new)| old != new);
    let level = level.expect("a swap exchanges two levels");
    let [x, y] = [before.order[level], before.order[level + 1]];
    entries.push([&[0, 1, level as u8, 0, x, y][..], &[0; 10]].concat());

    let (low, high) = ((entries.len() % 256) as u8, (entries.len() / 256) as u8);
    let mut log = before.log.clone();
    let place_of_seal = log.len() - 16;
    log[..16 * entries.len()].copy_from_slice(&entries.concat());
    log[place_of_seal + 2] = low;
    log[place_of_seal + 3] = high;
    log
}

/// Of several swaps the log shows the last, which no case writes out: here, and
/// of the log alone, the model is asked.
fn log_of_some_swaps(before: &Input, question: &Question) -> Vec<u8> {
    let mut after = before.clone();
    answer(&mut after, question);
    after.log
}

pub fn cases() -> Vec<Case> {
    [
        edges::cases(),
        sheet::cases(),
        log_sheet::cases(),
        recover_sheet::cases(),
        wide_sheet::cases(),
        depths::cases(),
        label_edges::cases(),
    ]
    .concat()
}

/// Holds the library to every case whose question is wanted, each asked with
/// answer lists of all lengths; how many there are, or the first report.
pub fn hold_library_to_cases(wanted: fn(&Question) -> bool) -> Result<usize, String> {
    let mut cases = cases();
    cases.retain(|case| wanted(&case.question));
    for case in &cases {
        for lengths in Lengths::all(&case.question) {
            hold_library_to(&case.expected, &case.input, &case.question, lengths)
                .map_err(|report| format!("made by hand: {}\n{report}", case.name))?;
        }
    }
    Ok(cases.len())
}

pub type Bytes = [u8; 8];

pub const FREE: Bytes = [255, 0, 0, 0, 0, 0, 0, 0];
/// Record 0 of case A, written out: 1 (0,1).
pub const A_0: Bytes = [1, 0, 0, 0, 1, 0, 0, 0];
/// Record 1 of case A, written out: 0 (0,2).
pub const A_1: Bytes = [0, 0, 0, 0, 2, 0, 0, 0];

/// variable (low, high)
pub fn used(variable: u8, low: u16, high: u16) -> Bytes {
    let (low_0, low_1) = ((low % 256) as u8, (low / 256) as u8);
    let (high_0, high_1) = ((high % 256) as u8, (high / 256) as u8);
    [variable, 0, low_0, low_1, high_0, high_1, 0, 0]
}

/// The record with one byte exchanged for another.
pub fn with(mut record: Bytes, position: usize, byte: u8) -> Bytes {
    record[position] = byte;
    record
}

/// A record of a list of labels: the variable, and its text with the zeros that
/// are missing of 15 bytes.
pub fn label_record(variable: u8, text: &[u8]) -> Vec<u8> {
    let padding = vec![0; 15 - text.len()];
    [&[variable], text, &padding].concat()
}

pub fn input(table: &[Bytes], roots: &[u16], order: &[u8]) -> Input {
    Input {
        table: table.concat(),
        roots: roots
            .iter()
            .flat_map(|root| [(root % 256) as u8, (root / 256) as u8])
            .collect(),
        order: order.to_vec(),
        ..Input::default()
    }
}

/// A chain that leads through six variables in the order 2 1 0 5 4 3, with a
/// root to each record: a swap of any two neighbours needs one record more,
/// none is free, and what a root names doesn't die. On the way to 0 1 2 3 4 5
/// each plan swaps another pair first.
pub fn chain() -> Input {
    chain_of([2, 1, 0, 5, 4, 3], &[2, 3, 4, 5, 6, 7])
}

/// A chain through six variables in this order, record i at level i, in a full
/// table. A swap of levels k and k + 1 needs one record. Where only record k
/// names record k + 1, that one dies, and its place is taken: then the chain
/// stands as it stood, in the new order.
pub fn chain_of(order: [u8; 6], roots: &[u16]) -> Input {
    let records = [
        used(order[0], 0, 3),
        used(order[1], 0, 4),
        used(order[2], 0, 5),
        used(order[3], 0, 6),
        used(order[4], 0, 7),
        used(order[5], 0, 1),
    ];
    input(&records, roots, &order)
}

#[cfg(test)]
mod tests {
    use super::{answer, cases};

    #[test]
    fn the_model_gives_the_answers_made_by_hand() {
        for mut case in cases() {
            let answer = answer(&mut case.input, &case.question);
            assert_eq!(answer, case.expected.answer, "{}", case.name);
            assert_eq!(case.input, case.expected.after, "{}", case.name);
        }
    }
}
