//! The library held to an expected answer, number by number and byte by byte.

use crate::input::Input;
use crate::labels::List;
use crate::layout::{RECORD_BYTES, ROOT_BYTES};
use crate::library;
use crate::lists::{Lengths, Lists};
use crate::log::LOG_RECORD_BYTES;
use crate::model::{Answer, Question};

/// What a call must answer, and the buffers as it must leave them.
#[derive(Clone)]
pub struct Expected {
    pub answer: Answer,
    pub after: Input,
}

/// The answer's numbers, as the library writes them.
fn numbers(answer: Answer) -> Vec<u32> {
    let number = |count: usize| count as u32;
    match answer {
        Answer::Refused(refusal) => vec![refusal.number, number(refusal.place)],
        Answer::Accepted { used } => vec![0, number(used)],
        Answer::Value(value) => vec![0, u32::from(value)],
        Answer::Counted { .. } => vec![0],
        Answer::Part { offset, length } => vec![number(offset), number(length)],
        Answer::Made => vec![0],
        Answer::NoRoom(lack) => vec![
            100,
            number(lack.level),
            number(lack.needed),
            number(lack.free),
        ],
        Answer::LogShort(short) => vec![
            102,
            number(short.level),
            number(short.needed),
            number(short.held),
        ],
        Answer::Done { swaps, left } => vec![0, swaps, number(left)],
        Answer::Paused { swaps, left } => vec![101, swaps, number(left)],
        Answer::Stuck { swaps, left, lack } => vec![
            100,
            swaps,
            number(left),
            number(lack.level),
            number(lack.needed),
            number(lack.free),
        ],
        Answer::OutOfLog { swaps, left, short } => vec![
            102,
            swaps,
            number(left),
            number(short.level),
            number(short.needed),
            number(short.held),
        ],
        Answer::Label(None) => vec![0, 0, 0],
        Answer::Label(Some(label)) => {
            let list = match label.list {
                List::Site => 1,
                List::Factory => 2,
            };
            vec![list, number(label.offset), number(label.length)]
        }
        Answer::PutBack { entries } => vec![0, number(entries)],
    }
}

/// How many numbers an answer has, and the lists with it written to them.
fn written(answer: Answer) -> (usize, Lists) {
    let mut lists = Lists::untouched();
    let numbers = numbers(answer);
    lists.numbers[..numbers.len()].copy_from_slice(&numbers);
    if let Answer::Counted { count, share } = answer {
        lists.counts[0] = count;
        lists.shares[0] = share;
    }
    (numbers.len(), lists)
}

/// Asks the library with so much of the lists lent. It must write the answer
/// and leave the buffers as expected, or, where a list is too short, write
/// nothing and change nothing; otherwise this is the report of what it did.
pub fn hold_library_to(
    expected: &Expected,
    input: &Input,
    question: &Question,
    lengths: Lengths,
) -> Result<(), String> {
    let mut lent = input.clone();
    let mut lent_question = question.clone();
    let mut lists = Lists::untouched();
    let count = library::ask(&mut lent, &mut lent_question, &mut lists, lengths)?;

    let answered = lengths.suffice(question);
    let (expected_count, expected_lists) = if answered {
        written(expected.answer)
    } else {
        (0, Lists::untouched())
    };
    if count != expected_count || lists != expected_lists {
        return Err(format!(
            "lent were {lengths:?} (-: left as it was)\n\
             library:  {count} written, {}\n\
             expected: {expected_count} written, {}, for {:?}\n\
             {question:?}\n{}",
            lists.text(),
            expected_lists.text(),
            expected.answer,
            hex(input)
        ));
    }
    let expected_after = if answered { &expected.after } else { input };
    if lent != *expected_after || lent_question != *question {
        return Err(format!(
            "the answer {:?} is right, but not the buffers\n\
             library, after {lent_question:?}:\n{}\n\
             expected, after {question:?}:\n{}\n\
             before:\n{}",
            expected.answer,
            hex(&lent),
            hex(expected_after),
            hex(input)
        ));
    }
    Ok(())
}

/// The buffers, a group of digits for each record, root, variable and record of
/// the log.
pub fn hex(input: &Input) -> String {
    format!(
        "table ({} bytes):{}\nroots ({} bytes):{}\norder ({} bytes):{}\nlog ({} bytes):{}",
        input.table.len(),
        groups(&input.table, RECORD_BYTES),
        input.roots.len(),
        groups(&input.roots, ROOT_BYTES),
        input.order.len(),
        groups(&input.order, 1),
        input.log.len(),
        groups(&input.log, LOG_RECORD_BYTES)
    )
}

pub fn groups(bytes: &[u8], size: usize) -> String {
    let mut text = String::new();
    for group in bytes.chunks(size) {
        text.push(' ');
        for byte in group {
            text.push_str(&format!("{byte:02x}"));
        }
    }
    text
}
