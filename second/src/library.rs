//! The library, in a process of its own: `ask.c` puts each question to it and
//! tells the whole of what it answered and left.

use std::io::{self, BufReader, BufWriter, Read, Write};
use std::path::Path;
use std::process::{Child, ChildStdin, ChildStdout, Command, Stdio};
use std::sync::{Mutex, OnceLock};

use crate::input::Input;
use crate::lists::{Lengths, Lists, NUMBERS};
use crate::model::Question;

/// The one that everybody asks.
static LIBRARY: OnceLock<Mutex<Library>> = OnceLock::new();

struct Library {
    /// Ends where its standard input does.
    _process: Child,
    questions: BufWriter<ChildStdin>,
    answers: BufReader<ChildStdout>,
}

/// Starts the program that asks the library.
pub fn start(program: &Path) -> Result<(), String> {
    let mut process = Command::new(program)
        .stdin(Stdio::piped())
        .stdout(Stdio::piped())
        .spawn()
        .map_err(|error| format!("{} can't be run: {error}", program.display()))?;
    let (questions, answers) = (process.stdin.take(), process.stdout.take());
    let library = Library {
        questions: BufWriter::new(questions.expect("its standard input is a pipe")),
        answers: BufReader::new(answers.expect("its standard output is a pipe")),
        _process: process,
    };
    LIBRARY
        .set(Mutex::new(library))
        .map_err(|_| "the library is started once".to_string())
}

/// Asks the question with so much of the lists lent; how many numbers the
/// library wrote. Lists, input and question are what it left.
pub fn ask(
    input: &mut Input,
    question: &mut Question,
    lists: &mut Lists,
    lengths: Lengths,
) -> Result<usize, String> {
    let library = LIBRARY.get().ok_or("the library isn't started")?;
    let mut library = library.lock().expect("nobody else asks it");
    put(&mut library, 0, input, question, lists, lengths)
        .and_then(|()| taken(&mut library, input, question, lists))
        .map_err(|error| format!("the library doesn't answer: {error}"))
}

/// Added to the entry where the stores of a call are to be told.
const WATCHED: u32 = 256;

/// A byte that the library has changed, by which of its stores, and where in
/// table, order and log, one after the other.
#[derive(Clone, Copy, Debug)]
pub struct Change {
    pub store: u32,
    pub position: usize,
    pub byte: u8,
}

/// Asks the question with lists that are long enough; what the library changed,
/// in turn. The input is what it left.
pub fn watch(input: &mut Input, question: &Question) -> Result<Vec<Change>, String> {
    let library = LIBRARY.get().ok_or("the library isn't started")?;
    let mut library = library.lock().expect("nobody else asks it");
    let (mut question, mut lists) = (question.clone(), Lists::untouched());
    let lengths = Lengths {
        numbers: NUMBERS,
        counts: 0,
        shares: 0,
    };
    put(&mut library, WATCHED, input, &mut question, &lists, lengths)
        .and_then(|()| taken(&mut library, input, &mut question, &mut lists))
        .and_then(|_| changes(&mut library.answers))
        .map_err(|error| format!("the library doesn't answer: {error}"))
}

fn changes(answers: &mut impl Read) -> io::Result<Vec<Change>> {
    let count = u32::from_le_bytes(bytes(answers)?);
    let mut number = || bytes(answers).map(u32::from_le_bytes);
    let mut change = || -> io::Result<Change> {
        Ok(Change {
            store: number()?,
            position: number()? as usize,
            byte: number()? as u8,
        })
    };
    (0..count).map(|_| change()).collect()
}

/// The entry's place among the entries, the number that it is asked for, and the
/// budget.
fn asked(question: &Question) -> [u32; 3] {
    match question {
        Question::Check => [0, 0, 0],
        Question::Read { position, .. } => [1, *position, 0],
        Question::Show { position } => [2, *position, 0],
        Question::Swap { level } => [3, *level, 0],
        Question::Run { plan, budget, .. } => [4, *plan, *budget],
        Question::Count { position } => [5, *position, 0],
        Question::Label { variable, .. } => [6, *variable, 0],
        Question::Recover => [7, 0, 0],
    }
}

/// The five buffers of a question: those of the store, one more, and the log; or
/// both lists of labels, and nothing else.
fn buffers<'a>(input: &'a mut Input, question: &'a mut Question) -> [&'a mut [u8]; 5] {
    let log: &mut [u8] = match question.has_log() {
        true => &mut input.log,
        false => &mut [],
    };
    let more: &mut [u8] = match question {
        Question::Label { site, factory, .. } => {
            return [site, factory, &mut [], &mut [], &mut []];
        }
        Question::Read { inputs, .. } => inputs,
        Question::Run { target, .. } => target,
        Question::Check
        | Question::Show { .. }
        | Question::Swap { .. }
        | Question::Count { .. }
        | Question::Recover => &mut [],
    };
    let [table, roots, order] = [&mut input.table, &mut input.roots, &mut input.order];
    [table, roots, order, more, log]
}

fn put(
    library: &mut Library,
    watched: u32,
    input: &mut Input,
    question: &mut Question,
    lists: &Lists,
    lengths: Lengths,
) -> io::Result<()> {
    let [entry, number, budget] = asked(question);
    let buffers = buffers(input, question);
    let [first, second, third, fourth, log] = buffers.each_ref().map(|buffer| buffer.len() as u32);
    let [numbers, counts, shares] =
        [lengths.numbers, lengths.counts, lengths.shares].map(|length| length as u32);
    let head = [
        entry + watched,
        first,
        second,
        third,
        fourth,
        log,
        number,
        budget,
        numbers,
        counts,
        shares,
    ];
    for number in head.iter().chain(&lists.numbers) {
        library.questions.write_all(&number.to_le_bytes())?;
    }
    for place in lists.counts.iter().chain(&lists.shares) {
        library.questions.write_all(&place.to_le_bytes())?;
    }
    for buffer in buffers {
        library.questions.write_all(buffer)?;
    }
    library.questions.flush()
}

fn taken(
    library: &mut Library,
    input: &mut Input,
    question: &mut Question,
    lists: &mut Lists,
) -> io::Result<usize> {
    let answers = &mut library.answers;
    let written = u32::from_le_bytes(bytes(answers)?);
    for number in &mut lists.numbers {
        *number = u32::from_le_bytes(bytes(answers)?);
    }
    for place in lists.counts.iter_mut().chain(&mut lists.shares) {
        *place = u64::from_le_bytes(bytes(answers)?);
    }
    for buffer in buffers(input, question) {
        answers.read_exact(buffer)?;
    }
    Ok(written as usize)
}

fn bytes<const COUNT: usize>(answers: &mut impl Read) -> io::Result<[u8; COUNT]> {
    let mut bytes = [0; COUNT];
    answers.read_exact(&mut bytes)?;
    Ok(bytes)
}
