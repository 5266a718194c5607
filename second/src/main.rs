//! The second program: the relay's rules read once more, independently of the
//! library, and both compared on cases made by hand and at random.
//!
//! `layout`, `log`, `refusals`, `log_refusals`, `value`, `count`, `share`,
//! `swap`, `commit`, `recover`, `steps`, `plans`, `slice`, `labels`, `model` and
//! `printed` are the reading of the rules, and `kept` and `log_kept` hold that
//! reading to what it must keep. `library` is the other side, in a process of
//! its own, `hold` and `compare` ask both, and `counts_kept` holds the library to
//! what it must keep. The cases made by hand are in `edges`, `sheet`,
//! `log_sheet`, `recover_sheet`, `wide_sheet`, `depths`, `label_edges`, `texts`
//! and `label_texts`; the rest makes random ones.

mod bucket;
mod by_hand;
mod chains;
mod commit;
mod compare;
mod count;
mod counts_kept;
mod damage;
mod depths;
mod diagram;
mod edges;
mod generate;
mod hold;
mod input;
mod kept;
mod label_edges;
mod label_lists;
mod label_texts;
mod labels;
mod layout;
mod library;
mod lists;
mod log;
mod log_faults;
mod log_kept;
mod log_refusals;
mod log_sheet;
mod logs;
mod model;
mod plans;
mod possible;
mod printed;
mod random;
mod recover;
mod recover_sheet;
mod refusals;
mod repeats;
mod sample;
mod seats;
mod share;
mod sheet;
mod slice;
mod steps;
mod swap;
mod tally;
mod texts;
mod value;
mod wide;
mod wide_sheet;
mod wild;

use std::env;
use std::path::Path;
use std::process::ExitCode;

use crate::model::Question;
use crate::tally::Tally;

const USAGE: &str = "\
usage: compare library ASK [check | read | show | swap | run | count | repeats | label | recover | cuts | stores] [number of random questions]
       compare program TRIP [number of random runs]
ASK: the program of ask.c, linked with the library; without a word after it: all eleven.";

/// A comparison that a word asks for.
struct Part {
    word: &'static str,
    /// Which cases by hand are its own; none where they are those of others.
    is_asked_by: Option<fn(&Question) -> bool>,
    questions: u64,
    compare: fn(u64) -> Result<Tally, String>,
}

const PARTS: [Part; 11] = [
    Part {
        word: "check",
        is_asked_by: Some(|question| matches!(question, Question::Check)),
        questions: compare::check::QUESTIONS,
        compare: compare::check::compare,
    },
    Part {
        word: "read",
        is_asked_by: Some(|question| matches!(question, Question::Read { .. })),
        questions: compare::read::QUESTIONS,
        compare: compare::read::compare,
    },
    Part {
        word: "show",
        is_asked_by: Some(|question| matches!(question, Question::Show { .. })),
        questions: compare::show::QUESTIONS,
        compare: compare::show::compare,
    },
    Part {
        word: "swap",
        is_asked_by: Some(|question| matches!(question, Question::Swap { .. })),
        questions: compare::swap::QUESTIONS,
        compare: compare::swap::compare,
    },
    Part {
        word: "run",
        is_asked_by: Some(|question| matches!(question, Question::Run { .. })),
        questions: compare::run::QUESTIONS,
        compare: compare::run::compare,
    },
    Part {
        word: "count",
        is_asked_by: Some(|question| matches!(question, Question::Count { .. })),
        questions: compare::count::QUESTIONS,
        compare: compare::count::compare,
    },
    Part {
        word: "repeats",
        is_asked_by: None,
        questions: compare::repeats::QUESTIONS,
        compare: compare::repeats::compare,
    },
    Part {
        word: "label",
        is_asked_by: Some(|question| matches!(question, Question::Label { .. })),
        questions: compare::label::QUESTIONS,
        compare: compare::label::compare,
    },
    Part {
        word: "recover",
        is_asked_by: Some(|question| matches!(question, Question::Recover)),
        questions: compare::recover::QUESTIONS,
        compare: compare::recover::compare,
    },
    Part {
        word: "cuts",
        is_asked_by: None,
        questions: compare::cuts::QUESTIONS,
        compare: compare::cuts::compare,
    },
    Part {
        word: "stores",
        is_asked_by: None,
        questions: compare::stores::QUESTIONS,
        compare: compare::stores::compare,
    },
];

fn main() -> ExitCode {
    let arguments: Vec<String> = env::args_os()
        .skip(1)
        .map(|argument| argument.to_string_lossy().into_owned())
        .collect();
    let wanted = match wanted(&arguments) {
        Ok(wanted) => wanted,
        Err(message) => {
            eprintln!("compare: {message}\n{USAGE}");
            return ExitCode::from(2);
        }
    };
    match run(wanted) {
        Ok(()) => ExitCode::SUCCESS,
        Err(report) => {
            eprintln!("compare: {report}");
            ExitCode::FAILURE
        }
    }
}

/// What the arguments ask for; the number of random questions is none where
/// each part's own shall do.
enum Wanted<'a> {
    Library(&'a Path, &'static [Part], Option<u64>),
    Program(&'a Path, Option<u64>),
}

fn wanted(arguments: &[String]) -> Result<Wanted<'_>, String> {
    let [side, path, rest @ ..] = arguments else {
        return Err("which side, and where is its program?".to_string());
    };
    let path = Path::new(path);
    match side.as_str() {
        "library" => {
            let (parts, rest) = parts(rest);
            Ok(Wanted::Library(path, parts, number(rest)?))
        }
        "program" => Ok(Wanted::Program(path, number(rest)?)),
        _ => Err(format!("'{side}' is no side")),
    }
}

/// The part that the first word asks for, or all of them; and the other words.
fn parts(arguments: &[String]) -> (&'static [Part], &[String]) {
    let word = arguments.first();
    match PARTS
        .iter()
        .position(|part| Some(part.word) == word.map(String::as_str))
    {
        Some(place) => (&PARTS[place..=place], &arguments[1..]),
        None => (&PARTS, arguments),
    }
}

fn number(arguments: &[String]) -> Result<Option<u64>, String> {
    match arguments {
        [] => Ok(None),
        [number] => match number.parse::<u32>() {
            Ok(number) => Ok(Some(u64::from(number))),
            Err(_) => Err(format!("'{number}' is no word and no number")),
        },
        _ => Err("too many arguments".to_string()),
    }
}

fn run(wanted: Wanted) -> Result<(), String> {
    match wanted {
        Wanted::Library(path, parts, number) => {
            library::start(path)?;
            for part in parts {
                if let Some(is_asked_by) = part.is_asked_by {
                    let cases = by_hand::hold_library_to_cases(is_asked_by)?;
                    println!("{} by hand: {cases}, the answers of the rules", part.word);
                }
                told((part.compare)(number.unwrap_or(part.questions))?)?;
            }
            Ok(())
        }
        Wanted::Program(path, number) => {
            let cases = compare::program::hold_program_to_cases(path)?;
            println!("program by hand: {cases}, the text of the rules");
            let number = number.unwrap_or(compare::program::QUESTIONS);
            told(compare::program::compare(path, number)?)
        }
    }
}

fn told(tally: Tally) -> Result<(), String> {
    print!("{tally}");
    tally.enough()
}
