//! What may be asked: the eight operations, and the answers to them.

use crate::commit::{logged_swap, Obstacle, Short};
use crate::count;
use crate::input::Input;
use crate::labels::{label, Label};
use crate::layout::RECORD_BYTES;
use crate::plans;
use crate::recover::recover;
use crate::refusals::{first_refusal, first_refusal_of_recovery, Arguments, Refusal};
use crate::share::share_bits;
use crate::slice::slice;
use crate::swap::Lack;
use crate::value::value;

/// What is asked of a table, its roots and order; a label is asked for without
/// them. Swap, Run and Recover have the log besides, and Recover no roots.
#[derive(Clone, Debug, PartialEq, Eq)]
pub enum Question {
    Check,
    Read {
        position: u32,
        inputs: Vec<u8>,
    },
    Show {
        position: u32,
    },
    Swap {
        level: u32,
    },
    /// The plan is any number, also one that no plan has.
    Run {
        target: Vec<u8>,
        plan: u32,
        budget: u32,
    },
    Count {
        position: u32,
    },
    /// The variable is any number, also one that no byte can name.
    Label {
        site: Vec<u8>,
        factory: Vec<u8>,
        variable: u32,
    },
    Recover,
}

impl Question {
    pub fn has_log(&self) -> bool {
        matches!(
            self,
            Question::Swap { .. } | Question::Run { .. } | Question::Recover
        )
    }
}

#[derive(Clone, Copy, Debug, PartialEq, Eq)]
pub enum Answer {
    /// Any operation but Show and Label.
    Refused(Refusal),
    /// Check, with the number of used records.
    Accepted {
        used: usize,
    },
    /// Read: 0 or 1.
    Value(u8),
    /// Show: where in the table the part begins, and its length; two zeros
    /// where it is empty.
    Part {
        offset: usize,
        length: usize,
    },
    /// Swap.
    Made,
    NoRoom(Lack),
    LogShort(Short),
    /// Run.
    Done {
        swaps: u32,
        left: usize,
    },
    Paused {
        swaps: u32,
        left: usize,
    },
    Stuck {
        swaps: u32,
        left: usize,
        lack: Lack,
    },
    OutOfLog {
        swaps: u32,
        left: usize,
        short: Short,
    },
    /// Count: the share is the bits of a double.
    Counted {
        count: u64,
        share: u64,
    },
    /// Label: none where the part is empty.
    Label(Option<Label>),
    /// Recover, with the number of entries.
    PutBack {
        entries: usize,
    },
}

const EMPTY_PART: Answer = Answer::Part {
    offset: 0,
    length: 0,
};

/// The answer; the input becomes what it is afterwards. Where it is a refusal,
/// that is what it was before.
pub fn answer(input: &mut Input, question: &Question) -> Answer {
    let refusal = refusal(input, question);
    match (question, refusal) {
        // Show has no number to tell: its part is empty instead.
        (Question::Show { .. }, Some(_)) => EMPTY_PART,
        (_, Some(refusal)) => Answer::Refused(refusal),
        (Question::Check, None) => check(input),
        (Question::Read { position, inputs }, None) => read(input, *position, inputs),
        (Question::Show { position }, None) => show(input, *position),
        (Question::Swap { level }, None) => swap_once(input, *level),
        (
            Question::Run {
                target,
                plan,
                budget,
            },
            None,
        ) => run(input, target, *plan, *budget),
        (Question::Count { position }, None) => count_root(input, *position),
        (
            Question::Label {
                site,
                factory,
                variable,
            },
            None,
        ) => Answer::Label(label(site, factory, *variable)),
        (Question::Recover, None) => Answer::PutBack {
            entries: recover(input),
        },
    }
}

/// Label makes no check, Recover only those that it needs itself.
fn refusal(input: &Input, question: &Question) -> Option<Refusal> {
    match question {
        Question::Label { .. } => None,
        Question::Recover => first_refusal_of_recovery(input.store(), &input.log),
        _ => first_refusal(input.store(), arguments(input, question)),
    }
}

/// The arguments that each operation has got beside table, roots and order.
fn arguments<'a>(input: &'a Input, question: &'a Question) -> Arguments<'a> {
    let none = Arguments {
        log: question.has_log().then_some(&input.log),
        ..Arguments::default()
    };
    match question {
        Question::Check | Question::Label { .. } | Question::Recover => none,
        Question::Read { position, inputs } => Arguments {
            position: Some(*position),
            inputs: Some(inputs),
            ..none
        },
        Question::Show { position } => Arguments {
            position: Some(*position),
            ..none
        },
        Question::Count { position } => Arguments {
            counts: true,
            position: Some(*position),
            ..none
        },
        Question::Swap { level } => Arguments {
            level: Some(*level),
            ..none
        },
        Question::Run { target, plan, .. } => Arguments {
            target: Some(target),
            plan: Some(*plan),
            ..none
        },
    }
}

fn check(input: &Input) -> Answer {
    let used = input.store().used().count();
    Answer::Accepted { used }
}

fn read(input: &Input, position: u32, inputs: &[u8]) -> Answer {
    let root = input.root_at(position);
    Answer::Value(value(input.store(), root, inputs))
}

/// The part is empty for a constant root too; a refused table and a missing
/// root have been dealt with.
fn show(input: &Input, position: u32) -> Answer {
    match input.root_at(position).record() {
        None => EMPTY_PART,
        Some(number) => Answer::Part {
            offset: number.0 * RECORD_BYTES,
            length: RECORD_BYTES,
        },
    }
}

/// No room and log short change nothing either: the swap was made on other
/// buffers.
fn swap_once(input: &mut Input, level: u32) -> Answer {
    match logged_swap(input, level as usize) {
        Err(Obstacle::NoRoom(lack)) => Answer::NoRoom(lack),
        Err(Obstacle::LogShort(short)) => Answer::LogShort(short),
        Ok(after) => {
            *input = after;
            Answer::Made
        }
    }
}

fn run(input: &mut Input, target: &[u8], plan: u32, budget: u32) -> Answer {
    let plan = plans::plan(plan).expect("check 13 has passed");
    slice(input, target, plan, budget)
}

fn count_root(input: &Input, position: u32) -> Answer {
    let count = count::count(input.store(), input.root_at(position));
    let share = share_bits(count, input.order.len());
    Answer::Counted { count, share }
}
