//! What the program prints: the last part of the bench sheet.

use crate::input::Input;
use crate::labels;
use crate::layout::RecordNumber;
use crate::log::{empty_log, MOST_LOG_RECORDS};
use crate::model::{answer, Answer, Question};
use crate::refusals::Refusal;

/// The files in the order of the arrays below: table, roots, order, target,
/// plan, and the lists of labels, the site's and the factory's.
pub const NAMES: [&str; 7] = [
    "trip.nod", "trip.rts", "trip.ord", "trip.tgt", "trip.pln", "trip.lbs", "trip.lbf",
];

/// The places of some of them.
pub const TABLE: usize = 0;
pub const ROOTS: usize = 1;
pub const PLAN: usize = 4;
pub const SITE: usize = 5;
pub const FACTORY: usize = 6;

/// What each of the files holds; none where it is missing.
pub type Files = [Option<Vec<u8>>; 7];

/// A line without its newline. A label may have any bytes.
type Line = Vec<u8>;

/// What came of a run of the program.
pub struct Run {
    /// None where the file doesn't give a number.
    pub plan: Option<u32>,
    pub answer: Answer,
    pub after: Input,
    site: Vec<u8>,
    factory: Vec<u8>,
}

impl Run {
    /// A file that is missing counts as empty. The limits of the store's files
    /// are those of check 1, which a run makes anyway, and those of the labels'
    /// files are those of the lists; only the plan's file has rules of its own.
    pub fn of(files: &Files) -> Run {
        let [table, roots, order, target, plan, site, factory] = files.clone();
        let mut input = Input {
            table: table.unwrap_or_default(),
            roots: roots.unwrap_or_default(),
            order: order.unwrap_or_default(),
            // Its own, and as long as a log can be.
            log: empty_log(MOST_LOG_RECORDS),
        };
        let plan = plan_number(plan.as_deref());
        let question = Question::Run {
            target: target.unwrap_or_default(),
            plan: plan.unwrap_or(NO_PLAN),
            // The largest there is.
            budget: u32::MAX,
        };
        Run {
            plan,
            answer: answer(&mut input, &question),
            after: input,
            site: site.unwrap_or_default(),
            factory: factory.unwrap_or_default(),
        }
    }

    /// The whole standard output.
    pub fn text(&self) -> Vec<u8> {
        let lines = match self.answer {
            Answer::Refused(refusal) => vec![refused(refusal, self.plan).into_bytes()],
            answer => {
                let plan = self.plan.expect("a run without a plan is refused");
                let first = [format!("plan {plan}"), outcome(answer)].map(String::into_bytes);
                [first.to_vec(), self.listing()].concat()
            }
        };
        // The last line has a newline too.
        let with_newline = |line: &Line| [line.as_slice(), b"\n"].concat();
        lines.iter().flat_map(with_newline).collect()
    }

    /// The label of a variable, padding and all.
    pub fn label(&self, variable: u8) -> Option<&[u8]> {
        labels::text(&self.site, &self.factory, u32::from(variable))
    }

    /// The order, the lines of each record, and the roots.
    fn listing(&self) -> Vec<Line> {
        let store = self.after.store();
        let order = store.order.iter().map(|variable| variable.to_string());
        let roots = store.roots().map(|root| root.0.to_string());
        let mut lines = vec![words("order", order)];
        for number in store.record_numbers() {
            lines.extend(self.lines_of(number));
        }
        lines.push(words("roots", roots));
        lines
    }

    /// One line, and one more for a used record whose variable has a label.
    fn lines_of(&self, number: RecordNumber) -> Vec<Line> {
        let store = self.after.store();
        if store.is_free(number) {
            return vec![format!("{} free", number.0).into_bytes()];
        }
        let record = store.record(number);
        let line = format!(
            "{} {} {} {}",
            number.0, record.variable.0, record.low.0, record.high.0
        );
        let label = self.label(record.variable.0).map(before_zero);
        [line.into_bytes()].into_iter().chain(label).collect()
    }
}

/// The one byte of the file, or 0 where it is missing; none for a file of any
/// other length.
fn plan_number(file: Option<&[u8]>) -> Option<u32> {
    match file {
        None => Some(0),
        Some(&[byte]) => Some(u32::from(byte)),
        Some(_) => None,
    }
}

/// Stands in for a number that the file doesn't give, so that it is refused in
/// its turn.
const NO_PLAN: u32 = u32::MAX;

/// Without a number from the file refusal 13 has the place 0.
fn refused(refusal: Refusal, plan: Option<u32>) -> String {
    let place = match (refusal.number, plan) {
        (13, None) => 0,
        _ => refusal.place,
    };
    format!("refused {} place {place}", refusal.number)
}

fn outcome(answer: Answer) -> String {
    match answer {
        Answer::Done { swaps, left } => format!("done swaps {swaps} left {left}"),
        Answer::Stuck { swaps, left, lack } => format!(
            "no room swaps {swaps} left {left} level {} needed {} free {}",
            lack.level, lack.needed, lack.free
        ),
        Answer::OutOfLog { swaps, left, short } => format!(
            "log short swaps {swaps} left {left} level {} needed {} held {}",
            short.level, short.needed, short.held
        ),
        other => unreachable!("a run with the largest budget is never answered {other:?}"),
    }
}

/// All of a label where it has no zero; nothing where it begins with one.
fn before_zero(label: &[u8]) -> Line {
    let bytes = label.iter().copied();
    bytes.take_while(|&byte| byte != 0).collect()
}

/// With no other word the first stands alone, and no space after it.
fn words(first: &str, rest: impl Iterator<Item = String>) -> Line {
    let mut line = first.to_string();
    for word in rest {
        line.push(' ');
        line.push_str(&word);
    }
    line.into_bytes()
}
