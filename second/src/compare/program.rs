//! The built program, run in folders with random and damaged files.

use std::env;
use std::fs;
use std::path::{Path, PathBuf};
use std::process::{self, Command};

use super::run::any_order;
use super::{name, program_labels, random_questions, sizes};
use crate::generate::{accepted, busy, random_order, spacious};
use crate::hold::groups;
use crate::input::Input;
use crate::labels::{LABEL_BYTES, MOST_LABELS};
use crate::layout::{MOST_RECORDS, MOST_ROOTS, MOST_VARIABLES, RECORD_BYTES, ROOT_BYTES};
use crate::model::Answer;
use crate::plans::{plan, PLANS};
use crate::printed::{Files, Run, NAMES, PLAN, ROOTS};
use crate::random::Random;
use crate::sample::sample;
use crate::tally::Tally;
use crate::texts;
use crate::wide::{wide, Wide};

pub const QUESTIONS: u64 = 4_000;
const FIRST_SEED: u64 = 20_700_000;
const FEWEST_LARGEST: usize = 10;
const FEWEST_WIDE: usize = 10;
const WIDE_ONCE_IN: usize = 60;
/// The most bytes that each of the files may have.
const LIMITS: [usize; 7] = [
    MOST_RECORDS * RECORD_BYTES,
    MOST_ROOTS * ROOT_BYTES,
    MOST_VARIABLES,
    MOST_VARIABLES,
    1,
    MOST_LABELS * LABEL_BYTES,
    MOST_LABELS * LABEL_BYTES,
];

/// Holds the program to the cases made by hand; how many there are, or the
/// first report.
pub fn hold_program_to_cases(program: &Path) -> Result<usize, String> {
    let program = whole_path(program)?;
    let folder = Folder::new()?;
    let cases = texts::cases();
    for (files, text) in &cases {
        hold_program_to(&program, &folder, files, text)?;
    }
    Ok(cases.len())
}

pub fn compare(program: &Path, count: u64) -> Result<Tally, String> {
    let program = whole_path(program)?;
    let folder = Folder::new()?;
    let tally = Tally::new("random runs of the program", 2_000)
        .line("done", 100)
        .line("no room", 100)
        .line("no room after some swaps", 20)
        .refusals(&[1], 100)
        .refusals(&[2, 3, 4, 5, 6, 7, 8, 9], 10)
        .refusals(&[13], 100)
        .line("refused 1 to 9, with a bad plan besides", 20)
        .line("log short", FEWEST_WIDE);
    let tally = sizes::lines(tally, "not refused", FEWEST_LARGEST);
    let tally = (0..PLANS.len()).fold(tally, |tally, number| {
        tally.line(&format!("plan {number}"), 100)
    });
    let tally = NAMES.into_iter().fold(tally, |tally, name| {
        tally
            .line(&format!("{name} missing"), 20)
            .line(&format!("{name} empty"), 20)
            .line(&format!("{name} over its limit"), 20)
    });
    let tally = tally
        .line("trip.rts odd", 20)
        .line("trip.pln with no plan's byte", 20)
        .line("trip.pln of two bytes", 20)
        .line("trip.pln of thousands of bytes", 20);
    let tally = program_labels::lines(tally, count);
    random_questions(tally, FIRST_SEED, count, |random, tally| {
        one(&program, &folder, random, tally)
    })
}

/// The program is run in another folder than this one, where a relative path
/// would lead astray.
fn whole_path(program: &Path) -> Result<PathBuf, String> {
    fs::canonicalize(program).map_err(|error| format!("no program {}: {error}", program.display()))
}

fn one(
    program: &Path,
    folder: &Folder,
    random: &mut Random,
    tally: &mut Tally,
) -> Result<(), String> {
    let files = random_files(random);
    let run = Run::of(&files);
    hold_program_to(program, folder, &files, &run.text())?;
    tally.call();
    count_run(&run, tally);
    count_files(&files, tally);
    program_labels::count(&run, &files, tally);
    Ok(())
}

/// Counts the answer and, where it isn't a refusal, the plan.
fn count_run(run: &Run, tally: &mut Tally) {
    tally.count(&name(run.answer));
    if let Answer::Refused(refusal) = run.answer {
        let bad_plan = run.plan.is_none_or(|number| plan(number).is_none());
        let besides = bad_plan && refusal.number != 13;
        tally.count_if(besides, "refused 1 to 9, with a bad plan besides");
        return;
    }
    sizes::count(&run.after, "not refused", tally);
    let plan = run.plan.expect("a run without a plan is refused");
    tally.count(&format!("plan {plan}"));
    let stuck_later = matches!(run.answer, Answer::Stuck { swaps: 1.., .. });
    tally.count_if(stuck_later, "no room after some swaps");
}

fn count_files(files: &Files, tally: &mut Tally) {
    for ((name, file), limit) in NAMES.iter().zip(files).zip(LIMITS) {
        match file {
            None => tally.count(&format!("{name} missing")),
            Some(bytes) => {
                tally.count_if(bytes.is_empty(), &format!("{name} empty"));
                tally.count_if(bytes.len() > limit, &format!("{name} over its limit"));
            }
        }
    }
    let odd = files[ROOTS]
        .as_ref()
        .is_some_and(|roots| roots.len() % 2 == 1);
    tally.count_if(odd, "trip.rts odd");
    match files[PLAN].as_deref() {
        Some([4..=255]) => tally.count("trip.pln with no plan's byte"),
        Some([_, _]) => tally.count("trip.pln of two bytes"),
        Some(many) if many.len() >= 1_000 => tally.count("trip.pln of thousands of bytes"),
        _ => {}
    }
}

/// Runs the program in the folder with these files. It must end well, print
/// this text to its standard output and nothing else anywhere, and leave the
/// folder as it was.
fn hold_program_to(
    program: &Path,
    folder: &Folder,
    files: &Files,
    text: &[u8],
) -> Result<(), String> {
    folder.fill(files)?;
    let output = Command::new(program)
        .current_dir(&folder.path)
        .output()
        .map_err(|error| format!("{} does not run: {error}", program.display()))?;
    let told = !output.stderr.is_empty();
    if told || output.status.code() != Some(0) || output.stdout != text {
        return Err(format!(
            "{}program, {}, standard error:\n{}\nstandard output:\n{}\nexpected, exit status 0:\n{}",
            hex(files),
            output.status,
            in_lines(&output.stderr),
            in_lines(&output.stdout),
            in_lines(text)
        ));
    }
    if folder.files()? != *files {
        return Err(format!("{}the program changed a file", hex(files)));
    }
    Ok(())
}

/// A newline stays one; any other byte that is no letter or sign is written out.
fn in_lines(bytes: &[u8]) -> String {
    let lines = bytes.split(|&byte| byte == b'\n');
    let lines: Vec<String> = lines.map(|line| line.escape_ascii().to_string()).collect();
    lines.join("\n")
}

fn hex(files: &Files) -> String {
    let sizes = [RECORD_BYTES, ROOT_BYTES, 1, 1, 1, LABEL_BYTES, LABEL_BYTES];
    let mut text = String::new();
    for ((name, file), size) in NAMES.iter().zip(files).zip(sizes) {
        text += &match file {
            None => format!("{name} missing\n"),
            Some(bytes) => {
                let digits = groups(bytes, size);
                format!("{name} ({} bytes):{digits}\n", bytes.len())
            }
        };
    }
    text
}

/// A temporary folder of this process, gone when it is dropped.
struct Folder {
    path: PathBuf,
}

impl Folder {
    fn new() -> Result<Folder, String> {
        let path = env::temp_dir().join(format!("relay-compare-{}", process::id()));
        fs::create_dir(&path).map_err(|error| format!("no folder {}: {error}", path.display()))?;
        Ok(Folder { path })
    }

    fn fill(&self, files: &Files) -> Result<(), String> {
        for (name, file) in NAMES.iter().zip(files) {
            let path = self.path.join(name);
            let result = match file {
                Some(bytes) => fs::write(&path, bytes),
                None if path.exists() => fs::remove_file(&path),
                None => Ok(()),
            };
            result.map_err(|error| format!("{}: {error}", path.display()))?;
        }
        Ok(())
    }

    /// The files that there are now; it is an error where there are others.
    fn files(&self) -> Result<Files, String> {
        let entries = fs::read_dir(&self.path).map_err(|error| error.to_string())?;
        for entry in entries {
            let name = entry.map_err(|error| error.to_string())?.file_name();
            if !NAMES.iter().any(|known| name == *known) {
                return Err(format!("the program made a file {name:?}"));
            }
        }
        Ok(NAMES.map(|name| fs::read(self.path.join(name)).ok()))
    }
}

impl Drop for Folder {
    fn drop(&mut self) {
        // Nothing is lost where it stays.
        let _ = fs::remove_dir_all(&self.path);
    }
}

/// In every other folder all files are good, so that the run has something to
/// list with labels; in the others any of them may be bad.
fn random_files(random: &mut Random) -> Files {
    if random.coin() {
        good_files(random)
    } else {
        any_files(random)
    }
}

/// Now and then a swap that is too large for the program's log, as the first.
fn good_files(random: &mut Random) -> Files {
    let (input, target) = if random.once_in(WIDE_ONCE_IN) {
        let Wide { input, level } = wide(random);
        let mut target = input.order.clone();
        target.swap(level, level + 1);
        (input, target)
    } else {
        let input = match random.below(80) {
            0 => spacious(random),
            1..=20 => accepted(random).0,
            _ => busy(random),
        };
        let target = any_order(&input, random);
        (input, target)
    };
    let plan = vec![random.below(PLANS.len()) as u8];
    let [site, factory] = program_labels::good_files(&program_labels::variables(&input), random);
    let [table, roots, order] = [input.table, input.roots, input.order].map(Some);
    [table, roots, order, Some(target), Some(plan), site, factory]
}

fn any_files(random: &mut Random) -> Files {
    let input = match random.below(10) {
        0..=3 => busy(random),
        4 => accepted(random).0,
        _ => sample(random).input,
    };
    let target = random_target(&input, random);
    let plan = random_plan(random);
    let variables = program_labels::variables(&input);
    let [table, roots, order, target] = [input.table, input.roots, input.order, target].map(Some);
    let mut files = [table, roots, order, target, plan];
    if random.once_in(3) {
        let place = random.below(files.len());
        damage(&mut files[place], LIMITS[place], random);
    }
    if random.once_in(20) {
        files[ROOTS].get_or_insert_default().push(0);
    }
    let [table, roots, order, target, plan] = files;
    let [site, factory] = program_labels::any_files(&variables, random);
    [table, roots, order, target, plan, site, factory]
}

fn random_target(input: &Input, random: &mut Random) -> Vec<u8> {
    let mut target = input.order.clone();
    match random.below(10) {
        0 => {}
        1 if !target.is_empty() => {
            let level = random.below(target.len());
            target[level] = random.below(target.len() + 1) as u8;
        }
        2 => target = random_order(random.below(MOST_VARIABLES + 3), random),
        _ => target = any_order(input, random),
    }
    target
}

/// Mostly one byte, a plan's; otherwise missing, another byte, or another
/// number of them.
fn random_plan(random: &mut Random) -> Option<Vec<u8>> {
    let plan = random.below(PLANS.len()) as u8;
    match random.below(30) {
        0 | 1 => None,
        2 => Some(Vec::new()),
        3 => Some(vec![random.between(PLANS.len(), 255) as u8]),
        4 => Some(vec![plan; 2]),
        5 => Some(vec![plan; random.between(1_000, 5_000)]),
        _ => Some(vec![plan]),
    }
}

/// A file that is missing, empty, over its limit or cut short.
fn damage(file: &mut Option<Vec<u8>>, limit: usize, random: &mut Random) {
    let bytes = file.get_or_insert_default();
    match random.below(5) {
        0 => *file = None,
        1 => bytes.clear(),
        2 => bytes.resize(limit + random.between(1, 8), 0),
        3 => bytes.resize(limit * random.between(2, 5), 0),
        _ => bytes.truncate(bytes.len() / 2),
    }
}
