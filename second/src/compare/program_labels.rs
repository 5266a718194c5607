//! The labels in the program's random folders: how their files are made, and
//! what is counted of them.

use crate::input::Input;
use crate::label_lists::{list_for, random_count, spoil_length, text_kind, TEXT_KINDS};
use crate::labels::{has_good_length, text, LABEL_BYTES};
use crate::layout::{FREE, MOST_VARIABLES};
use crate::model::Answer;
use crate::printed::{Files, Run, FACTORY, NAMES, SITE, TABLE};
use crate::random::Random;
use crate::tally::Tally;

/// A tally with the lines for labels more. In half of the folders a label must be
/// printed.
pub fn lines(tally: Tally, folders: u64) -> Tally {
    let tally = tally
        .line("a label printed", folders as usize / 2)
        .line("refused, with labels for the store", 100)
        .line("a label printed with every used record", 100)
        .line("a label printed with some used records", 100)
        .line("a label printed, another of the factory", 100)
        .line("a label printed with a newline in it", 100)
        .line("a label for 255, and free records", 100);
    let tally = TEXT_KINDS.iter().fold(tally, |tally, kind| {
        tally.line(&format!("a label printed {kind}"), 100)
    });
    [SITE, FACTORY].into_iter().fold(tally, |tally, place| {
        tally
            .line(&of_file(place, OF_PARTS), 20)
            .line(&of_file(place, ALONE), 20)
            .line(&of_file(place, SILENCES), 20)
    })
}

/// What is counted of each of the two files.
const OF_PARTS: &str = "of no whole records";
const ALONE: &str = "alone, a label printed";
const SILENCES: &str = "bad, no label of the other's printed";

fn of_file(place: usize, what: &str) -> String {
    format!("{} {what}", NAMES[place])
}

pub fn count(run: &Run, files: &Files, tally: &mut Tally) {
    for place in [SITE, FACTORY] {
        let of_parts = !list(files, place).len().is_multiple_of(LABEL_BYTES);
        tally.count_if(of_parts, &of_file(place, OF_PARTS));
    }
    if let Answer::Refused(_) = run.answer {
        let labelled = of_table(files)
            .iter()
            .any(|&used| run.label(used).is_some());
        tally.count_if(labelled, "refused, with labels for the store");
        return;
    }
    count_printed(run, files, tally);
    count_silenced(run, files, tally);
    let for_free = run.label(FREE).is_some() && !run.after.free_numbers().is_empty();
    tally.count_if(for_free, "a label for 255, and free records");
}

/// The variables of the table as it is in its file.
fn of_table(files: &Files) -> Vec<u8> {
    let table = files[TABLE].clone().unwrap_or_default();
    variables(&Input {
        table,
        ..Input::default()
    })
}

/// What a file of labels holds.
fn list(files: &Files, place: usize) -> &[u8] {
    files[place].as_deref().unwrap_or_default()
}

/// The labels in the listing, where there are any.
fn count_printed(run: &Run, files: &Files, tally: &mut Tally) {
    let used = variables(&run.after);
    let labels: Vec<&[u8]> = used.iter().filter_map(|&used| run.label(used)).collect();
    if labels.is_empty() {
        return;
    }
    tally.count("a label printed");
    tally.count(if labels.len() == used.len() {
        "a label printed with every used record"
    } else {
        "a label printed with some used records"
    });
    for kind in TEXT_KINDS {
        let printed = labels.iter().any(|label| text_kind(label) == kind);
        tally.count_if(printed, &format!("a label printed {kind}"));
    }
    let newline = labels.iter().any(|label| has_newline(label));
    tally.count_if(newline, "a label printed with a newline in it");
    let another = used.iter().any(|&used| has_another(run, files, used));
    tally.count_if(another, "a label printed, another of the factory");
    for (place, other) in [(SITE, FACTORY), (FACTORY, SITE)] {
        tally.count_if(files[other].is_none(), &of_file(place, ALONE));
    }
}

/// Before the first zero, where it is printed.
fn has_newline(label: &[u8]) -> bool {
    let mut printed = label.iter().take_while(|&&byte| byte != 0);
    printed.any(|&byte| byte == b'\n')
}

/// Does the factory call the variable something else?
fn has_another(run: &Run, files: &Files, variable: u8) -> bool {
    let of_factory = text(&[], list(files, FACTORY), u32::from(variable));
    of_factory.is_some_and(|label| run.label(variable) != Some(label))
}

/// The labels that one list would give, were it not for the other's length.
fn count_silenced(run: &Run, files: &Files, tally: &mut Tally) {
    let used = variables(&run.after);
    for (place, other) in [(SITE, FACTORY), (FACTORY, SITE)] {
        let alone = |&used: &u8| text(list(files, other), &[], u32::from(used));
        let silenced =
            !has_good_length(list(files, place)) && used.iter().any(|used| alone(used).is_some());
        tally.count_if(silenced, &of_file(place, SILENCES));
    }
}

/// The variables of the used records, each as often as it has some.
pub fn variables(input: &Input) -> Vec<u8> {
    let used = input.store().used();
    used.map(|(_, record)| record.variable.0).collect()
}

/// The site's file and the factory's, for a store that has these variables.
pub fn good_files(variables: &[u8], random: &mut Random) -> [Option<Vec<u8>>; 2] {
    [(); 2].map(|()| random_file(variables, random))
}

/// One of them may have a bad length.
pub fn any_files(variables: &[u8], random: &mut Random) -> [Option<Vec<u8>>; 2] {
    let mut files = good_files(variables, random);
    if random.once_in(6) {
        let file = &mut files[random.below(2)];
        spoil_length(file.get_or_insert_default(), random);
    }
    files
}

/// Missing, with a label for each variable that a store can have, or with any
/// number of them.
fn random_file(variables: &[u8], random: &mut Random) -> Option<Vec<u8>> {
    let named: Vec<u8> = match random.below(16) {
        0 | 1 => return None,
        2 | 3 => (0..MOST_VARIABLES as u8).collect(),
        _ => (0..random_count(random))
            .map(|_| random_variable(variables, random))
            .collect(),
    };
    Some(list_for(&named, random))
}

/// Mostly one of these; otherwise that of a free record, or any.
fn random_variable(variables: &[u8], random: &mut Random) -> u8 {
    match random.below(6) {
        0 => FREE,
        1 => random.byte(),
        _ => random.pick(variables).unwrap_or(0),
    }
}
