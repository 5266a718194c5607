//! Label, on lists of good and bad lengths, for variables that they name once,
//! several times or not at all.

use super::{compared, name, random_questions, FEWEST_OF_EACH_ANSWER};
use crate::input::Input;
use crate::label_lists::{list_for, random_count, spoil_length, text_kind, FAR, TEXT_KINDS};
use crate::labels::{has_good_length, Label, List, LABEL_BYTES, MOST_LABELS};
use crate::model::{Answer, Question};
use crate::random::Random;
use crate::tally::Tally;

pub const QUESTIONS: u64 = 20_000;
const FIRST_SEED: u64 = 21_000_000;
const FEWEST: usize = 1_000;
/// The lengths of a list that have lines of their own.
const LENGTHS: [usize; 8] = [0, 1, 15, 17, 1_023, 1_024, 1_025, 1_040];

pub fn compare(count: u64) -> Result<Tally, String> {
    let tally = Tally::new("random labels", 20_000)
        .line("a label of the site", FEWEST)
        .line("a label of the factory", FEWEST)
        .line("no label", FEWEST)
        .line("both lists name the variable", FEWEST)
        .line("only the site's names it", FEWEST)
        .line("only the factory's names it", FEWEST)
        .line("neither names it", FEWEST)
        .line(SITE_BAD, FEWEST_OF_EACH_ANSWER)
        .line(SITE_BAD_ITSELF, FEWEST_OF_EACH_ANSWER)
        .line(FACTORY_BAD, FEWEST_OF_EACH_ANSWER)
        .line(FACTORY_BAD_ITSELF, FEWEST_OF_EACH_ANSWER)
        .line(BOTH_BAD, FEWEST_OF_EACH_ANSWER);
    let tally = LENGTHS.iter().fold(tally, |tally, &length| {
        tally
            .line(&of_length("site", length), FEWEST_OF_EACH_ANSWER)
            .line(&of_length("factory", length), FEWEST_OF_EACH_ANSWER)
    });
    let tally = tally
        .line(FAR_TOO_LONG, FEWEST_OF_EACH_ANSWER)
        .line("variable 255, with a label", FEWEST_OF_EACH_ANSWER)
        .line(LAST_BYTE_NAMED, FEWEST)
        .line(LARGEST, FEWEST_OF_EACH_ANSWER)
        .line(ONLY_IN_TEXTS, FEWEST_OF_EACH_ANSWER)
        .line(IN_A_TEXT_BEFORE, FEWEST_OF_EACH_ANSWER)
        .line("named again, with another text", FEWEST)
        .line("in the first record of some", FEWEST)
        .line("in the last record of some", FEWEST_OF_EACH_ANSWER)
        .line("in the last record of 64", FEWEST_OF_EACH_ANSWER);
    let tally = TEXT_KINDS.iter().fold(tally, |tally, kind| {
        tally.line(&format!("a text {kind}"), FEWEST)
    });
    random_questions(tally, FIRST_SEED, count, one)
}

const SITE_BAD: &str = "a bad site's length, the factory names it";
const SITE_BAD_ITSELF: &str = "a bad site's length, the site names it";
const FACTORY_BAD: &str = "a bad factory's length, the site names it";
const FACTORY_BAD_ITSELF: &str = "a bad factory's length, the factory names it";
const BOTH_BAD: &str = "both lengths bad, both name it";

const FAR_TOO_LONG: &str = "65,536 bytes or more, the variable named";
const LAST_BYTE_NAMED: &str = "256 or more, with its last byte named";
const LARGEST: &str = "4,294,967,295, with 255 named";
const ONLY_IN_TEXTS: &str = "in texts, but no record for it";
const IN_A_TEXT_BEFORE: &str = "in a text before its record";

/// Where a record is for the variable, so that a slip about this length would
/// change the answer.
fn of_length(list: &str, length: usize) -> String {
    format!("{list} of {length} bytes, the variable named")
}

fn one(random: &mut Random, tally: &mut Tally) -> Result<(), String> {
    let named = random_named(random);
    let [site, factory] = random_lists(named, random);
    let variable = random_variable(named, random);
    let question = Question::Label {
        site: site.clone(),
        factory: factory.clone(),
        variable,
    };
    let answer = compared(&mut Input::default(), &question, random)?;
    tally.call();
    tally.count(&name(answer));
    count_lists(&site, &factory, variable, tally);
    count_lengths(&site, &factory, variable, tally);
    count_variable(&site, &factory, variable, tally);
    if let Answer::Label(Some(label)) = answer {
        let list = match label.list {
            List::Site => &site,
            List::Factory => &factory,
        };
        count_label(list, label, tally);
    }
    Ok(())
}

/// Is a whole record for it, whatever the list's length?
fn names(list: &[u8], variable: u32) -> bool {
    let mut records = list.chunks_exact(LABEL_BYTES);
    records.any(|record| u32::from(record[0]) == variable)
}

fn count_lists(site: &[u8], factory: &[u8], variable: u32, tally: &mut Tally) {
    let named = (names(site, variable), names(factory, variable));
    match (has_good_length(site), has_good_length(factory)) {
        (true, true) => tally.count(match named {
            (true, true) => "both lists name the variable",
            (true, false) => "only the site's names it",
            (false, true) => "only the factory's names it",
            (false, false) => "neither names it",
        }),
        (false, true) => {
            tally.count_if(named.0, SITE_BAD_ITSELF);
            tally.count_if(named.1, SITE_BAD);
        }
        (true, false) => {
            tally.count_if(named.0, FACTORY_BAD);
            tally.count_if(named.1, FACTORY_BAD_ITSELF);
        }
        (false, false) => tally.count_if(named.0 && named.1, BOTH_BAD),
    }
}

/// A length counts where the other list is no reason for the answer.
fn count_lengths(site: &[u8], factory: &[u8], variable: u32, tally: &mut Tally) {
    if !names(site, variable) && !names(factory, variable) {
        return;
    }
    for (name, list, other) in [("site", site, factory), ("factory", factory, site)] {
        if has_good_length(other) {
            tally.count_if(LENGTHS.contains(&list.len()), &of_length(name, list.len()));
            tally.count_if(list.len() >= FAR, FAR_TOO_LONG);
        }
    }
}

fn count_variable(site: &[u8], factory: &[u8], variable: u32, tally: &mut Tally) {
    if !has_good_length(site) || !has_good_length(factory) {
        return;
    }
    let named = |variable| names(site, variable) || names(factory, variable);
    let Ok(byte) = u8::try_from(variable) else {
        tally.count_if(named(variable % 256), LAST_BYTE_NAMED);
        tally.count_if(variable == u32::MAX && named(255), LARGEST);
        return;
    };
    tally.count_if(byte == 255 && named(255), "variable 255, with a label");
    let in_a_text = site.contains(&byte) || factory.contains(&byte);
    tally.count_if(in_a_text && !named(variable), ONLY_IN_TEXTS);
}

/// The list has got the label.
fn count_label(list: &[u8], label: Label, tally: &mut Tally) {
    let (before, record) = list.split_at(label.offset - 1);
    let (record, behind) = record.split_at(LABEL_BYTES);
    let (variable, text) = (record[0], &record[1..]);
    let again = |other: &[u8]| other[0] == variable && other[1..] != *text;
    tally.count_if(before.contains(&variable), IN_A_TEXT_BEFORE);
    tally.count_if(
        behind.chunks_exact(LABEL_BYTES).any(again),
        "named again, with another text",
    );
    let (first, last) = (before.is_empty(), behind.is_empty());
    tally.count_if(first && !last, "in the first record of some");
    tally.count_if(last && !first, "in the last record of some");
    let full = list.len() == MOST_LABELS * LABEL_BYTES;
    tally.count_if(last && full, "in the last record of 64");
    tally.count(&format!("a text {}", text_kind(text)));
}

/// The variable that the lists are made for: often one at an end.
fn random_named(random: &mut Random) -> u8 {
    match random.below(8) {
        0 => 0,
        1 | 2 => 255,
        _ => random.byte(),
    }
}

/// Mostly that variable; otherwise a larger one with the same last byte.
fn random_variable(named: u8, random: &mut Random) -> u32 {
    let named = u32::from(named);
    match random.below(12) {
        0 => 256 + named,
        1 => (1 << random.between(8, 31)) + named,
        2 => u32::MAX - 255 + named,
        _ => named,
    }
}

/// The site's list and the factory's; one or both of them may have a bad
/// length.
fn random_lists(named: u8, random: &mut Random) -> [Vec<u8>; 2] {
    let mut lists = [random_list(named, random), random_list(named, random)];
    match random.below(10) {
        0 | 1 => spoil_length(&mut lists[0], random),
        2 | 3 => spoil_length(&mut lists[1], random),
        4 => lists.iter_mut().for_each(|list| spoil_length(list, random)),
        _ => {}
    }
    lists
}

/// Names the variable never, once or several times.
fn random_list(named: u8, random: &mut Random) -> Vec<u8> {
    let count = random_count(random);
    let another = |random: &mut Random| named.wrapping_add(random.between(1, 255) as u8);
    let mut variables: Vec<u8> = (0..count).map(|_| another(random)).collect();
    let times = match random.below(5) {
        0 | 1 => 0,
        2 | 3 => 1,
        _ => random.between(2, 4),
    };
    for _ in 0..times {
        if let Some(place) = random_place(count, random) {
            variables[place] = named;
        }
    }
    let mut list = list_for(&variables, random);
    if random.coin() {
        put_in_texts(named, &mut list, random);
    }
    list
}

/// Often the first or the last.
fn random_place(count: usize, random: &mut Random) -> Option<usize> {
    let last = count.checked_sub(1)?;
    Some(match random.below(4) {
        0 => 0,
        1 => last,
        _ => random.between(0, last),
    })
}

/// A byte of some texts becomes the variable, which a search that begins at a
/// wrong byte would find.
fn put_in_texts(named: u8, list: &mut [u8], random: &mut Random) {
    for record in list.chunks_exact_mut(LABEL_BYTES) {
        if random.coin() {
            record[random.between(1, LABEL_BYTES - 1)] = named;
        }
    }
}
