//! What can be wrong with a log that is sealed, each with the place that it is
//! refused at.

use std::cmp::Reverse;

use crate::input::Input;
use crate::layout::{RecordNumber, MOST_VARIABLES};
use crate::log::{Entry, Log, Subject, LOG_RECORD_BYTES, MOST_LOG_RECORDS, SEALED};
use crate::logs::random_entry;
use crate::random::Random;

/// What is looked at first counts, and of entries the lowest.
#[derive(Clone, Copy, Debug, PartialEq, Eq, PartialOrd, Ord)]
pub enum Part {
    Length,
    Seal,
    Entry,
}

pub struct Fault {
    pub part: Part,
    pub name: &'static str,
    /// The place; none where the log has not got what the fault needs.
    pub make: fn(&mut Input, &mut Random) -> Option<usize>,
}

const fn fault(
    part: Part,
    name: &'static str,
    make: fn(&mut Input, &mut Random) -> Option<usize>,
) -> Fault {
    Fault { part, name, make }
}

pub const FAULTS: [Fault; 16] = [
    fault(Part::Length, "no byte", |input, _| {
        input.log.clear();
        Some(0)
    }),
    fault(Part::Length, "a part of a record", part_of_a_record),
    fault(Part::Length, "over 4,096 records", over_the_limit),
    fault(Part::Seal, "the seal's byte 0", seal_byte_0),
    fault(Part::Seal, "the seal's byte 1", |input, random| {
        spoil_seal(input, 1, random)
    }),
    fault(Part::Seal, "the seal's bytes 4 to 15", |input, random| {
        let position = random.between(4, 15);
        spoil_seal(input, position, random)
    }),
    fault(Part::Seal, "more entries than there are", count_over),
    fault(Part::Entry, "an entry's byte 0", |input, random| {
        spoil_entry(input, any, 0, random)
    }),
    fault(Part::Entry, "a kind above 1", kind_above_1),
    fault(Part::Entry, "an entry's bytes 12 to 15", |input, random| {
        let position = random.between(12, 15);
        spoil_entry(input, any, position, random)
    }),
    fault(Part::Entry, "a pair's bytes 6 to 11", |input, random| {
        let position = random.between(6, 11);
        spoil_entry(input, is_pair, position, random)
    }),
    fault(Part::Entry, "a record again", |input, random| {
        repeat(input, |subject| !is_pair(subject), random)
    }),
    fault(Part::Entry, "a pair again", |input, random| {
        repeat(input, is_pair, random)
    }),
    fault(
        Part::Entry,
        "a record just past the table",
        |input, random| {
            let number = input.store().record_count();
            past(input, Subject::Record(RecordNumber(number)), random)
        },
    ),
    fault(
        Part::Entry,
        "a record far past the table",
        far_past_the_table,
    ),
    fault(Part::Entry, "a level past the pairs", past_the_pairs),
];

/// The fault and its place; more are drawn where the log has not got what one
/// needs.
pub fn any_fault(input: &mut Input, random: &mut Random) -> (&'static Fault, usize) {
    loop {
        let fault = &FAULTS[random.below(FAULTS.len())];
        if let Some(place) = (fault.make)(input, random) {
            return (fault, place);
        }
    }
}

/// Two faults, perhaps of one kind. A length is spoilt last, so that the other
/// fault finds its record, and only once, so that it doesn't become right again.
pub fn two_faults(input: &mut Input, random: &mut Random) -> [(&'static Fault, usize); 2] {
    let first = &FAULTS[random.between(FIRST_OF_SEAL, FAULTS.len() - 1)];
    let second = &FAULTS[random.below(FAULTS.len())];
    let mut faults = [first, second];
    faults.sort_by_key(|fault| Reverse(fault.part));
    faults.map(|fault| match (fault.make)(input, random) {
        Some(place) => (fault, place),
        None => any_seal_fault(input, random),
    })
}

/// Where those of the seal begin and end.
const FIRST_OF_SEAL: usize = 3;
const LAST_OF_SEAL: usize = 6;

/// For this every log has got what is needed.
fn any_seal_fault(input: &mut Input, random: &mut Random) -> (&'static Fault, usize) {
    let fault = &FAULTS[random.between(FIRST_OF_SEAL, LAST_OF_SEAL)];
    let place = (fault.make)(input, random).expect("a log of a good length has a seal");
    (fault, place)
}

/// Bytes of a wrong length, with seals in many places.
pub fn wrong_length(records: usize, random: &mut Random) -> Vec<u8> {
    let mut input = Input {
        log: random.bytes(records * LOG_RECORD_BYTES),
        ..Input::default()
    };
    if random.coin() {
        input.log.fill(random.pick(&[0, SEALED]).unwrap_or(0));
    }
    let fault = &FAULTS[random.below(FIRST_OF_SEAL)];
    (fault.make)(&mut input, random);
    input.log
}

fn part_of_a_record(input: &mut Input, random: &mut Random) -> Option<usize> {
    let more = random.between(1, LOG_RECORD_BYTES - 1);
    match random.coin() {
        true => input.log.truncate(input.log.len() - more),
        false => input.log.extend(vec![0; more]),
    }
    Some(0)
}

/// One record more than there may be, or some, with the seal at the end.
fn over_the_limit(input: &mut Input, random: &mut Random) -> Option<usize> {
    let records = MOST_LOG_RECORDS
        + if random.coin() {
            1
        } else {
            random.between(2, 9)
        };
    let place_of_seal = input.log.len() - LOG_RECORD_BYTES;
    let seal = input.log.split_off(place_of_seal);
    input.log.resize((records - 1) * LOG_RECORD_BYTES, 0);
    input.log.extend(seal);
    Some(0)
}

/// What isn't 0, mostly with a bit that a good byte has too.
fn other_than_0(random: &mut Random) -> u8 {
    match random.below(3) {
        0 => 1,
        1 => SEALED,
        _ => random.between(1, 255) as u8,
    }
}

fn seal_byte_0(input: &mut Input, random: &mut Random) -> Option<usize> {
    let byte = match random.below(4) {
        0 => random.pick(&[1, 0x5A, 0xA4, 0xA7, 0x25, 255])?,
        _ => random.between(1, 255) as u8,
    };
    let byte = if byte == SEALED { 1 } else { byte };
    Some(set_in_seal(input, 0, byte))
}

fn spoil_seal(input: &mut Input, position: usize, random: &mut Random) -> Option<usize> {
    let byte = other_than_0(random);
    Some(set_in_seal(input, position, byte))
}

/// The seal's own record.
fn set_in_seal(input: &mut Input, position: usize, byte: u8) -> usize {
    let held = Log(&input.log).held();
    input.log[held * LOG_RECORD_BYTES + position] = byte;
    held
}

/// Just one more, or seeming few to a reader of one of its bytes.
fn count_over(input: &mut Input, random: &mut Random) -> Option<usize> {
    let held = Log(&input.log).held();
    let over = match random.below(4) {
        0 | 1 => held + 1,
        2 => (held / 256 + random.between(1, 9)) * 256,
        _ => random.between(held + 1, 65_535),
    };
    let [low, high] = (over as u16).to_le_bytes();
    set_in_seal(input, 2, low);
    Some(set_in_seal(input, 3, high))
}

fn any(_: Subject) -> bool {
    true
}

fn is_pair(subject: Subject) -> bool {
    matches!(subject, Subject::Pair(_))
}

/// The counted entries that are whole and about something of this kind, with
/// their places.
fn entries(input: &Input, wanted: fn(Subject) -> bool) -> Vec<(usize, Entry)> {
    let log = Log(&input.log);
    let counted = 0..log.count().min(log.held());
    counted
        .filter_map(|place| Some((place, Entry::from_bytes(log.record(place))?)))
        .filter(|(_, entry)| wanted(entry.subject))
        .collect()
}

fn set_entry(input: &mut Input, place: usize, entry: Entry) {
    let record = &mut input.log[place * LOG_RECORD_BYTES..][..LOG_RECORD_BYTES];
    record.copy_from_slice(&entry.to_bytes());
}

fn spoil_entry(
    input: &mut Input,
    wanted: fn(Subject) -> bool,
    position: usize,
    random: &mut Random,
) -> Option<usize> {
    let (place, _) = random.pick(&entries(input, wanted))?;
    input.log[place * LOG_RECORD_BYTES + position] = other_than_0(random);
    Some(place)
}

fn kind_above_1(input: &mut Input, random: &mut Random) -> Option<usize> {
    let (place, _) = random.pick(&entries(input, any))?;
    let kind = random.pick(&[2, 3, 128, 129, 254, 255])?;
    input.log[place * LOG_RECORD_BYTES + 1] = kind;
    Some(place)
}

/// The later of two is made to be about what the earlier one is about, with old
/// bytes of its own or with the same.
fn repeat(input: &mut Input, wanted: fn(Subject) -> bool, random: &mut Random) -> Option<usize> {
    let (_, earlier) = random.pick(&entries(input, wanted))?;
    let place_of = |&(_, entry): &(usize, Entry)| entry.subject == earlier.subject;
    let all = entries(input, any);
    let first = all.iter().position(place_of)?;
    let (later, _) = random.pick(&all[first + 1..])?;
    let again = match random.coin() {
        true => earlier,
        false => random_entry(earlier.subject, random),
    };
    set_entry(input, later, again);
    Some(later)
}

fn past(input: &mut Input, subject: Subject, random: &mut Random) -> Option<usize> {
    let (place, _) = random.pick(&entries(input, any))?;
    set_entry(input, place, random_entry(subject, random));
    Some(place)
}

fn far_past_the_table(input: &mut Input, random: &mut Random) -> Option<usize> {
    let records = input.store().record_count();
    let number = match random.below(3) {
        0 => 65_535,
        1 => (records / 256 + random.between(1, 9)) * 256,
        _ => random.between(records, 65_535),
    };
    past(input, Subject::Record(RecordNumber(number)), random)
}

/// The lowest level, which has no other below it, the next, or one by far.
fn past_the_pairs(input: &mut Input, random: &mut Random) -> Option<usize> {
    let n = input.order.len();
    let level = match random.below(5) {
        0 | 1 => n.saturating_sub(1),
        2 => n,
        3 => random.between(n, 2 * MOST_VARIABLES.max(n)),
        _ => random.pick(&[256, 32_768, 65_535])?,
    };
    past(input, Subject::Pair(level), random)
}
