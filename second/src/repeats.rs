//! Random inputs made for check 7: records are added to an accepted table,
//! some of them alike, almost alike, or of one bucket of the library. All of
//! them pass the checks before it.

use crate::chains::{steps_of, FEWEST_FOR_CHAINS, FEWEST_OF_A_CROWD, MOST_STEPS};
use crate::generate::{all_used, moved};
use crate::input::Input;
use crate::layout::{Record, RecordNumber, Reference, MOST_RECORDS, MOST_ROOTS};
use crate::model::Answer;
use crate::possible::{exchanged, other_high, other_low, other_variable, Change, Possible};
use crate::random::Random;
use crate::refusals::Refusal;
use crate::seats::{seats, Seating};

use Seating::{Anywhere, BothEnds, FirstRecords, FirstUsed, LastRecords};
use Source::{Any, OneBucket, TwoBut};

pub struct Sample {
    pub input: Input,
    pub kind: &'static str,
    /// None where no two records are alike.
    pub repeat: Option<Repeat>,
}

impl Sample {
    /// Can this be the answer of an entry, as far as the maker of the table
    /// knows? It knows of the checks up to 7.
    pub fn is_answered_by(&self, answer: Answer) -> bool {
        match (&self.repeat, answer) {
            (None, Answer::Refused(refusal)) => refusal.number > 7,
            (None, _) => true,
            (Some(repeat), answer) => {
                let number = 7;
                let place = repeat.place.0;
                answer == Answer::Refused(Refusal { number, place })
            }
        }
    }
}

/// The lowest record that repeats an earlier one, and that one.
pub struct Repeat {
    pub earlier: RecordNumber,
    pub place: RecordNumber,
}

struct Kind {
    name: &'static str,
    seating: Seating,
    source: Source,
    pattern: Pattern,
    beside: Beside,
}

impl Kind {
    /// It needs no free record, and a crowd can only stand beside.
    fn is_often_full(&self) -> bool {
        !matches!(self.seating, FirstUsed) && !matches!(self.source, OneBucket)
    }

    /// Full tables take the library long: there are some dozens in all.
    fn full_once_in(&self) -> usize {
        if self.is_often_full() {
            20
        } else {
            250
        }
    }
}

/// The added records in rising record number: those with the same entry are
/// alike. The entries are 0 and up, none left out.
type Pattern = fn(&mut Random) -> Vec<usize>;

/// The pattern of others, of one bucket, that stand anywhere besides.
type Beside = fn(&[usize], &mut Random) -> Vec<usize>;

/// Where the different ones among them come from.
#[derive(Clone, Copy)]
enum Source {
    Any,
    OneBucket,
    TwoBut(Change),
}

const fn kind(name: &'static str, seating: Seating, source: Source, pattern: Pattern) -> Kind {
    Kind {
        name,
        seating,
        source,
        pattern,
        beside: none_or_a_crowd,
    }
}

/// Two that are alike, and a crowd that isn't theirs.
const fn with_a_crowd(name: &'static str, seating: Seating) -> Kind {
    Kind {
        beside: |_, random| crowd(random),
        ..kind(name, seating, Any, pair)
    }
}

/// A kind whose tables take about as many steps as the chains are given.
const fn near_the_limit(name: &'static str, pattern: Pattern) -> Kind {
    Kind {
        beside: some_steps,
        ..kind(name, Anywhere, OneBucket, pattern)
    }
}

const KINDS: [Kind; 29] = [
    kind("records 0 and 1 alike", FirstRecords, Any, pair),
    kind("first two used alike, others free", FirstUsed, Any, pair),
    kind("last two records alike", LastRecords, Any, pair),
    kind("first and last record alike", BothEnds, Any, pair),
    kind("two alike, anywhere", Anywhere, Any, pair),
    kind("three alike", Anywhere, Any, three),
    kind("two pairs", Anywhere, Any, two_pairs),
    kind(
        "other variable alone",
        Anywhere,
        TwoBut(other_variable),
        two,
    ),
    kind("other low alone", Anywhere, TwoBut(other_low), two),
    kind("other high alone", Anywhere, TwoBut(other_high), two),
    kind("low and high exchanged", Anywhere, TwoBut(exchanged), two),
    kind("first two used of one bucket", FirstUsed, OneBucket, two),
    kind("last two of one bucket", LastRecords, OneBucket, two),
    kind("some of one bucket", Anywhere, OneBucket, some),
    kind(
        "a third of the bucket between",
        Anywhere,
        OneBucket,
        around_a_third,
    ),
    kind(
        "some of one bucket, alike in front",
        Anywhere,
        OneBucket,
        |random| in_front(some(random)),
    ),
    kind(
        "some of one bucket, alike amid",
        Anywhere,
        OneBucket,
        |random| amid(some(random), random),
    ),
    kind(
        "some of one bucket, alike at the end",
        Anywhere,
        OneBucket,
        |random| at_the_end(some(random)),
    ),
    kind("crowd", Anywhere, OneBucket, crowd),
    kind("crowd, alike in front", Anywhere, OneBucket, |random| {
        in_front(crowd(random))
    }),
    kind("crowd, alike amid", Anywhere, OneBucket, |random| {
        amid(crowd(random), random)
    }),
    kind("crowd, alike at the end", Anywhere, OneBucket, |random| {
        last_two(crowd(random))
    }),
    kind(
        "crowd, its first and last alike",
        BothEnds,
        OneBucket,
        |random| around(crowd(random)),
    ),
    kind(
        "crowd, one of it three times",
        Anywhere,
        OneBucket,
        |random| twice_amid(crowd(random), random),
    ),
    kind("crowd, two repeats in it", Anywhere, OneBucket, |random| {
        two_amid(crowd(random), random)
    }),
    with_a_crowd("crowd, last two records alike", LastRecords),
    with_a_crowd("crowd, first and last record alike", BothEnds),
    near_the_limit("not quite a crowd", |_| {
        different_ones(FEWEST_OF_A_CROWD - 1)
    }),
    near_the_limit("not quite a crowd, alike at the end", |_| {
        at_the_end(different_ones(FEWEST_OF_A_CROWD - 2))
    }),
];

/// Two are alike as their kind says, and two of a crowd beside them, the later
/// of which stands lower.
const LOWER_BESIDE: &str = "a lower repeat in a crowd beside";

/// The names of all kinds, in the order in which they are printed.
pub fn kind_names() -> impl Iterator<Item = &'static str> {
    let names = KINDS.iter().map(|kind| kind.name);
    names.chain([LOWER_BESIDE])
}

/// Those that are often made full.
pub fn often_full() -> impl Iterator<Item = &'static str> {
    let kinds = KINDS.iter().filter(|kind| kind.is_often_full());
    kinds.map(|kind| kind.name)
}

pub fn sample(random: &mut Random) -> Sample {
    let kind = &KINDS[random.below(KINDS.len())];
    of_kind(kind, random)
}

/// Draws tables until one has got what the kind needs.
fn of_kind(kind: &'static Kind, random: &mut Random) -> Sample {
    loop {
        if let Some(sample) = drawn(kind, random) {
            return sample;
        }
    }
}

fn drawn(kind: &'static Kind, random: &mut Random) -> Option<Sample> {
    let pattern = (kind.pattern)(random);
    let full = random.once_in(kind.full_once_in());
    let beside = if full && random.coin() {
        a_crowd(&pattern, random)
    } else {
        (kind.beside)(&pattern, random)
    };
    let (added, more) = (pattern.len(), beside.len());
    let base = base(full, added + more, random);
    let used = base.used_numbers().len();
    let records = record_count(used + added + more, random);
    let free = records - used - added - more;
    let mut seats = seats(kind.seating, records, free, added, random)?;
    let mut others = seats.others.split_off(used);
    others.truncate(more);
    others.sort();

    let mut input = moved(&base, records, seats.others);
    let own = add(kind.source, &mut input, &pattern, &seats.added, random)?;
    let other = add(OneBucket, &mut input, &beside, &others, random)?;
    set_roots(&mut input, &[seats.added, others].concat(), random);
    let (kind, repeat) = match (own, other) {
        (Some(own), Some(other)) if other.place < own.place => (LOWER_BESIDE, Some(other)),
        (own, _) => (kind.name, own),
    };
    Some(Sample {
        input,
        kind,
        repeat,
    })
}

/// Adds the records of a pattern at these rising numbers. Inside, their lowest
/// repeat; none where there are no such records.
fn add(
    source: Source,
    input: &mut Input,
    pattern: &[usize],
    numbers: &[RecordNumber],
    random: &mut Random,
) -> Option<Option<Repeat>> {
    let different = different(source, input, pattern, random)?;
    for (&number, &which) in numbers.iter().zip(pattern) {
        input.set_record(number, different[which]);
    }
    Some(repeat(pattern, numbers))
}

/// The different records of a pattern.
fn different(
    source: Source,
    input: &Input,
    pattern: &[usize],
    random: &mut Random,
) -> Option<Vec<Record>> {
    let Some(last) = pattern.iter().max() else {
        return Some(Vec::new());
    };
    let count = last + 1;
    let possible = Possible::beside(input, random);
    match source {
        Any => possible.any(count, random),
        OneBucket => possible.of_one_bucket(count, random),
        TwoBut(change) => possible.two_but_for(change, random),
    }
}

fn repeat(pattern: &[usize], added: &[RecordNumber]) -> Option<Repeat> {
    (0..pattern.len()).find_map(|later| {
        let earlier = earlier_of(pattern, later)?;
        Some(Repeat {
            earlier: added[earlier],
            place: added[later],
        })
    })
}

/// The first one that is like this one and stands before it.
fn earlier_of(pattern: &[usize], later: usize) -> Option<usize> {
    let mut earlier = pattern[..later].iter();
    earlier.position(|&which| which == pattern[later])
}

// How large the tables are.

/// So many of one bucket are found in small tables too.
const FEW_OF_A_BUCKET: usize = 4;
/// So many are found only where there are hundreds of records besides.
const MANY_OF_A_BUCKET: usize = 100;

/// A whole table to add to, large where many of one bucket are to be found.
fn base(full: bool, added: usize, random: &mut Random) -> Input {
    let room = MOST_RECORDS - added;
    let used = match random.below(100) {
        _ if full => room,
        0 => random.between(1_000, room),
        _ if added > MANY_OF_A_BUCKET => random.between(600, 800),
        1..=15 => random.between(200, 700),
        _ if added > FEW_OF_A_BUCKET => random.between(200, 350),
        16..=50 => about_as_chains_need(random) - added,
        51..=75 => random.below(14),
        _ => random.below(100),
    };
    all_used(used, random)
}

/// As many records as a search by chains needs, one fewer or one more.
fn about_as_chains_need(random: &mut Random) -> usize {
    random.between(FEWEST_FOR_CHAINS - 1, FEWEST_FOR_CHAINS + 1)
}

/// How many records the table has got: none free, some or many, or all that
/// there can be.
fn record_count(without_free: usize, random: &mut Random) -> usize {
    let free = match random.below(300) {
        0..=99 => 0,
        100..=199 if without_free < FEWEST_FOR_CHAINS => {
            about_as_chains_need(random) - without_free
        }
        100..=199 => random.between(0, without_free),
        200..=298 => random.between(without_free, 4 * without_free),
        _ => MOST_RECORDS,
    };
    (without_free + free).min(MOST_RECORDS)
}

/// Mostly the added records are named too, as far as there is room. Now and
/// then a root is astray.
fn set_roots(input: &mut Input, added: &[RecordNumber], random: &mut Random) {
    let mut roots = input.root_list();
    if !random.once_in(4) {
        roots.extend(added.iter().copied().map(Reference::to));
    }
    if random.once_in(6) {
        let past = Reference((input.store().record_count() + 2) as u16);
        roots.push(past);
    }
    roots.truncate(MOST_ROOTS);
    random.shuffle(&mut roots);
    input.set_roots(&roots);
}

// The patterns.

fn pair(_: &mut Random) -> Vec<usize> {
    vec![0, 0]
}

fn three(_: &mut Random) -> Vec<usize> {
    vec![0, 0, 0]
}

/// One after the other, crossed, or one within the other.
fn two_pairs(random: &mut Random) -> Vec<usize> {
    [[0, 0, 1, 1], [0, 1, 0, 1], [0, 1, 1, 0]][random.below(3)].to_vec()
}

fn two(_: &mut Random) -> Vec<usize> {
    vec![0, 1]
}

fn around_a_third(_: &mut Random) -> Vec<usize> {
    vec![0, 1, 0]
}

fn different_ones(count: usize) -> Vec<usize> {
    (0..count).collect()
}

/// Different ones, and by far no crowd.
fn some(random: &mut Random) -> Vec<usize> {
    let most = if random.coin() { 10 } else { 40 };
    different_ones(random.between(2, most))
}

/// Different ones: a crowd, mostly just so.
fn crowd(random: &mut Random) -> Vec<usize> {
    let more = match random.below(10) {
        0 => random.below(200),
        1..=3 => random.below(90),
        4..=6 => 0,
        _ => random.below(12),
    };
    different_ones(FEWEST_OF_A_CROWD + more)
}

fn in_front(mut chain: Vec<usize>) -> Vec<usize> {
    chain.insert(1, chain[0]);
    chain
}

fn at_the_end(mut chain: Vec<usize>) -> Vec<usize> {
    chain.extend(chain.last().copied());
    chain
}

/// No more of them than there were.
fn last_two(mut chain: Vec<usize>) -> Vec<usize> {
    chain.pop();
    at_the_end(chain)
}

fn around(mut chain: Vec<usize>) -> Vec<usize> {
    chain.push(chain[0]);
    chain
}

/// One of them once more, anywhere behind it.
fn amid(mut chain: Vec<usize>, random: &mut Random) -> Vec<usize> {
    let earlier = random.below(chain.len());
    let later = random.between(earlier + 1, chain.len());
    chain.insert(later, chain[earlier]);
    chain
}

/// One of them three times.
fn twice_amid(mut chain: Vec<usize>, random: &mut Random) -> Vec<usize> {
    let which = chain[random.below(chain.len())];
    for _ in 0..2 {
        chain.insert(random.between(0, chain.len()), which);
    }
    chain
}

/// Two of them once more, or one of them twice more.
fn two_amid(chain: Vec<usize>, random: &mut Random) -> Vec<usize> {
    amid(amid(chain, random), random)
}

// The patterns of what stands besides.

fn none_or_a_crowd(pattern: &[usize], random: &mut Random) -> Vec<usize> {
    if random.once_in(5) {
        a_crowd(pattern, random)
    } else {
        Vec::new()
    }
}

/// Two of the crowd are alike mostly where two of the pattern are: the lower
/// place counts.
fn a_crowd(pattern: &[usize], random: &mut Random) -> Vec<usize> {
    let repeats = (1..pattern.len()).any(|later| earlier_of(pattern, later).is_some());
    if repeats && !random.once_in(3) {
        amid(crowd(random), random)
    } else {
        crowd(random)
    }
}

/// With those few steps by chance that hundreds of records take, they make up
/// for the one that a crowd lacks.
fn some_steps(_: &[usize], random: &mut Random) -> Vec<usize> {
    let missing = MOST_STEPS - steps_of(FEWEST_OF_A_CROWD - 1);
    let by_chance = random.between(5, 25);
    let enough = (2..).take_while(|&count| steps_of(count) + by_chance <= missing);
    different_ones(enough.last().unwrap_or(2))
}

#[cfg(test)]
mod tests {
    use super::*;
    use crate::model::{answer, Question};

    /// Refusal 7 at the place of the repeat, and otherwise none before 8.
    #[test]
    fn every_kind_is_refused_by_7_just_where_it_repeats() {
        for kind in &KINDS {
            for seed in 0..20 {
                let mut sample = of_kind(kind, &mut Random::from_seed(seed));
                let answer = answer(&mut sample.input, &Question::Check);
                assert!(
                    sample.is_answered_by(answer),
                    "{}, seed {seed}: {answer:?}",
                    kind.name
                );
            }
        }
    }
}
