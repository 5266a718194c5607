//! The records that could be added to a table without failing a check before
//! the seventh: two different children, and both of them below.

use std::collections::HashSet;

use crate::bucket::{fullest, Highs, BUCKETS};
use crate::input::Input;
use crate::layout::{Record, Reference, Variable};
use crate::random::Random;

/// So many draws that were of no use end the search for a record.
const MOST_MISSES: usize = 100;
/// So many records tell well enough which bucket can be filled.
const MOST_SOUNDED: usize = 6 * BUCKETS;

pub struct Possible {
    levels: Vec<Level>,
    taken: HashSet<Record>,
}

/// A level's variable, and what its records can have as children, in any order.
struct Level {
    variable: Variable,
    below: Vec<Reference>,
}

impl Level {
    /// All that it can have, those with one low together.
    fn records(&self) -> impl Iterator<Item = Record> + '_ {
        self.below.iter().flat_map(|&low| self.row(low))
    }

    fn row(&self, low: Reference) -> impl Iterator<Item = Record> + '_ {
        let highs = self.below.iter().filter(move |&&high| high != low);
        highs.map(move |&high| Record {
            variable: self.variable,
            low,
            high,
        })
    }
}

impl Possible {
    pub fn beside(input: &Input, random: &mut Random) -> Possible {
        let used = input.store().used();
        Possible {
            levels: levels(input, random),
            taken: used.map(|(_, record)| record).collect(),
        }
    }

    /// So many different records that the table hasn't got.
    pub fn any(&self, count: usize, random: &mut Random) -> Option<Vec<Record>> {
        let mut found = Vec::new();
        for _ in 0..MOST_MISSES + count {
            if found.len() == count {
                break;
            }
            let drawn = self.draw(random);
            found.extend(drawn.filter(|record| !found.contains(record)));
        }
        (found.len() == count).then_some(found)
    }

    /// The same, and all of them of one bucket.
    pub fn of_one_bucket(&self, count: usize, random: &mut Random) -> Option<Vec<Record>> {
        let mut levels: Vec<&Level> = self.levels.iter().collect();
        random.shuffle(&mut levels);
        let sounded = levels.iter().flat_map(|level| level.records());
        let fullest = fullest(sounded.take(MOST_SOUNDED));
        let of_level = |level: &Level| {
            let highs = Highs::of(&level.below);
            let of_low = |&low| highs.records_of(fullest, level.variable, low);
            let found = level.below.iter().flat_map(of_low);
            let found = found.filter(|&record| record.low != record.high && self.is_new(record));
            found.collect::<Vec<Record>>()
        };
        let found = levels.into_iter().flat_map(of_level);
        let mut found: Vec<Record> = found.take(count).collect();
        random.shuffle(&mut found);
        (found.len() == count).then_some(found)
    }

    /// A record and another that differs from it as `change` says.
    pub fn two_but_for(&self, change: Change, random: &mut Random) -> Option<Vec<Record>> {
        (0..MOST_MISSES).find_map(|_| {
            let record = self.draw(random)?;
            let other = change(self, record, random)?;
            (other != record && self.is_new(other)).then_some(vec![record, other])
        })
    }

    fn is_new(&self, record: Record) -> bool {
        !self.taken.contains(&record)
    }

    fn draw(&self, random: &mut Random) -> Option<Record> {
        let level = &self.levels[random.below(self.levels.len())];
        let record = Record {
            variable: level.variable,
            low: random.pick(&level.below)?,
            high: random.pick(&level.below)?,
        };
        (record.low != record.high && self.is_new(record)).then_some(record)
    }

    /// What this record could have as a child.
    fn below(&self, record: Record) -> &[Reference] {
        let mut levels = self.levels.iter();
        let level = levels.find(|level| level.variable == record.variable);
        &level.expect("the order has each variable").below
    }
}

/// Makes a record into another; none where the draw was of no use.
pub type Change = fn(&Possible, Record, &mut Random) -> Option<Record>;

pub fn other_variable(possible: &Possible, record: Record, random: &mut Random) -> Option<Record> {
    let level = &possible.levels[random.below(possible.levels.len())];
    let has_both = record
        .children()
        .iter()
        .all(|child| level.below.contains(child));
    let variable = level.variable;
    has_both.then_some(Record { variable, ..record })
}

pub fn other_low(possible: &Possible, record: Record, random: &mut Random) -> Option<Record> {
    let low = random.pick(possible.below(record))?;
    (low != record.high).then_some(Record { low, ..record })
}

pub fn other_high(possible: &Possible, record: Record, random: &mut Random) -> Option<Record> {
    let high = random.pick(possible.below(record))?;
    (high != record.low).then_some(Record { high, ..record })
}

pub fn exchanged(_: &Possible, record: Record, _: &mut Random) -> Option<Record> {
    Some(Record {
        low: record.high,
        high: record.low,
        ..record
    })
}

fn levels(input: &Input, random: &mut Random) -> Vec<Level> {
    let numbers = input.used_numbers().into_iter();
    let placed: Vec<(Reference, Option<usize>)> = numbers
        .map(|number| (Reference::to(number), input.level_of(number)))
        .collect();
    let at = |level| {
        let lower = placed.iter().filter(|&&(_, at)| at > Some(level));
        let mut below: Vec<Reference> = lower.map(|&(reference, _)| reference).collect();
        below.extend([false, true].map(Reference::constant));
        random.shuffle(&mut below);
        Level {
            variable: input.variable_at(level),
            below,
        }
    };
    (0..input.order.len()).map(at).collect()
}
