//! Where in a table the added records stand, and where the others.

use std::ops::Range;

use crate::layout::RecordNumber;
use crate::random::Random;

/// The first used records have at most so many free ones before and between
/// them.
const MOST_FREE_BEFORE: usize = 20;

#[derive(Clone, Copy)]
pub enum Seating {
    FirstRecords,
    /// The first used ones, behind a free record.
    FirstUsed,
    LastRecords,
    /// The first and the last, and any between them.
    BothEnds,
    Anywhere,
}

pub struct Seats {
    /// In rising record number.
    pub added: Vec<RecordNumber>,
    /// In any order; those that aren't needed stay free.
    pub others: Vec<RecordNumber>,
}

/// Seats in a table of so many records, so many of them free and two or more
/// added; none where a free one is needed and missing.
pub fn seats(
    seating: Seating,
    records: usize,
    free: usize,
    added: usize,
    random: &mut Random,
) -> Option<Seats> {
    let mut first_other = 0;
    let added: Vec<usize> = match seating {
        Seating::FirstRecords => (0..added).collect(),
        Seating::FirstUsed if free == 0 => return None,
        Seating::FirstUsed => {
            let before = random.between(1, free.min(MOST_FREE_BEFORE));
            first_other = added + before;
            some_of(1..first_other, added, random)
        }
        Seating::LastRecords => (records - added..records).collect(),
        Seating::BothEnds => {
            let between = some_of(1..records - 1, added - 2, random);
            [vec![0], between, vec![records - 1]].concat()
        }
        Seating::Anywhere => some_of(0..records, added, random),
    };
    let mut others: Vec<usize> = (first_other..records).collect();
    others.retain(|number| added.binary_search(number).is_err());
    random.shuffle(&mut others);
    Some(Seats {
        added: numbers(added),
        others: numbers(others),
    })
}

/// So many of these numbers, rising.
fn some_of(range: Range<usize>, count: usize, random: &mut Random) -> Vec<usize> {
    let mut numbers: Vec<usize> = range.collect();
    random.shuffle(&mut numbers);
    numbers.truncate(count);
    numbers.sort();
    numbers
}

fn numbers(places: Vec<usize>) -> Vec<RecordNumber> {
    places.into_iter().map(RecordNumber).collect()
}
