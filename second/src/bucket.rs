//! The buckets into which the library puts records when it looks for repeating
//! ones. Nothing expected is taken from them: with another hash in the library
//! the comparison stays right, and its tables are only less pointed.

use crate::layout::{Record, Reference, Variable, MOST_RECORDS};

/// Two for each record of the longest table.
pub const BUCKETS: usize = 2 * MOST_RECORDS;

/// The sum that the library makes of a record goes round: so many of it are one
/// bucket, and so many a round.
const WIDTH: u64 = 262_144;
const ROUND: u64 = WIDTH * BUCKETS as u64;

/// The library's hash, of the three numbers as they are stored.
pub fn bucket(record: Record) -> usize {
    let sum = upper_part(record.variable, record.low) + high_part(record.high);
    (sum / WIDTH) as usize % BUCKETS
}

fn upper_part(variable: Variable, low: Reference) -> u64 {
    u64::from(variable.0) * 2_246_822_519 + u64::from(low.0) * 2_654_435_761
}

fn high_part(high: Reference) -> u64 {
    u64::from(high.0) * 3_266_489_917
}

/// High references by their part of the sum: so those that lead to a bucket are
/// found without a look at the others.
pub struct Highs(Vec<(u64, Reference)>);

impl Highs {
    pub fn of(references: &[Reference]) -> Highs {
        let part = |&high: &Reference| (high_part(high) % ROUND, high);
        let mut parts: Vec<(u64, Reference)> = references.iter().map(part).collect();
        parts.sort_unstable_by_key(|&(part, _)| part);
        Highs(parts)
    }

    /// The records of this bucket with this variable and low reference.
    pub fn records_of(
        &self,
        bucket: usize,
        variable: Variable,
        low: Reference,
    ) -> impl Iterator<Item = Record> + '_ {
        let first = bucket as u64 * WIDTH + ROUND - upper_part(variable, low) % ROUND;
        let first = first % ROUND;
        let highs = self.between(first, first + WIDTH);
        let next_round = self.between(0, (first + WIDTH).saturating_sub(ROUND));
        highs.chain(next_round).map(move |high| Record {
            variable,
            low,
            high,
        })
    }

    /// Those whose part is not below the first number, and below the second.
    fn between(&self, first: u64, end: u64) -> impl Iterator<Item = Reference> + '_ {
        let from = self.0.partition_point(|&(part, _)| part < first);
        let some = self.0[from..].iter();
        some.take_while(move |&&(part, _)| part < end)
            .map(|&(_, high)| high)
    }
}

/// How many of these records each bucket has.
pub fn sizes(records: impl Iterator<Item = Record>) -> Vec<usize> {
    let mut sizes = vec![0; BUCKETS];
    for record in records {
        sizes[bucket(record)] += 1;
    }
    sizes
}

/// The bucket with the most of these records.
pub fn fullest(records: impl Iterator<Item = Record>) -> usize {
    let sizes = sizes(records);
    let fullest = (0..BUCKETS).max_by_key(|&bucket| sizes[bucket]);
    fullest.expect("there are buckets")
}

#[cfg(test)]
mod tests {
    use super::*;
    use crate::random::Random;

    #[test]
    fn the_records_of_a_bucket_are_all_of_it() {
        let random = &mut Random::from_seed(0);
        let highs: Vec<Reference> = (0..MOST_RECORDS as u16 + 2).map(Reference).collect();
        let by_part = Highs::of(&highs);
        for _ in 0..200 {
            let variable = Variable(random.byte());
            let low = Reference(random.below(highs.len()) as u16);
            let record = |&high: &Reference| Record {
                variable,
                low,
                high,
            };
            let wanted = match random.coin() {
                true => bucket(record(&highs[random.below(highs.len())])),
                false => random.pick(&[0, BUCKETS - 1]).unwrap_or(0),
            };
            let mut found: Vec<u16> = by_part
                .records_of(wanted, variable, low)
                .map(|record| record.high.0)
                .collect();
            found.sort();
            let all = highs.iter().map(record);
            let all = all.filter(|&record| bucket(record) == wanted);
            assert_eq!(found, all.map(|record| record.high.0).collect::<Vec<_>>());
        }
    }
}
