//! Full tables that are accepted and made to be hard on check 7, which chains the
//! records in buckets by a hash and gives the chains up after too many steps: one
//! where it does so early, one where it just doesn't, and one where it does late.

use crate::generate::{Buffers, Diagram, Random};
use crate::limits::{FREE, RECORDS, RECORD_SIZE, ROOTS, VARIABLES};

/// Check 7's buckets, and the most steps along their chains that it makes.
const BUCKETS: usize = 2 * RECORDS;
const MOST_STEPS: usize = 2 * RECORDS;

/// The bucket that is crowded most, any of them.
const CHOSEN: usize = 5_000;
/// How many records of any bucket stand below those of the chosen one: with
/// fewer there are too few pairs of references to choose from.
const BASE: usize = 500;
/// How many of the topmost levels name what nothing names yet.
const GLUE: usize = 3;

pub struct Crowded {
    pub name: String,
    pub buffers: Buffers,
    pub chains: Chains,
}

/// The chains of a table's records.
pub struct Chains {
    /// How many buckets have a record.
    pub taken: usize,
    /// How many records the fullest bucket has.
    pub fullest: usize,
    /// How many steps there are, if the chains aren't given up.
    pub steps: usize,
    /// The record at which they are given up.
    pub given_up: Option<usize>,
}

/// A base of any records, above it records of one bucket, at the top records of
/// any bucket that leave few enough for the roots.
pub fn one_bucket(seed: u64) -> Crowded {
    let mut growth = Growth::new(seed);
    for level in (0..VARIABLES).rev() {
        let made = growth.diagram.records.len();
        if made < BASE {
            growth.add_level(level, BASE - made, 0, |_, _| true);
        } else if level >= GLUE {
            growth.add_level(level, 200, 0, |_, bucket| bucket == CHOSEN);
        } else {
            growth.add_level(level, RECORDS, 2, |_, _| true);
        }
    }
    let crowded = growth.crowded("one bucket".to_string());
    let fullest = crowded.chains.fullest;
    assert!(fullest >= 7_000, "one bucket has only {fullest} records");
    crowded
}

/// The longest chains of one length that are walked to the end.
pub fn buckets_of_5(seed: u64) -> Crowded {
    let crowded = buckets_of(5, seed);
    let Chains {
        steps, given_up, ..
    } = crowded.chains;
    assert!(steps > 15_000, "the chains have only {steps} steps");
    assert!(given_up.is_none(), "the chains have {steps} steps");
    crowded
}

/// Chains that are given up late, so that the table is searched both ways.
pub fn buckets_of_6(seed: u64) -> Crowded {
    let crowded = buckets_of(6, seed);
    let given_up = crowded.chains.given_up;
    let late = given_up.is_some_and(|record| record > RECORDS * 3 / 4);
    assert!(late, "the chains are given up at {given_up:?}");
    crowded
}

/// As few buckets as can hold all records with no more than `limit` in each.
fn buckets_of(limit: usize, seed: u64) -> Crowded {
    let fewest = RECORDS.div_ceil(limit);
    let mut growth = Growth::new(seed);
    for level in (0..VARIABLES).rev() {
        growth.add_level(level, 400, 0, |buckets, bucket| {
            match buckets.counts[bucket] {
                0 => buckets.taken < fewest,
                count => count < limit,
            }
        });
    }
    let crowded = growth.crowded(format!("buckets of {limit}"));
    let fullest = crowded.chains.fullest;
    assert_eq!(fullest, limit, "the fullest bucket has {fullest} records");
    crowded
}

/// The hash of check 7, over the numbers as they are stored.
fn bucket(variable: u8, low: usize, high: usize) -> usize {
    let [variable, low, high] = [variable as u64, low as u64, high as u64];
    let sum = variable * 2_246_822_519 + low * 2_654_435_761 + high * 3_266_489_917;
    (sum / 262_144) as usize % BUCKETS
}

impl Chains {
    /// Each used record walks past all earlier ones of its bucket.
    fn of(buffers: &Buffers) -> Chains {
        let mut counts = vec![0; BUCKETS];
        let mut steps = 0;
        let mut given_up = None;
        for (record, bytes) in buffers.table.chunks_exact(RECORD_SIZE).enumerate() {
            if bytes[0] == FREE {
                continue;
            }
            let number = |at: usize| u16::from_le_bytes([bytes[at], bytes[at + 1]]) as usize;
            let count = &mut counts[bucket(bytes[0], number(2), number(4))];
            steps += *count;
            *count += 1;
            if steps > MOST_STEPS {
                given_up = given_up.or(Some(record));
            }
        }
        Chains {
            taken: counts.iter().filter(|&&count| count > 0).count(),
            fullest: counts.iter().copied().max().unwrap_or(0),
            steps,
            given_up,
        }
    }
}

struct Buckets {
    /// How many records each bucket has.
    counts: Vec<usize>,
    /// How many buckets have a record.
    taken: usize,
}

/// A diagram made level by level, from the lowest up. Its records are numbered
/// as they are made, so that their buckets are known at once.
struct Growth {
    random: Random,
    order: Vec<u8>,
    diagram: Diagram,
    buckets: Buckets,
    /// Of each reference whether it is a record's that nothing names yet.
    unnamed: Vec<bool>,
    /// How many records nothing names yet.
    loose: usize,
}

impl Growth {
    fn new(seed: u64) -> Growth {
        let mut random = Random::new(seed);
        Growth {
            order: random.permutation(VARIABLES),
            random,
            diagram: Diagram::default(),
            buckets: Buckets {
                counts: vec![0; BUCKETS],
                taken: 0,
            },
            unnamed: vec![false; 2],
            loose: 0,
        }
    }

    /// Adds up to `most` records in allowed buckets: first those that name two
    /// unnamed records, then one, then none, but none that names fewer than
    /// `fewest`.
    fn add_level(
        &mut self,
        level: usize,
        most: usize,
        fewest: usize,
        allowed: impl Fn(&Buckets, usize) -> bool,
    ) {
        let below = self.random.shuffled((0..self.unnamed.len()).collect());
        let limit = self.diagram.records.len() + most;
        for names in (fewest..=2).rev() {
            self.add_naming(names, self.order[level], &below, limit, &allowed);
        }
    }

    /// Adds records that name that many unnamed ones, up to the limit.
    fn add_naming(
        &mut self,
        names: usize,
        variable: u8,
        below: &[usize],
        limit: usize,
        allowed: &impl Fn(&Buckets, usize) -> bool,
    ) {
        let unnamed: Vec<usize> = below
            .iter()
            .copied()
            .filter(|&reference| self.unnamed[reference])
            .collect();
        let lows = if names == 2 { &unnamed[..] } else { below };
        for &low in lows {
            // The high reference must be unnamed where the low one names too few.
            let of_low = usize::from(self.unnamed[low]);
            let highs = if names > of_low { &unnamed[..] } else { below };
            for &high in highs {
                if self.diagram.records.len() == limit || !self.has_room(names) {
                    return;
                }
                if low != high
                    && self.names(low, high) == names
                    && allowed(&self.buckets, bucket(variable, low, high))
                {
                    self.add((variable, low, high));
                }
            }
        }
    }

    /// Whether after one more record, which names that many unnamed ones, there
    /// is room for those that must name the rest until the roots can.
    fn has_room(&self, names: usize) -> bool {
        let too_many = (self.loose + 1).saturating_sub(names + ROOTS);
        self.diagram.records.len() + 1 + too_many <= RECORDS
    }

    /// How many unnamed records a record with these references names.
    fn names(&self, low: usize, high: usize) -> usize {
        usize::from(self.unnamed[low]) + usize::from(self.unnamed[high])
    }

    fn add(&mut self, record: (u8, usize, usize)) {
        let (variable, low, high) = record;
        // Of a record that is there already the reference is known.
        if self.diagram.add(record) < self.unnamed.len() {
            return;
        }
        self.loose = self.loose + 1 - self.names(low, high);
        self.unnamed[low] = false;
        self.unnamed[high] = false;
        self.unnamed.push(true);

        let count = &mut self.buckets.counts[bucket(variable, low, high)];
        self.buckets.taken += usize::from(*count == 0);
        *count += 1;
    }

    fn crowded(self, name: String) -> Crowded {
        let buffers = self.buffers();
        Crowded {
            name,
            chains: Chains::of(&buffers),
            buffers,
        }
    }

    /// The table with the records that nothing names as roots.
    fn buffers(mut self) -> Buffers {
        assert!(self.loose <= ROOTS, "{} roots are too many", self.loose);
        let references = 0..self.unnamed.len();
        self.diagram.roots = references.filter(|&r| self.unnamed[r]).collect();
        let numbers: Vec<u16> = (0..RECORDS as u16).collect();
        self.diagram.placed(&numbers, &self.order)
    }
}
