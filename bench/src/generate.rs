//! Tables of random functions of some of the variables: full ones to be timed,
//! with the room that the reversal of the order needs, and random jobs in tables
//! that are full to a share.

use std::collections::HashMap;

use crate::limits::{
    FREE, LOG_RECORDS, LOG_RECORD_SIZE, RECORDS, RECORD_SIZE, ROOTS, ROOT_SIZE, VARIABLES,
};
use crate::ordinary::{self, Answer, Plan};

/// The plan by which full tables are reversed, and timed.
pub const PLAN: Plan = Plan::BringUp;
/// The fewest inputs of a root that fills up the rest.
const FEWEST: usize = 4;

/// How many variables and records a table has.
#[derive(Clone, Copy)]
pub struct Size {
    pub variables: usize,
    pub records: usize,
}

/// A full table as large as there may be.
const LARGE: Size = Size {
    variables: VARIABLES,
    records: RECORDS,
};
/// A full table of half as many variables and records.
const SMALL: Size = Size {
    variables: VARIABLES / 2,
    records: RECORDS / 2,
};
/// The table of a job.
pub const JOB: Size = Size {
    variables: 16,
    records: 512,
};

/// The lent buffers but the target.
#[derive(Clone, PartialEq, Eq)]
pub struct Buffers {
    pub table: Vec<u8>,
    pub roots: Vec<u8>,
    pub order: Vec<u8>,
    pub log: Vec<u8>,
}

impl Buffers {
    /// A table in which nothing is used; its roots are the constants.
    pub fn of_free_records(variables: usize, records: usize) -> Buffers {
        Buffers {
            table: free_records(records),
            roots: vec![0, 0, 1, 0],
            order: (0..variables as u8).collect(),
            log: empty_log(records),
        }
    }

    /// The number of used records.
    pub fn used(&self) -> usize {
        let records = self.table.chunks_exact(RECORD_SIZE);
        records.filter(|record| record[0] != FREE).count()
    }

    pub fn records(&self) -> usize {
        self.table.len() / RECORD_SIZE
    }

    /// How many roots there are.
    pub fn positions(&self) -> usize {
        self.roots.len() / ROOT_SIZE
    }
}

/// A full table, and what its reversal makes of it.
pub struct Case {
    pub name: &'static str,
    /// How many roots it has of how many inputs.
    pub functions: String,
    pub before: Buffers,
    pub after: Buffers,
    /// The order of `before`, reversed.
    pub target: Vec<u8>,
    pub swaps: u32,
}

/// The full tables that are timed: a wide and a dense one of each size.
pub fn full_tables() -> [Case; 4] {
    [
        full("wide", SMALL, 1, 8),
        full("dense", SMALL, 2, 13),
        full("large wide", LARGE, 1, 10),
        full("large dense", LARGE, 3, 13),
    ]
}

/// Roots of that many inputs, and then of fewer and fewer, as long as every swap
/// of the reversal still finds room, and a log that is long enough.
fn full(name: &'static str, size: Size, seed: u64, most: usize) -> Case {
    let mut random = Random::new(seed);
    let order = random.permutation(size.variables);
    let target: Vec<u8> = order.iter().rev().copied().collect();
    let reversed = |diagram: &Diagram| {
        let before = diagram.table(seed, size.records, &order)?;
        let mut after = before.clone();
        match ordinary::run(&mut after, &target, PLAN, u32::MAX) {
            Answer::Done { swaps } => Some((before, after, swaps)),
            _ => None,
        }
    };

    let mut diagram = Diagram::default();
    let of_most = diagram.fill(&mut random, &order, most, |larger| {
        reversed(larger).is_some()
    });
    let (before, after, swaps) = reversed(&diagram).expect("what fits is reversed");
    let unused = size.records - most_used(&before, &target);
    assert!(unused <= 1, "the tightest swap leaves {unused} records");
    let smaller = diagram.roots.len() - of_most;
    Case {
        name,
        functions: format!("{of_most} roots of {most} inputs and {smaller} of fewer"),
        before,
        after,
        target,
        swaps,
    }
}

/// The most records used before, between and after the swaps of the reversal. A
/// swap has room where those used after it fit, so the tightest leaves most used.
fn most_used(before: &Buffers, target: &[u8]) -> usize {
    let mut buffers = before.clone();
    let mut most = buffers.used();
    while let Answer::Paused { .. } = ordinary::run(&mut buffers, target, PLAN, 1) {
        most = most.max(buffers.used());
    }
    most.max(buffers.used())
}

/// One root, a random function of all variables, in a table as large as there may
/// be: in the middle of it a swap changes very many records.
pub fn one_function(seed: u64, variables: usize) -> Buffers {
    let mut random = Random::new(seed);
    let order = random.permutation(variables);
    let mut diagram = Diagram::default();
    diagram.add_root(&mut random, &order, variables);
    let table = diagram.table(seed, RECORDS, &order);
    table.expect("the function fits")
}

/// A table with its roots and order, and the order to bring it to.
pub struct Job {
    pub before: Buffers,
    pub target: Vec<u8>,
}

/// Roots of that many inputs, and then of fewer and fewer, up to that share of
/// the records in per cent.
pub fn job(seed: u64, most: usize, percent: usize) -> Job {
    let mut random = Random::new(seed);
    let order = random.permutation(JOB.variables);
    let target = random.permutation(JOB.variables);
    let limit = JOB.records * percent / 100;

    let mut diagram = Diagram::default();
    diagram.fill(&mut random, &order, most, |larger| {
        larger.records.len() <= limit
    });
    let before = diagram.table(seed, JOB.records, &order);
    Job {
        before: before.expect("a share of the records fits"),
        target,
    }
}

/// A reduced diagram, its records with children first. Reference 0 is false,
/// 1 is true and r of 2 or more the record at r - 2.
#[derive(Clone, Default)]
pub struct Diagram {
    pub records: Vec<(u8, usize, usize)>,
    pub roots: Vec<usize>,
    known: HashMap<(u8, usize, usize), usize>,
}

impl Diagram {
    /// Adds roots of that many inputs, and then of fewer and fewer, each as long
    /// as the larger diagram fits; tells how many are of that many.
    fn fill(
        &mut self,
        random: &mut Random,
        order: &[u8],
        most: usize,
        fits: impl Fn(&Diagram) -> bool,
    ) -> usize {
        let mut of_most = 0;
        let mut inputs = most;
        while inputs >= FEWEST && self.roots.len() < ROOTS {
            let mut larger = self.clone();
            larger.add_root(random, order, inputs);
            if fits(&larger) {
                *self = larger;
                of_most += usize::from(inputs == most);
            } else {
                inputs -= 1;
            }
        }
        of_most
    }

    fn add_root(&mut self, random: &mut Random, order: &[u8], inputs: usize) {
        let mut levels = random.permutation(order.len());
        levels.truncate(inputs);
        levels.sort_unstable();
        let variables: Vec<u8> = levels.iter().map(|&level| order[level as usize]).collect();
        let values: Vec<usize> = (0..1 << inputs).map(|_| random.below(2)).collect();
        let root = self.build(&variables, &values);
        self.roots.push(root);
    }

    fn build(&mut self, variables: &[u8], values: &[usize]) -> usize {
        let Some((&variable, below)) = variables.split_first() else {
            return values[0];
        };
        let (low, high) = values.split_at(values.len() / 2);
        let low = self.build(below, low);
        let high = self.build(below, high);
        if low == high {
            return low;
        }
        self.add((variable, low, high))
    }

    /// The reference of the record, which is new or known.
    pub fn add(&mut self, record: (u8, usize, usize)) -> usize {
        *self.known.entry(record).or_insert_with(|| {
            self.records.push(record);
            self.records.len() + 1
        })
    }

    /// The records at random numbers of a table of that length; none if it is
    /// too short.
    fn table(&self, seed: u64, length: usize, order: &[u8]) -> Option<Buffers> {
        if self.records.len() > length {
            return None;
        }
        let numbers = Random::new(seed).shuffled((0..length as u16).collect());
        Some(self.placed(&numbers, order))
    }

    /// The records at these numbers, in a table that has as many records as there
    /// are numbers.
    pub fn placed(&self, numbers: &[u16], order: &[u8]) -> Buffers {
        let reference = |r: usize| match r {
            0 | 1 => (r as u16).to_le_bytes(),
            _ => (numbers[r - 2] + 2).to_le_bytes(),
        };
        let mut table = free_records(numbers.len());
        for (&number, &(variable, low, high)) in numbers.iter().zip(&self.records) {
            let bytes = &mut table[number as usize * RECORD_SIZE..][..RECORD_SIZE];
            bytes[0] = variable;
            bytes[2..4].copy_from_slice(&reference(low));
            bytes[4..6].copy_from_slice(&reference(high));
        }
        Buffers {
            table,
            roots: self.roots.iter().flat_map(|&r| reference(r)).collect(),
            order: order.to_vec(),
            log: empty_log(numbers.len()),
        }
    }
}

fn free_records(records: usize) -> Vec<u8> {
    [FREE, 0, 0, 0, 0, 0, 0, 0].repeat(records)
}

/// An entry for each record, one for the pair of levels, and the seal; or as many
/// as there may be.
fn empty_log(records: usize) -> Vec<u8> {
    vec![0; LOG_RECORD_SIZE * (records + 2).min(LOG_RECORDS)]
}

/// Numbers that a seed decides: xorshift64*.
pub struct Random(u64);

impl Random {
    pub fn new(seed: u64) -> Random {
        let mut random = Random(seed.wrapping_mul(0x9E37_79B9_7F4A_7C15) | 1);
        for _ in 0..10 {
            random.below(2);
        }
        random
    }

    fn below(&mut self, limit: usize) -> usize {
        self.0 ^= self.0 >> 12;
        self.0 ^= self.0 << 25;
        self.0 ^= self.0 >> 27;
        let number = self.0.wrapping_mul(0x2545_F491_4F6C_DD1D) >> 33;
        number as usize % limit
    }

    pub fn shuffled<T>(&mut self, mut list: Vec<T>) -> Vec<T> {
        for last in (1..list.len()).rev() {
            list.swap(last, self.below(last + 1));
        }
        list
    }

    pub fn permutation(&mut self, length: usize) -> Vec<u8> {
        self.shuffled((0..length as u8).collect())
    }
}
