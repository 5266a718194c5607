//! The ordinary program: the same answers and bytes as the library's, with
//! what the standard library offers. Records are a Vec, each variable has a
//! list of its records, the lower records of a swap are found by a HashMap,
//! the free records are a BTreeSet, and each record counts its names, which
//! tells what dies in a swap. Each swap is written to the buffers, with the undo
//! log around it.

mod count;
mod log;

pub use count::{count, count_accepted, Counted};
pub use log::recover;

use std::collections::{BTreeSet, HashMap, HashSet};

use crate::generate::Buffers;
use crate::library::{DONE, LOG_SHORT, NO_ROOM, PAUSED};
use crate::limits::{FREE, RECORDS, RECORD_SIZE, ROOTS, ROOT_SIZE, VARIABLES};

#[derive(Clone, Copy, Debug, PartialEq, Eq)]
pub enum Answer {
    Accepted { used: usize },
    Refused { number: u32, place: usize },
    Made,
    NoRoom(Lack),
    LogShort(Lack),
    Done { swaps: u32 },
    Stuck { swaps: u32, left: usize, lack: Lack },
    Short { swaps: u32, left: usize, lack: Lack },
    Paused { swaps: u32, left: usize },
    PutBack { entries: usize },
}

#[derive(Clone, Copy, Debug, PartialEq, Eq)]
pub struct Lack {
    level: usize,
    needed: usize,
    /// The free records, or the entries that the log holds.
    there: usize,
}

/// What stands in a swap's way.
enum Hindrance {
    NoRoom(Lack),
    LogShort(Lack),
}

impl Answer {
    /// The numbers with which the library gives this answer.
    pub fn numbers(self) -> Vec<u32> {
        let small = |number: usize| number as u32;
        match self {
            Answer::Accepted { used } => vec![0, small(used)],
            Answer::Refused { number, place } => vec![number, small(place)],
            Answer::Made => vec![0],
            Answer::NoRoom(lack) => [vec![NO_ROOM], lack.numbers()].concat(),
            Answer::LogShort(lack) => [vec![LOG_SHORT], lack.numbers()].concat(),
            Answer::Done { swaps } => vec![DONE, swaps, 0],
            Answer::Stuck { swaps, left, lack } => {
                [vec![NO_ROOM, swaps, small(left)], lack.numbers()].concat()
            }
            Answer::Short { swaps, left, lack } => {
                [vec![LOG_SHORT, swaps, small(left)], lack.numbers()].concat()
            }
            Answer::Paused { swaps, left } => vec![PAUSED, swaps, small(left)],
            Answer::PutBack { entries } => vec![0, small(entries)],
        }
    }
}

impl Lack {
    fn numbers(self) -> Vec<u32> {
        [self.level, self.needed, self.there]
            .map(|number| number as u32)
            .to_vec()
    }
}

/// How a run chooses its next pair, by the library's numbers.
#[derive(Clone, Copy, Debug)]
pub enum Plan {
    BringUp = 0,
    SinkDown = 1,
    LowestInversion = 2,
    HighestInversion = 3,
}

impl Plan {
    pub const ALL: [Plan; 4] = [
        Plan::BringUp,
        Plan::SinkDown,
        Plan::LowestInversion,
        Plan::HighestInversion,
    ];

    /// The upper level of the next pair; none where the order is the target.
    pub fn next(self, order: &[u8], target: &[u8]) -> Option<usize> {
        let mut levels = 0..order.len();
        let differ = |&level: &usize| order[level] != target[level];
        let place = |level: usize| order.iter().position(|&v| v == target[level]);
        let inverted = |pair: &[usize]| pair[0] > pair[1];
        match self {
            Plan::BringUp => levels.find(differ).and_then(place).map(|p| p - 1),
            Plan::SinkDown => levels.rfind(differ).and_then(place),
            Plan::LowestInversion => wanted(order, target).windows(2).rposition(inverted),
            Plan::HighestInversion => wanted(order, target).windows(2).position(inverted),
        }
    }
}

pub fn check(buffers: &Buffers) -> Answer {
    match judge(buffers, None) {
        Ok(used) => Answer::Accepted { used },
        Err(refused) => refused,
    }
}

pub fn swap(buffers: &mut Buffers, level: usize) -> Answer {
    if let Err(refused) = judge_with_log(buffers, None) {
        return refused;
    }
    if level + 1 >= buffers.order.len() {
        return Answer::Refused {
            number: 12,
            place: level,
        };
    }
    let mut diagram = Diagram::load(buffers);
    match diagram.prepare(level, log::held(&buffers.log)) {
        Ok(prepared) => diagram.make(prepared, buffers),
        Err(Hindrance::NoRoom(lack)) => return Answer::NoRoom(lack),
        Err(Hindrance::LogShort(lack)) => return Answer::LogShort(lack),
    }
    Answer::Made
}

pub fn run(buffers: &mut Buffers, target: &[u8], plan: Plan, budget: u32) -> Answer {
    if let Err(refused) = judge_with_log(buffers, Some(target)) {
        return refused;
    }
    let held = log::held(&buffers.log);
    let mut diagram = Diagram::load(buffers);
    let mut swaps = 0;
    loop {
        let Some(level) = plan.next(&diagram.order, target) else {
            return Answer::Done { swaps };
        };
        let left = || inversions(&diagram.order, target);
        let prepared = match diagram.prepare(level, held) {
            Ok(prepared) => prepared,
            Err(Hindrance::NoRoom(lack)) => {
                let left = left();
                return Answer::Stuck { swaps, left, lack };
            }
            Err(Hindrance::LogShort(lack)) => {
                let left = left();
                return Answer::Short { swaps, left, lack };
            }
        };
        if swaps == budget {
            let left = left();
            return Answer::Paused { swaps, left };
        }
        diagram.make(prepared, buffers);
        swaps += 1;
    }
}

fn inversions(order: &[u8], target: &[u8]) -> usize {
    let wanted = wanted(order, target);
    let above = |level: usize| {
        let mine = wanted[level];
        wanted[..level]
            .iter()
            .filter(|&&other| other > mine)
            .count()
    };
    (0..wanted.len()).map(above).sum()
}

/// The target's level of the variable at each level.
fn wanted(order: &[u8], target: &[u8]) -> Vec<usize> {
    let mut wanted = [0; VARIABLES];
    for (level, &variable) in target.iter().enumerate() {
        wanted[variable as usize] = level;
    }
    order.iter().map(|&v| wanted[v as usize]).collect()
}

/// The same where a log is lent: it is judged after the sizes.
fn judge_with_log(buffers: &Buffers, target: Option<&[u8]>) -> Result<usize, Answer> {
    judge_sizes(buffers, target)?;
    if log::judge(buffers)?.is_some() {
        return Err(Answer::Refused {
            number: 15,
            place: 0,
        });
    }
    judge(buffers, target)
}

fn judge_sizes(buffers: &Buffers, target: Option<&[u8]>) -> Result<(), Answer> {
    let (table, roots, n) = (&buffers.table, &buffers.roots, buffers.order.len());
    if !(1..=VARIABLES).contains(&n)
        || target.is_some_and(|target| target.len() != n)
        || table.len() % RECORD_SIZE != 0
        || table.len() > RECORDS * RECORD_SIZE
        || roots.len() % ROOT_SIZE != 0
        || roots.len() > ROOTS * ROOT_SIZE
    {
        return Err(Answer::Refused {
            number: 1,
            place: 0,
        });
    }
    Ok(())
}

/// The number of used records, or the refusal.
fn judge(buffers: &Buffers, target: Option<&[u8]>) -> Result<usize, Answer> {
    let refused = |number: u32, place: usize| Err(Answer::Refused { number, place });
    judge_sizes(buffers, target)?;
    let (table, roots, order) = (&buffers.table, &buffers.roots, &buffers.order);
    let n = order.len();

    let level = match levels(order) {
        Ok(level) => level,
        Err(place) => return refused(2, place),
    };
    if let Some(Err(place)) = target.map(levels) {
        return refused(3, place);
    }

    let records: Vec<Record> = table.chunks_exact(RECORD_SIZE).map(Record::load).collect();
    let wrong = |reference: u16| {
        reference >= 2
            && records
                .get(reference as usize - 2)
                .is_none_or(|record| record.variable == FREE)
    };
    for (number, (record, bytes)) in records
        .iter()
        .zip(table.chunks_exact(RECORD_SIZE))
        .enumerate()
    {
        let malformed = if record.variable == FREE {
            bytes[1..] != [0; 7]
        } else {
            record.variable as usize >= n
                || [bytes[1], bytes[6], bytes[7]] != [0; 3]
                || wrong(record.low)
                || wrong(record.high)
        };
        if malformed {
            return refused(4, number);
        }
    }

    let used = || {
        let numbered = records.iter().enumerate();
        numbered.filter(|(_, record)| record.variable != FREE)
    };
    let level_of = |reference: u16| match reference {
        0 | 1 => usize::MAX,
        _ => level[records[reference as usize - 2].variable as usize],
    };
    for (number, record) in used() {
        let level = level[record.variable as usize];
        if level_of(record.low) <= level || level_of(record.high) <= level {
            return refused(5, number);
        }
    }

    for (number, record) in used() {
        if record.low == record.high {
            return refused(6, number);
        }
    }

    let mut seen = HashSet::with_capacity(records.len());
    for (number, record) in used() {
        if !seen.insert((record.variable, record.low, record.high)) {
            return refused(7, number);
        }
    }

    for (position, root) in references(roots).enumerate() {
        if wrong(root) {
            return refused(8, position);
        }
    }

    let mut named = vec![false; records.len()];
    let children = used().flat_map(|(_, record)| [record.low, record.high]);
    for reference in children.chain(references(roots)) {
        if reference >= 2 {
            named[reference as usize - 2] = true;
        }
    }
    let mut count = 0;
    for (number, _) in used() {
        if !named[number] {
            return refused(9, number);
        }
        count += 1;
    }
    Ok(count)
}

/// The level of each variable, or the first place that makes the bytes no
/// permutation.
fn levels(order: &[u8]) -> Result<Vec<usize>, usize> {
    let mut level = vec![usize::MAX; order.len()];
    for (place, &variable) in order.iter().enumerate() {
        match level.get_mut(variable as usize) {
            Some(level) if *level == usize::MAX => *level = place,
            _ => return Err(place),
        }
    }
    Ok(level)
}

fn references(roots: &[u8]) -> impl Iterator<Item = u16> + '_ {
    let pairs = roots.chunks_exact(ROOT_SIZE);
    pairs.map(|bytes| u16::from_le_bytes([bytes[0], bytes[1]]))
}

#[derive(Clone, Copy)]
struct Record {
    variable: u8,
    low: u16,
    high: u16,
    /// How many records and roots name this one.
    names: u16,
}

impl Record {
    fn load(bytes: &[u8]) -> Record {
        Record {
            variable: bytes[0],
            low: u16::from_le_bytes([bytes[2], bytes[3]]),
            high: u16::from_le_bytes([bytes[4], bytes[5]]),
            names: 0,
        }
    }

    fn store(&self, bytes: &mut [u8]) {
        let [low_0, low_1] = self.low.to_le_bytes();
        let [high_0, high_1] = self.high.to_le_bytes();
        bytes.copy_from_slice(&[self.variable, 0, low_0, low_1, high_0, high_1, 0, 0]);
    }
}

struct Diagram {
    records: Vec<Record>,
    /// The records of each variable, in rising number.
    lists: Vec<Vec<u16>>,
    free: BTreeSet<u16>,
    order: Vec<u8>,
}

/// A swap that has room, before anything is changed.
struct Prepared {
    level: usize,
    crossing: Vec<u16>,
    /// The other records of the upper variable.
    staying: Vec<u16>,
    /// Low and high of each crossing record afterwards.
    children: Vec<(u16, u16)>,
    /// Low and high of each new record.
    made: Vec<(u16, u16)>,
    /// The records of the lower variable that die in this swap.
    dying: Vec<u16>,
    /// The other records of the lower variable.
    living: Vec<u16>,
}

impl Diagram {
    fn load(buffers: &Buffers) -> Diagram {
        let mut diagram = Diagram {
            records: buffers
                .table
                .chunks_exact(RECORD_SIZE)
                .map(Record::load)
                .collect(),
            lists: vec![Vec::new(); buffers.order.len()],
            free: BTreeSet::new(),
            order: buffers.order.clone(),
        };
        for number in 0..diagram.records.len() {
            let Record {
                variable,
                low,
                high,
                ..
            } = diagram.records[number];
            if variable == FREE {
                diagram.free.insert(number as u16);
            } else {
                diagram.lists[variable as usize].push(number as u16);
                diagram.name(low);
                diagram.name(high);
            }
        }
        for root in references(&buffers.roots) {
            diagram.name(root);
        }
        diagram
    }

    /// A swap, in the diagram and in the buffers: the old bytes are logged first.
    fn make(&mut self, swap: Prepared, buffers: &mut Buffers) {
        let level = swap.level;
        let changed = self.commit(swap);
        log::seal(buffers, &changed, level);
        for &number in &changed {
            let bytes = &mut buffers.table[number as usize * RECORD_SIZE..][..RECORD_SIZE];
            self.records[number as usize].store(bytes);
        }
        buffers.order.swap(level, level + 1);
        log::clear(&mut buffers.log);
    }

    fn name(&mut self, reference: u16) {
        if reference >= 2 {
            self.records[reference as usize - 2].names += 1;
        }
    }

    fn unname(&mut self, reference: u16) {
        if reference >= 2 {
            self.records[reference as usize - 2].names -= 1;
        }
    }

    fn has(&self, reference: u16, variable: u8) -> bool {
        reference >= 2 && self.records[reference as usize - 2].variable == variable
    }

    fn grandchildren(&self, reference: u16, variable: u8) -> (u16, u16) {
        if self.has(reference, variable) {
            let record = &self.records[reference as usize - 2];
            (record.low, record.high)
        } else {
            (reference, reference)
        }
    }

    fn prepare(&self, level: usize, held: usize) -> Result<Prepared, Hindrance> {
        let (x, y) = (self.order[level], self.order[level + 1]);
        let upper = &self.lists[x as usize];
        let (crossing, staying): (Vec<u16>, Vec<u16>) = upper.iter().partition(|&&number| {
            let record = &self.records[number as usize];
            self.has(record.low, y) || self.has(record.high, y)
        });
        let mut children = Vec::with_capacity(crossing.len());
        let mut made = Vec::new();
        let (mut dying, mut living) = (Vec::new(), Vec::new());
        if !crossing.is_empty() {
            (dying, living) = self.dying_and_living(&crossing, y);
            let mut lower = HashMap::with_capacity(upper.len() * 2);
            for &number in &staying {
                let record = &self.records[number as usize];
                lower.insert((record.low, record.high), number + 2);
            }
            let mut supply = self.free.iter().chain(&dying);
            let mut find = |a: u16, b: u16| {
                if a == b {
                    return a;
                }
                *lower.entry((a, b)).or_insert_with(|| {
                    made.push((a, b));
                    // Without room the number is never used.
                    supply.next().map_or(0, |&number| number + 2)
                })
            };
            for &number in &crossing {
                let record = &self.records[number as usize];
                let (f00, f01) = self.grandchildren(record.low, y);
                let (f10, f11) = self.grandchildren(record.high, y);
                let low = find(f00, f10);
                let high = find(f01, f11);
                children.push((low, high));
            }
        }
        if made.len() > self.free.len() + dying.len() {
            return Err(Hindrance::NoRoom(Lack {
                level,
                needed: made.len(),
                there: self.free.len(),
            }));
        }
        // What crosses, what dies and the free records that are taken all change;
        // the pair of levels has an entry too.
        let needed = crossing.len() + dying.len() + made.len().min(self.free.len()) + 1;
        if needed > held {
            return Err(Hindrance::LogShort(Lack {
                level,
                needed,
                there: held,
            }));
        }
        Ok(Prepared {
            level,
            crossing,
            staying,
            children,
            made,
            dying,
            living,
        })
    }

    /// The records of y that die when these records cross, and those that don't;
    /// both in rising number.
    fn dying_and_living(&self, crossing: &[u16], y: u8) -> (Vec<u16>, Vec<u16>) {
        // How many names each reference loses: a record that loses all of them
        // dies. Only those of y are read; to count the others too is quicker.
        let mut lost = vec![0_u16; self.records.len() + 2];
        for &number in crossing {
            let record = &self.records[number as usize];
            lost[record.low as usize] += 1;
            lost[record.high as usize] += 1;
        }
        let lower = self.lists[y as usize].iter();
        lower.partition(|&&number| self.records[number as usize].names == lost[number as usize + 2])
    }

    /// The records that changed, in rising number.
    fn commit(&mut self, swap: Prepared) -> Vec<u16> {
        let level = swap.level;
        let (x, y) = (self.order[level], self.order[level + 1]);
        self.order.swap(level, level + 1);
        if swap.crossing.is_empty() {
            return Vec::new();
        }

        // All old references are let go first: a new record may take the place of
        // one that has some, or that is named by some.
        for &number in swap.crossing.iter().chain(&swap.dying) {
            let record = self.records[number as usize];
            self.unname(record.low);
            self.unname(record.high);
        }

        // New records take the free records in rising number, then the dying ones.
        // Only what none of them takes becomes free.
        let mut dying = swap.dying.into_iter();
        let mut new = Vec::with_capacity(swap.made.len());
        for (low, high) in swap.made {
            let number = self.free.pop_first().or_else(|| dying.next());
            let number = number.expect("the swap has room");
            self.records[number as usize] = Record {
                variable: x,
                low,
                high,
                names: 0,
            };
            self.name(low);
            self.name(high);
            new.push(number);
        }
        let freed: Vec<u16> = dying.collect();
        for &number in &freed {
            self.records[number as usize] = Record {
                variable: FREE,
                low: 0,
                high: 0,
                names: 0,
            };
            self.free.insert(number);
        }

        for (&number, &(low, high)) in swap.crossing.iter().zip(&swap.children) {
            let record = &mut self.records[number as usize];
            record.variable = y;
            record.low = low;
            record.high = high;
            self.name(low);
            self.name(high);
        }

        // Free records came first, then dying ones: two rising runs, which the
        // stable sort merges.
        new.sort();
        self.lists[x as usize] = merged(&swap.staying, &new);
        self.lists[y as usize] = merged(&swap.living, &swap.crossing);
        merged(&swap.crossing, &merged(&new, &freed))
    }
}

/// Two rising lists as one.
fn merged(a: &[u16], b: &[u16]) -> Vec<u16> {
    let mut both = Vec::with_capacity(a.len() + b.len());
    let (mut i, mut j) = (0, 0);
    while i < a.len() && j < b.len() {
        if a[i] < b[j] {
            both.push(a[i]);
            i += 1;
        } else {
            both.push(b[j]);
            j += 1;
        }
    }
    both.extend_from_slice(&a[i..]);
    both.extend_from_slice(&b[j..]);
    both
}
