//! One swap, by docs/RULES.md, 4: what dies is found before the new records are made.

use std::collections::{HashMap, HashSet};

use crate::input::Input;
use crate::layout::{Record, RecordNumber, Reference, Store, Variable};

/// A swap that was made: the buffers after it, and what it counted.
pub struct Swap {
    pub after: Input,
    pub crossing: usize,
    /// The number of new records.
    pub needed: usize,
    /// The number of records that died: those that a new record took, and
    /// those that became free.
    pub dying: usize,
    pub taken: usize,
    pub freed: usize,
}

/// What stands in the way where there is no room.
#[derive(Clone, Copy, Debug, PartialEq, Eq)]
pub struct Lack {
    pub level: usize,
    pub needed: usize,
    pub free: usize,
}

/// Swaps levels k and k+1 of an accepted input that has both of them. It is
/// made on buffers of its own, so that no room leaves no trace.
pub fn swap(before: &Input, k: usize) -> Result<Swap, Lack> {
    let pair = Pair {
        store: before.store(),
        x: before.variable_at(k),
        y: before.variable_at(k + 1),
    };
    let crossing = pair.crossing_records();
    let free = before.free_numbers();
    let dying = pair.dying_records();
    let mut lower = Lower::with_those_that_stay(pair, [&free[..], &dying].concat());
    let rewritten = pair.rewritten(&crossing, &mut lower);

    // Is there room for what is used afterwards?
    let needed = lower.made.len();
    let used_after = pair.store.used().count() + needed - dying.len();
    if used_after > pair.store.record_count() {
        return Err(Lack {
            level: k,
            needed,
            free: free.len(),
        });
    }

    // What dies goes before anything is written: a new record may stand there.
    let mut after = before.clone();
    for &number in &dying {
        after.set_free(number);
    }
    for &(number, record) in rewritten.iter().chain(&lower.made) {
        after.set_record(number, record);
    }
    let is_taken = |&&number: &&RecordNumber| !after.store().is_free(number);
    let taken = dying.iter().filter(is_taken).count();

    // The order.
    after.order.swap(k, k + 1);
    Ok(Swap {
        after,
        crossing: crossing.len(),
        needed,
        dying: dying.len(),
        taken,
        freed: dying.len() - taken,
    })
}

/// The variables of the two levels, x that of the upper one, in the store before
/// the swap.
#[derive(Clone, Copy)]
struct Pair<'a> {
    store: Store<'a>,
    x: Variable,
    y: Variable,
}

impl Pair<'_> {
    /// From the lowest record number upwards.
    fn crossing_records(self) -> Vec<(RecordNumber, Record)> {
        self.store
            .used()
            .filter(|&(_, record)| self.crosses(record))
            .collect()
    }

    /// Is it a record of x with a record of y as a child, or with two?
    fn crosses(self, record: Record) -> bool {
        record.variable == self.x
            && record
                .children()
                .into_iter()
                .any(|child| self.y_record(child).is_some())
    }

    /// What the reference names, if that is a y record.
    fn y_record(self, reference: Reference) -> Option<Record> {
        let record = self.store.record(reference.record()?);
        (record.variable == self.y).then_some(record)
    }

    /// The two grandchildren by way of a child, y's low one first: the child
    /// itself, twice, where it is no record of y.
    fn grandchildren(self, child: Reference) -> [Reference; 2] {
        match self.y_record(child) {
            Some(record) => [record.low, record.high],
            None => [child, child],
        }
    }

    /// What the crossing records become; new records are made inside X.
    fn rewritten(
        self,
        crossing: &[(RecordNumber, Record)],
        lower: &mut Lower,
    ) -> Vec<(RecordNumber, Record)> {
        let mut rewritten = Vec::new();
        for &(number, record) in crossing {
            let [f00, f01] = self.grandchildren(record.low);
            let [f10, f11] = self.grandchildren(record.high);
            let low = lower.x(f00, f10);
            let high = lower.x(f01, f11);
            let rewritten_as = Record {
                variable: self.y,
                low,
                high,
            };
            rewritten.push((number, rewritten_as));
        }
        rewritten
    }

    /// The records of y that only crossing ones name: these let go of them, and
    /// what is made names none. From the lowest record number upwards.
    fn dying_records(self) -> Vec<RecordNumber> {
        let named = self.named_by_what_stays();
        self.store
            .used()
            .filter(|(number, record)| record.variable == self.y && !named.contains(number))
            .map(|(number, _)| number)
            .collect()
    }

    /// The records that a root names, or a used record that doesn't cross.
    fn named_by_what_stays(self) -> HashSet<RecordNumber> {
        let by_roots = self.store.roots().filter_map(Reference::record);
        let by_records = self
            .store
            .used()
            .filter(|&(_, record)| !self.crosses(record))
            .flat_map(|(_, record)| record.child_records());
        by_roots.chain(by_records).collect()
    }
}

/// The x records below y: those that stay, and those made in this swap.
struct Lower {
    variable: Variable,
    known: HashMap<Record, Reference>,
    made: Vec<(RecordNumber, Record)>,
    /// What new records take, one after the other: the free records before the
    /// swap, then those that die, lowest number first in each.
    places: Vec<RecordNumber>,
    record_count: usize,
}

impl Lower {
    /// The records of x that don't cross stay as they are.
    fn with_those_that_stay(pair: Pair, places: Vec<RecordNumber>) -> Lower {
        let known = pair
            .store
            .used()
            .filter(|&(_, record)| record.variable == pair.x && !pair.crosses(record))
            .map(|(number, record)| (record, Reference::to(number)))
            .collect();
        Lower {
            variable: pair.x,
            known,
            made: Vec::new(),
            places,
            record_count: pair.store.record_count(),
        }
    }

    /// X(a, b): where a and b differ it is the record of x with these two as
    /// children, and only one that isn't known is made, in the next place.
    fn x(&mut self, a: Reference, b: Reference) -> Reference {
        if a == b {
            return a;
        }
        let record = Record {
            variable: self.variable,
            low: a,
            high: b,
        };
        if let Some(&reference) = self.known.get(&record) {
            return reference;
        }
        let number = self.next_number();
        self.made.push((number, record));
        self.known.insert(record, Reference::to(number));
        Reference::to(number)
    }

    /// Each new record takes the next place. Where none is left, a number past
    /// the table stands in, so that the counting of needed goes on; such a swap
    /// has no room and is not made.
    fn next_number(&self) -> RecordNumber {
        let taken = self.made.len();
        match self.places.get(taken) {
            Some(&number) => number,
            None => RecordNumber(self.record_count + taken),
        }
    }
}
