//! The ordinary program's count: recursion over references, with a HashMap of
//! the counts that are known.

use std::collections::HashMap;

use super::{judge, levels, references, Answer, Record};
use crate::generate::Buffers;
use crate::limits::{COUNTED, RECORD_SIZE};

/// How many combinations of the inputs make a root 1, and their share of all.
#[derive(Clone, Copy, Debug, Default)]
pub struct Counted {
    pub count: u64,
    pub share: f64,
}

pub fn count(buffers: &Buffers, position: usize) -> Result<Counted, Answer> {
    judge(buffers, None)?;
    let n = buffers.order.len();
    if n > COUNTED {
        return Err(Answer::Refused {
            number: 16,
            place: n,
        });
    }
    count_accepted(buffers, position).ok_or(Answer::Refused {
        number: 10,
        place: position,
    })
}

/// The count alone, in an accepted table of no more variables than are counted
/// by; none where there is no such root.
pub fn count_accepted(buffers: &Buffers, position: usize) -> Option<Counted> {
    let root = references(&buffers.roots).nth(position)?;
    let mut counts = Counts {
        table: &buffers.table,
        level: levels(&buffers.order).expect("an accepted order is a permutation"),
        known: HashMap::new(),
    };
    let count = counts.from(0, root);
    let all = 1_u64 << buffers.order.len();
    Some(Counted {
        count,
        share: count as f64 / all as f64,
    })
}

struct Counts<'a> {
    table: &'a [u8],
    /// The level of each variable.
    level: Vec<usize>,
    /// The count of a record's reference, over the levels from its own down.
    known: HashMap<u16, u64>,
}

impl Counts<'_> {
    /// Over the levels from that one down: each that is skipped doubles the count.
    fn from(&mut self, level: usize, reference: u16) -> u64 {
        if reference < 2 {
            return u64::from(reference) << (self.level.len() - level);
        }
        let offset = (reference as usize - 2) * RECORD_SIZE;
        let record = Record::load(&self.table[offset..][..RECORD_SIZE]);
        let own = self.level[record.variable as usize];
        let count = match self.known.get(&reference) {
            Some(&count) => count,
            None => {
                let count = self.from(own + 1, record.low) + self.from(own + 1, record.high);
                self.known.insert(reference, count);
                count
            }
        };
        count << (own - level)
    }
}
