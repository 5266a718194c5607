//! How many steps the library makes along its chains when it looks for
//! repeating records. Nothing expected is taken from them: where it goes another
//! way, the comparison stays right, and its tables are only less pointed.

use crate::bucket::{bucket, BUCKETS};
use crate::layout::{RecordNumber, Store, MOST_RECORDS};

/// A table of fewer records is searched plainly.
pub const FEWEST_FOR_CHAINS: usize = 24;

/// After more steps than these the chains are given up.
pub const MOST_STEPS: usize = 2 * MOST_RECORDS;

/// So many records of one bucket take more steps than that by themselves.
pub const FEWEST_OF_A_CROWD: usize = {
    let mut count = 1;
    while steps_of(count) <= MOST_STEPS {
        count += 1;
    }
    count
};

/// The steps of so many records of one bucket: each goes past all before it.
pub const fn steps_of(count: usize) -> usize {
    count * (count - 1) / 2
}

/// The walks of all used records, as if no repeat ended them.
pub struct Walks {
    pub steps: usize,
    /// The first record with whose walk there are too many steps.
    pub given_up: Option<RecordNumber>,
}

/// In rising record number each goes along the chain of its bucket: past all
/// those of it that stand before.
pub fn walks(store: Store) -> Walks {
    let mut chains = vec![0; BUCKETS];
    let mut steps = 0;
    let mut given_up = None;
    for (number, record) in store.used() {
        let chain = &mut chains[bucket(record)];
        steps += *chain;
        *chain += 1;
        if steps > MOST_STEPS {
            given_up = given_up.or(Some(number));
        }
    }
    Walks { steps, given_up }
}

#[cfg(test)]
mod tests {
    use super::*;
    use crate::input::Input;
    use crate::layout::{Record, Reference, Variable};

    /// A free record, and then the same one so many times.
    fn alike(count: usize) -> Input {
        let mut input = Input::free(count + 1, vec![0]);
        let record = Record {
            variable: Variable(0),
            low: Reference(0),
            high: Reference(1),
        };
        for number in 1..=count {
            input.set_record(RecordNumber(number), record);
        }
        input
    }

    #[test]
    fn a_crowd_is_what_gives_the_chains_up() {
        let fewer = alike(FEWEST_OF_A_CROWD - 1);
        assert_eq!(walks(fewer.store()).steps, 16_290);
        assert_eq!(walks(fewer.store()).given_up, None);
        let crowd = alike(FEWEST_OF_A_CROWD + 2);
        assert_eq!(walks(crowd.store()).steps, 16_836);
        let last_of_a_crowd = RecordNumber(FEWEST_OF_A_CROWD);
        assert_eq!(walks(crowd.store()).given_up, Some(last_of_a_crowd));
    }
}
