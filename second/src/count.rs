//! The count of a root: under how many combinations of the inputs it is 1.

use std::collections::HashMap;

use crate::layout::{Reference, Store, Variable};
use crate::value::value;

/// Up to so many variables the root is read under every combination.
const ALL_COMBINATIONS_UP_TO: usize = 12;

/// The table is an accepted one, and the root one of its own.
pub fn count(store: Store, root: Reference) -> u64 {
    let count = if store.n() <= ALL_COMBINATIONS_UP_TO {
        by_reading(store, root)
    } else {
        by_levels(store, root)
    };
    u64::try_from(count).expect("check 16 has passed: there are 2^52 combinations at most")
}

/// The binary digits of a combination's number are its inputs.
fn by_reading(store: Store, root: Reference) -> u128 {
    let inputs = |combination: usize| -> Vec<u8> {
        (0..store.n())
            .map(|variable| (combination >> variable & 1) as u8)
            .collect()
    };
    (0..1 << store.n())
        .map(|combination| u128::from(value(store, root, &inputs(combination))))
        .sum()
}

/// From the top downwards: to each reference that the levels above can lead
/// to, how many of their combinations do.
type Arrived = HashMap<Reference, u128>;

/// Below the lowest level all of the 2^n combinations have come to a constant.
fn by_levels(store: Store, root: Reference) -> u128 {
    let mut arrived = Arrived::from([(root, 1)]);
    for &variable in store.order {
        arrived = one_level_down(store, Variable(variable), &arrived);
    }
    let count = |value| arrived.get(&Reference::constant(value)).copied();
    let [false_count, true_count] = [false, true].map(|value| count(value).unwrap_or(0));
    assert_eq!(false_count + true_count, 1 << store.n(), "none goes astray");
    true_count
}

/// Each combination becomes two, with this variable's input 0 and 1. What is
/// no record of the variable is where both of them stay.
fn one_level_down(store: Store, variable: Variable, arrived: &Arrived) -> Arrived {
    let mut below = Arrived::new();
    for (&reference, &combinations) in arrived {
        let record = reference.record().map(|number| store.record(number));
        let children = match record {
            Some(record) if record.variable == variable => record.children(),
            _ => [reference, reference],
        };
        for child in children {
            *below.entry(child).or_insert(0) += combinations;
        }
    }
    below
}

#[cfg(test)]
mod tests {
    use super::*;
    use crate::generate::{accepted, busy, deep};
    use crate::random::Random;

    /// Every root of random tables, small and large.
    #[test]
    fn both_ways_give_one_count() {
        let mut compared = 0;
        for seed in 0..3_000 {
            let random = &mut Random::from_seed(seed);
            let input = match random.below(3) {
                0 => busy(random),
                1 => deep(random),
                _ => accepted(random).0,
            };
            if input.order.len() > ALL_COMBINATIONS_UP_TO {
                continue;
            }
            for root in input.root_list() {
                let store = input.store();
                assert_eq!(
                    by_levels(store, root),
                    by_reading(store, root),
                    "seed {seed}"
                );
                compared += 1;
            }
        }
        assert!(compared > 2_000, "only {compared} were compared");
    }
}
