//! Random inputs that were never accepted ones: from bytes without any sense
//! to records that are only nearly right.

use crate::generate::random_order;
use crate::input::Input;
use crate::layout::{
    Record, RecordNumber, Reference, MOST_RECORDS, MOST_VARIABLES, RECORD_BYTES, ROOT_BYTES,
};
use crate::random::Random;

pub struct Wild {
    pub name: &'static str,
    pub make: fn(&mut Random) -> Input,
}

pub const WILD: [Wild; 4] = [
    Wild {
        name: "random bytes",
        make: bytes,
    },
    Wild {
        name: "random bytes of right lengths",
        make: bytes_of_right_lengths,
    },
    Wild {
        name: "random records",
        make: records,
    },
    Wild {
        name: "random records, children below",
        make: records_children_below,
    },
];

fn bytes(random: &mut Random) -> Input {
    Input {
        table: random_bytes(100, MOST_RECORDS * RECORD_BYTES + 4_000, random),
        roots: random_bytes(20, 200, random),
        order: random_bytes(8, MOST_VARIABLES + 6, random),
        ..Input::default()
    }
}

/// Mostly a short list, now and then a long one.
fn random_bytes(short: usize, long: usize, random: &mut Random) -> Vec<u8> {
    let most = if random.once_in(10) { long } else { short };
    let count = random.between(0, most);
    random.bytes(count)
}

/// The bytes are still random; one third of the orders is a permutation.
fn bytes_of_right_lengths(random: &mut Random) -> Input {
    let n = random.between(1, 6);
    let records = random.below(6);
    let roots = random.below(4);
    Input {
        table: random.bytes(records * RECORD_BYTES),
        roots: random.bytes(roots * ROOT_BYTES),
        order: if random.once_in(3) {
            random_order(n, random)
        } else {
            (0..n).map(|_| random.below(n + 1) as u8).collect()
        },
        ..Input::default()
    }
}

/// Each record and root by itself, with no regard for the others.
fn records(random: &mut Random) -> Input {
    let mut input = free_table(random);
    let references = input.store().record_count() + 2;
    for number in input.free_numbers() {
        if random.once_in(5) {
            continue;
        }
        let record = Record {
            variable: input.variable_at(random.below(input.order.len())),
            low: Reference(random.below(references) as u16),
            high: Reference(random.below(references) as u16),
        };
        input.set_record(number, record);
    }
    let roots = random.below(6);
    let roots: Vec<Reference> = (0..roots)
        .map(|_| Reference(random.below(references) as u16))
        .collect();
    input.set_roots(&roots);
    input
}

/// Filled from the lowest level to the top, with children from below only:
/// ordered, but reduced, named and rooted by chance.
fn records_children_below(random: &mut Random) -> Input {
    let mut input = free_table(random);
    let mut numbers = input.free_numbers();
    random.shuffle(&mut numbers);
    let mut below = vec![Reference::constant(false), Reference::constant(true)];
    for level in (0..input.order.len()).rev() {
        let count = random.between(0, numbers.len().min(3));
        let here = numbers.split_off(numbers.len() - count);
        set_records(&mut input, level, &here, &below, random);
        below.extend(here.iter().copied().map(Reference::to));
    }
    let roots = random.below(8);
    let roots: Vec<Reference> = (0..roots).filter_map(|_| random.pick(&below)).collect();
    input.set_roots(&roots);
    input
}

fn set_records(
    input: &mut Input,
    level: usize,
    numbers: &[RecordNumber],
    below: &[Reference],
    random: &mut Random,
) {
    for &number in numbers {
        let record = Record {
            variable: input.variable_at(level),
            low: below[random.below(below.len())],
            high: below[random.below(below.len())],
        };
        input.set_record(number, record);
    }
}

fn free_table(random: &mut Random) -> Input {
    let n = random.between(1, 4);
    let records = random.below(8);
    Input::free(records, random_order(n, random))
}
