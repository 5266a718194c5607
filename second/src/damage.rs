//! Damages to accepted inputs: for each refusal each cause that the rules
//! name, and further ones that aim at nothing.

use crate::input::Input;
use crate::layout::{
    Record, RecordNumber, Reference, FREE, FREE_RECORD, MOST_RECORDS, MOST_ROOTS, MOST_VARIABLES,
    RECORD_BYTES,
};
use crate::random::Random;

/// A damage with one certain answer: made once to an accepted input, it gives
/// the refusal of this number at the place handed back. It hands back none,
/// and leaves the input alone, where the input has not got what it needs.
pub struct Aimed {
    pub number: u32,
    pub name: &'static str,
    pub make: fn(&mut Input, &mut Random) -> Option<usize>,
}

const fn aimed(
    number: u32,
    name: &'static str,
    make: fn(&mut Input, &mut Random) -> Option<usize>,
) -> Aimed {
    Aimed { number, name, make }
}

pub const AIMED: [Aimed; 38] = [
    aimed(1, "n = 0", no_order),
    aimed(1, "n over its limit", order_too_long),
    aimed(1, "table length not a multiple of 8", table_ragged),
    aimed(1, "table over its limit", table_too_long),
    aimed(1, "odd number of root bytes", roots_odd),
    aimed(1, "more than 64 roots", roots_too_many),
    aimed(2, "order out of range", order_out_of_range),
    aimed(2, "order repeating", order_repeating),
    aimed(4, "variable n or more", variable_too_large),
    aimed(4, "used record, byte 1 not zero", used_byte_not_zero::<1>),
    aimed(4, "used record, byte 6 not zero", used_byte_not_zero::<6>),
    aimed(4, "used record, byte 7 not zero", used_byte_not_zero::<7>),
    aimed(4, "free record, byte 1 not zero", free_byte_not_zero::<1>),
    aimed(4, "free record, byte 2 not zero", free_byte_not_zero::<2>),
    aimed(4, "free record, byte 3 not zero", free_byte_not_zero::<3>),
    aimed(4, "free record, byte 4 not zero", free_byte_not_zero::<4>),
    aimed(4, "free record, byte 5 not zero", free_byte_not_zero::<5>),
    aimed(4, "free record, byte 6 not zero", free_byte_not_zero::<6>),
    aimed(4, "free record, byte 7 not zero", free_byte_not_zero::<7>),
    aimed(4, "low past the table", low_past_the_table),
    aimed(4, "high past the table", high_past_the_table),
    aimed(4, "low to a free record", low_to_a_free_record),
    aimed(4, "high to a free record", high_to_a_free_record),
    aimed(5, "low on the same level", low_on_the_same_level),
    aimed(5, "low on a higher level", low_on_a_higher_level),
    aimed(5, "high on the same level", high_on_the_same_level),
    aimed(5, "high on a higher level", high_on_a_higher_level),
    aimed(6, "high made equal to low", high_made_low),
    aimed(6, "low made equal to high", low_made_high),
    aimed(
        7,
        "record repeated in a free one",
        repeated_in_a_free_record,
    ),
    aimed(7, "record repeated in its level", repeated_in_its_level),
    aimed(8, "root past the table", root_past_the_table),
    aimed(8, "root to a free record", root_to_a_free_record),
    aimed(
        8,
        "further root past the table",
        further_root_past_the_table,
    ),
    aimed(
        8,
        "further root to a free record",
        further_root_to_a_free_record,
    ),
    aimed(9, "top's roots taken away", roots_taken_away),
    aimed(9, "top's roots made constant", roots_made_constant),
    aimed(
        9,
        "further record without a name",
        further_record_without_a_name,
    ),
];

/// A damage with no certain answer: some inputs stay accepted. It hands back
/// none where the input has not got what it needs.
pub struct Loose {
    pub name: &'static str,
    pub make: fn(&mut Input, &mut Random) -> Option<()>,
}

pub const LOOSE: [Loose; 9] = [
    Loose {
        name: "table byte changed",
        make: table_byte_changed,
    },
    Loose {
        name: "table bit turned",
        make: table_bit_turned,
    },
    Loose {
        name: "reference changed",
        make: reference_changed,
    },
    Loose {
        name: "variable changed",
        make: variable_changed,
    },
    Loose {
        name: "used record made free",
        make: record_made_free,
    },
    Loose {
        name: "last record cut off",
        make: last_record_cut_off,
    },
    Loose {
        name: "two records exchanged",
        make: records_exchanged,
    },
    Loose {
        name: "two order bytes exchanged",
        make: order_bytes_exchanged,
    },
    Loose {
        name: "root changed",
        make: root_changed,
    },
];

// Refusal 1.

fn no_order(input: &mut Input, _: &mut Random) -> Option<usize> {
    input.order.clear();
    Some(0)
}

/// Up to 255 still a permutation, so that only its length is wrong; beyond 256
/// the length would seem right to a reader of its last byte alone.
fn order_too_long(input: &mut Input, random: &mut Random) -> Option<usize> {
    let n = edge_or_any(MOST_VARIABLES + 1, 300, random);
    for variable in input.order.len()..n {
        input.order.push(variable as u8);
    }
    Some(0)
}

fn table_ragged(input: &mut Input, random: &mut Random) -> Option<usize> {
    let odd_bytes = random.between(1, RECORD_BYTES - 1);
    if random.coin() && !input.table.is_empty() {
        input.table.truncate(input.table.len() - odd_bytes);
    } else {
        input.table.extend(&FREE_RECORD[..odd_bytes]);
    }
    Some(0)
}

/// Up to a length that would seem right to a reader of its last 16 bits alone.
fn table_too_long(input: &mut Input, random: &mut Random) -> Option<usize> {
    let records = edge_or_any(MOST_RECORDS + 1, 2 * MOST_RECORDS + 8, random);
    while input.store().record_count() < records {
        input.table.extend(FREE_RECORD);
    }
    Some(0)
}

fn roots_odd(input: &mut Input, random: &mut Random) -> Option<usize> {
    if random.coin() && !input.roots.is_empty() {
        input.roots.pop();
    } else {
        input.roots.push(random.below(2) as u8);
    }
    Some(0)
}

fn roots_too_many(input: &mut Input, random: &mut Random) -> Option<usize> {
    let count = edge_or_any(MOST_ROOTS + 1, MOST_ROOTS + 200, random);
    let mut roots = input.root_list();
    while roots.len() < count {
        roots.push(Reference::constant(random.coin()));
    }
    input.set_roots(&roots);
    Some(0)
}

// Refusal 2.

fn order_out_of_range(input: &mut Input, random: &mut Random) -> Option<usize> {
    let n = input.order.len();
    if n == 0 || n > 255 {
        return None;
    }
    let position = random.below(n);
    input.order[position] = edge_or_any(n, 255, random) as u8;
    Some(position)
}

fn order_repeating(input: &mut Input, random: &mut Random) -> Option<usize> {
    let (one, other) = two_of(input.order.len(), random)?;
    input.order[one] = input.order[other];
    Some(one.max(other))
}

// Refusal 4.

/// Both a used record and a free one can get a variable that is none.
fn variable_too_large(input: &mut Input, random: &mut Random) -> Option<usize> {
    let number = a_record(input, random)?;
    let n = input.order.len();
    if n > 254 {
        return None;
    }
    input.bytes_mut(number)[0] = edge_or_any(n, 254, random) as u8;
    Some(number.0)
}

fn used_byte_not_zero<const BYTE: usize>(input: &mut Input, random: &mut Random) -> Option<usize> {
    let number = a_used_record(input, random)?;
    input.bytes_mut(number)[BYTE] = random.between(1, 255) as u8;
    Some(number.0)
}

fn free_byte_not_zero<const BYTE: usize>(input: &mut Input, random: &mut Random) -> Option<usize> {
    let number = a_free_record(input, random)?;
    input.bytes_mut(number)[BYTE] = random.between(1, 255) as u8;
    Some(number.0)
}

fn low_past_the_table(input: &mut Input, random: &mut Random) -> Option<usize> {
    let number = a_used_record(input, random)?;
    let low = past_the_table(input, random);
    set_low(input, number, low)
}

fn high_past_the_table(input: &mut Input, random: &mut Random) -> Option<usize> {
    let number = a_used_record(input, random)?;
    let high = past_the_table(input, random);
    set_high(input, number, high)
}

fn low_to_a_free_record(input: &mut Input, random: &mut Random) -> Option<usize> {
    let number = a_used_record(input, random)?;
    let free = a_free_record(input, random)?;
    set_low(input, number, Reference::to(free))
}

fn high_to_a_free_record(input: &mut Input, random: &mut Random) -> Option<usize> {
    let number = a_used_record(input, random)?;
    let free = a_free_record(input, random)?;
    set_high(input, number, Reference::to(free))
}

// Refusal 5.

fn low_on_the_same_level(input: &mut Input, random: &mut Random) -> Option<usize> {
    let (parent, child) = on_the_same_level(input, random)?;
    set_low(input, parent, Reference::to(child))
}

fn low_on_a_higher_level(input: &mut Input, random: &mut Random) -> Option<usize> {
    let (parent, child) = on_a_higher_level(input, random)?;
    set_low(input, parent, Reference::to(child))
}

fn high_on_the_same_level(input: &mut Input, random: &mut Random) -> Option<usize> {
    let (parent, child) = on_the_same_level(input, random)?;
    set_high(input, parent, Reference::to(child))
}

fn high_on_a_higher_level(input: &mut Input, random: &mut Random) -> Option<usize> {
    let (parent, child) = on_a_higher_level(input, random)?;
    set_high(input, parent, Reference::to(child))
}

/// A parent and a child to be on its level, now and then the parent itself.
fn on_the_same_level(input: &Input, random: &mut Random) -> Option<(RecordNumber, RecordNumber)> {
    let parent = a_used_record(input, random)?;
    let level = input.level_of(parent)?;
    let child = a_used_record_where(input, random, |number| {
        input.level_of(number) == Some(level)
    })?;
    Some((parent, child))
}

/// A parent and a child to be above it.
fn on_a_higher_level(input: &Input, random: &mut Random) -> Option<(RecordNumber, RecordNumber)> {
    let parent = a_used_record(input, random)?;
    let level = input.level_of(parent)?;
    let child = a_used_record_where(input, random, |number| {
        input.level_of(number).is_some_and(|above| above < level)
    })?;
    Some((parent, child))
}

// Refusal 6.

fn high_made_low(input: &mut Input, random: &mut Random) -> Option<usize> {
    let number = a_used_record(input, random)?;
    let low = input.store().record(number).low;
    set_high(input, number, low)
}

fn low_made_high(input: &mut Input, random: &mut Random) -> Option<usize> {
    let number = a_used_record(input, random)?;
    let high = input.store().record(number).high;
    set_low(input, number, high)
}

// Refusal 7: the place is the later one of the two, wherever the first stood.

fn repeated_in_a_free_record(input: &mut Input, random: &mut Random) -> Option<usize> {
    let number = a_used_record(input, random)?;
    let again = a_free_record(input, random)?;
    repeat_record(input, number, again)
}

/// On one level the names of the overwritten record still lead downwards.
fn repeated_in_its_level(input: &mut Input, random: &mut Random) -> Option<usize> {
    let number = a_used_record(input, random)?;
    let level = input.level_of(number)?;
    let again = a_used_record_where(input, random, |other| {
        other != number && input.level_of(other) == Some(level)
    })?;
    repeat_record(input, number, again)
}

fn repeat_record(input: &mut Input, number: RecordNumber, again: RecordNumber) -> Option<usize> {
    let record = input.store().record(number);
    input.set_record(again, record);
    Some(number.max(again).0)
}

// Refusal 8.

fn root_past_the_table(input: &mut Input, random: &mut Random) -> Option<usize> {
    let root = past_the_table(input, random);
    set_some_root(input, root, random)
}

fn root_to_a_free_record(input: &mut Input, random: &mut Random) -> Option<usize> {
    let root = Reference::to(a_free_record(input, random)?);
    set_some_root(input, root, random)
}

fn further_root_past_the_table(input: &mut Input, random: &mut Random) -> Option<usize> {
    let root = past_the_table(input, random);
    insert_root(input, root, random)
}

fn further_root_to_a_free_record(input: &mut Input, random: &mut Random) -> Option<usize> {
    let root = Reference::to(a_free_record(input, random)?);
    insert_root(input, root, random)
}

fn set_some_root(input: &mut Input, root: Reference, random: &mut Random) -> Option<usize> {
    let mut roots = input.root_list();
    if roots.is_empty() {
        return None;
    }
    let position = random.below(roots.len());
    roots[position] = root;
    input.set_roots(&roots);
    Some(position)
}

fn insert_root(input: &mut Input, root: Reference, random: &mut Random) -> Option<usize> {
    let mut roots = input.root_list();
    if roots.len() >= MOST_ROOTS {
        return None;
    }
    let position = random.between(0, roots.len());
    roots.insert(position, root);
    input.set_roots(&roots);
    Some(position)
}

// Refusal 9.

/// What the top names stays named by it: the place is the top's own number,
/// even where a lower record can no longer be reached.
fn roots_taken_away(input: &mut Input, random: &mut Random) -> Option<usize> {
    let top = a_top(input, random)?;
    let mut roots = input.root_list();
    roots.retain(|&root| root != Reference::to(top));
    input.set_roots(&roots);
    Some(top.0)
}

fn roots_made_constant(input: &mut Input, random: &mut Random) -> Option<usize> {
    let top = a_top(input, random)?;
    let mut roots = input.root_list();
    for root in &mut roots {
        if *root == Reference::to(top) {
            *root = Reference::constant(random.coin());
        }
    }
    input.set_roots(&roots);
    Some(top.0)
}

fn further_record_without_a_name(input: &mut Input, random: &mut Random) -> Option<usize> {
    let number = a_free_record(input, random)?;
    if input.order.is_empty() {
        return None;
    }
    let level = random.below(input.order.len());
    let record = Record {
        variable: input.variable_at(level),
        low: a_child_below(input, level, random),
        high: a_child_below(input, level, random),
    };
    if record.low == record.high || input.store().used().any(|(_, other)| other == record) {
        return None;
    }
    input.set_record(number, record);
    Some(number.0)
}

/// A used record that only roots name.
fn a_top(input: &Input, random: &mut Random) -> Option<RecordNumber> {
    let named: Vec<Reference> = input
        .store()
        .used()
        .flat_map(|(_, record)| record.children())
        .collect();
    let mut is_named = vec![false; input.store().record_count()];
    for number in named.into_iter().filter_map(Reference::record) {
        if number.0 < is_named.len() {
            is_named[number.0] = true;
        }
    }
    a_used_record_where(input, random, |number| !is_named[number.0])
}

fn a_child_below(input: &Input, level: usize, random: &mut Random) -> Reference {
    let below = a_used_record_where(input, random, |number| {
        input.level_of(number).is_some_and(|child| child > level)
    });
    match below {
        Some(number) if random.coin() => Reference::to(number),
        _ => Reference::constant(random.coin()),
    }
}

// Damages that aim at nothing.

fn table_byte_changed(input: &mut Input, random: &mut Random) -> Option<()> {
    let position = a_position(&input.table, random)?;
    input.table[position] = random.byte();
    Some(())
}

fn table_bit_turned(input: &mut Input, random: &mut Random) -> Option<()> {
    let position = a_position(&input.table, random)?;
    input.table[position] ^= 1 << random.below(8);
    Some(())
}

/// To a constant or any record of the table, or to the first past its end.
fn reference_changed(input: &mut Input, random: &mut Random) -> Option<()> {
    let number = a_used_record(input, random)?;
    let reference = Reference(random.below(input.store().record_count() + 3) as u16);
    if random.coin() {
        set_low(input, number, reference)?;
    } else {
        set_high(input, number, reference)?;
    }
    Some(())
}

fn variable_changed(input: &mut Input, random: &mut Random) -> Option<()> {
    let number = a_used_record(input, random)?;
    input.bytes_mut(number)[0] = random.pick(&input.order)?;
    Some(())
}

fn record_made_free(input: &mut Input, random: &mut Random) -> Option<()> {
    let number = a_used_record(input, random)?;
    if random.coin() {
        input.set_free(number);
    } else {
        input.bytes_mut(number)[0] = FREE;
    }
    Some(())
}

fn last_record_cut_off(input: &mut Input, _: &mut Random) -> Option<()> {
    let shorter = input.table.len().checked_sub(RECORD_BYTES)?;
    input.table.truncate(shorter);
    Some(())
}

fn records_exchanged(input: &mut Input, random: &mut Random) -> Option<()> {
    let (one, other) = two_of(input.store().record_count(), random)?;
    for byte in 0..RECORD_BYTES {
        input
            .table
            .swap(one * RECORD_BYTES + byte, other * RECORD_BYTES + byte);
    }
    Some(())
}

fn order_bytes_exchanged(input: &mut Input, random: &mut Random) -> Option<()> {
    let (one, other) = two_of(input.order.len(), random)?;
    input.order.swap(one, other);
    Some(())
}

fn root_changed(input: &mut Input, random: &mut Random) -> Option<()> {
    let root = Reference(random.below(input.store().record_count() + 3) as u16);
    set_some_root(input, root, random)?;
    Some(())
}

// What the damages are made of.

/// The first or last number often, for a rule's edge is the likeliest slip.
fn edge_or_any(first: usize, last: usize, random: &mut Random) -> usize {
    match random.below(6) {
        0..=2 => first,
        3 => last,
        _ => random.between(first, last),
    }
}

fn past_the_table(input: &Input, random: &mut Random) -> Reference {
    let first = input.store().record_count() + 2;
    Reference(edge_or_any(first, usize::from(u16::MAX), random) as u16)
}

/// Two different numbers below `limit`.
fn two_of(limit: usize, random: &mut Random) -> Option<(usize, usize)> {
    if limit < 2 {
        return None;
    }
    let one = random.below(limit);
    let other = (one + random.between(1, limit - 1)) % limit;
    Some((one, other))
}

fn a_position(bytes: &[u8], random: &mut Random) -> Option<usize> {
    if bytes.is_empty() {
        None
    } else {
        Some(random.below(bytes.len()))
    }
}

fn a_record(input: &Input, random: &mut Random) -> Option<RecordNumber> {
    let numbers: Vec<RecordNumber> = input.store().record_numbers().collect();
    random.pick(&numbers)
}

fn a_used_record(input: &Input, random: &mut Random) -> Option<RecordNumber> {
    random.pick(&input.used_numbers())
}

fn a_free_record(input: &Input, random: &mut Random) -> Option<RecordNumber> {
    random.pick(&input.free_numbers())
}

fn a_used_record_where(
    input: &Input,
    random: &mut Random,
    wanted: impl Fn(RecordNumber) -> bool,
) -> Option<RecordNumber> {
    let mut numbers = input.used_numbers();
    numbers.retain(|&number| wanted(number));
    random.pick(&numbers)
}

/// Sets the low reference and hands back the record's number as the place.
fn set_low(input: &mut Input, number: RecordNumber, low: Reference) -> Option<usize> {
    input.bytes_mut(number)[2..4].copy_from_slice(&low.0.to_le_bytes());
    Some(number.0)
}

/// Sets the high reference and hands back the record's number as the place.
fn set_high(input: &mut Input, number: RecordNumber, high: Reference) -> Option<usize> {
    input.bytes_mut(number)[4..6].copy_from_slice(&high.0.to_le_bytes());
    Some(number.0)
}

#[cfg(test)]
mod tests {
    use super::AIMED;
    use crate::model::{answer, Question};
    use crate::random::Random;
    use crate::sample::one_aimed_damage;

    #[test]
    fn a_single_aimed_damage_gives_its_refusal_at_its_place() {
        for aimed in &AIMED {
            for seed in 0..100 {
                let mut sample = one_aimed_damage(aimed, &mut Random::from_seed(seed));
                let answer = answer(&mut sample.input, &Question::Check);
                assert_eq!(Some(answer), sample.known, "{}, seed {seed}", aimed.name);
            }
        }
    }
}
