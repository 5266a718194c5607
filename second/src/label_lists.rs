//! Random lists of labels, of good and of bad lengths.

use crate::labels::{LABEL_BYTES, MOST_LABELS, TEXT_BYTES};
use crate::random::Random;

/// How many records a list has: mostly a few, now and then none or all that it
/// may have.
pub fn random_count(random: &mut Random) -> usize {
    match random.below(10) {
        0 => 0,
        1 => MOST_LABELS,
        2..=4 => random.between(1, MOST_LABELS),
        _ => random.between(1, 8),
    }
}

/// A record for each of these variables.
pub fn list_for(variables: &[u8], random: &mut Random) -> Vec<u8> {
    let mut list = Vec::new();
    for &variable in variables {
        list.push(variable);
        list.extend(random_text(random));
    }
    list
}

/// Bytes of any kind, often a newline among them; with no zero, one inside, one
/// before all others, or padded with them, perhaps from the first.
fn random_text(random: &mut Random) -> [u8; TEXT_BYTES] {
    let byte = |random: &mut Random| match random.below(30) {
        0 => b'\n',
        _ => random.between(1, 255) as u8,
    };
    let mut text = [0; TEXT_BYTES].map(|_| byte(random));
    match random.below(5) {
        0 => {}
        1 => text[random.between(1, TEXT_BYTES - 2)] = 0,
        2 => text[0] = 0,
        _ => text[random.below(TEXT_BYTES)..].fill(0),
    }
    text
}

/// The kinds of texts, by where the first zero is.
pub const TEXT_KINDS: [&str; 4] = [
    "without a zero",
    "that begins with a zero",
    "with a zero inside",
    "padded with zeros",
];

pub fn text_kind(text: &[u8]) -> &'static str {
    let [without, begins, inside, padded] = TEXT_KINDS;
    match text.iter().position(|&byte| byte == 0) {
        None => without,
        Some(0) => begins,
        Some(zero) if text[zero..].iter().any(|&byte| byte != 0) => inside,
        Some(_) => padded,
    }
}

/// Lengths that no list may have, next to those that it may have.
const BAD_LENGTHS: [usize; 6] = [1, 15, 17, 1_023, 1_025, 1_040];

/// A length from here on has more than 16 bits.
pub const FAR: usize = 65_536;

/// A list of whole records becomes one of a bad length: with part of a record
/// more or less, with records too many, or so long that its last 16 bits alone
/// seem right.
pub fn spoil_length(list: &mut Vec<u8>, random: &mut Random) {
    let part = random.between(1, LABEL_BYTES - 1);
    let bad = match random.below(10) {
        0 | 1 => list.len() + part,
        2 | 3 if !list.is_empty() => list.len() - part,
        4 => (MOST_LABELS + random.between(1, 200)) * LABEL_BYTES,
        5 if random.once_in(3) => FAR + list.len(),
        _ => BAD_LENGTHS[random.below(BAD_LENGTHS.len())],
    };
    list.resize(bad, random.byte());
}

#[cfg(test)]
mod tests {
    use super::*;
    use crate::labels::has_good_length;

    #[test]
    fn a_list_has_a_good_length_until_it_is_spoilt() {
        for seed in 0..2_000 {
            let random = &mut Random::from_seed(seed);
            let count = random_count(random);
            let variables = random.bytes(count);
            let mut list = list_for(&variables, random);
            assert_eq!(list.len(), 16 * count);
            assert!(has_good_length(&list), "seed {seed}");
            spoil_length(&mut list, random);
            assert!(!has_good_length(&list), "seed {seed}");
        }
    }
}
