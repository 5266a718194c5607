//! What the model's own swaps and runs must keep. The rules promise it without
//! the steps of a swap, so it is found here without them too: a slip in the
//! model is then no slip that both programs could share unseen.

use std::cmp::Reverse;
use std::collections::{HashMap, HashSet};

use crate::hold::hex;
use crate::input::Input;
use crate::layout::{RecordNumber, Reference, Variable, MOST_RECORDS};
use crate::log_kept::leads_back;
use crate::model::{answer, Answer, Question};
use crate::plans::{is_inversion, left, Plan};
use crate::random::Random;
use crate::swap::{swap, Lack, Swap};

/// Up to so many variables the roots are read under all combinations of
/// inputs, and otherwise under so many times 64 random ones.
const ALL_COMBINATIONS_UP_TO: usize = 12;
const RANDOM_WORDS: usize = 5;

/// A swap that the model has made.
pub fn swap_keeps(before: &Input, made: &Swap, random: &mut Random) -> Result<(), String> {
    swap_counts(before, made)?;
    accepted(&made.after)?;
    values_kept(before, &made.after, random)
}

/// A swap for which the model has no room. What it needs and what dies shows
/// where so many free records are added that no dying one is taken: what died is
/// then what nothing names. With just the missing ones added it is made, and
/// takes all there are; with one of them fewer it has no room.
pub fn no_room_keeps(before: &Input, lack: Lack, random: &mut Random) -> Result<(), String> {
    let plenty = before.with_more_free(lack.needed);
    let Ok(made) = swap(&plenty, lack.level) else {
        return Err(report("needed records are not enough", before));
    };
    swap_counts(&plenty, &made)?;
    let fates = Fates::of(&plenty, &made.after)?;
    let died = no_longer_named(before, &made.after);
    let (needed, dying) = (fates.filled.len(), died.len());
    let used = before.store().used().count();
    let free = before.free_numbers().len();
    let right = (lack.needed, lack.free) == (needed, free)
        && fates.taken.is_empty()
        && fates.freed == died
        && used + needed - dying > before.store().record_count();
    if !right {
        return Err(report(&format!("{lack:?} is miscounted"), before));
    }
    just_the_missing(before, lack, needed - dying - free, random)
}

/// The used records that nothing names afterwards, in rising record number.
fn no_longer_named(before: &Input, after: &Input) -> Vec<RecordNumber> {
    let named = after.store().named();
    let mut used = before.used_numbers();
    used.retain(|number| !named.contains(number));
    used
}

/// So many are missing, and no fewer.
fn just_the_missing(
    before: &Input,
    lack: Lack,
    missing: usize,
    random: &mut Random,
) -> Result<(), String> {
    let free = lack.free + missing - 1;
    let one_fewer = before.with_more_free(missing - 1);
    if swap(&one_fewer, lack.level).err() != Some(Lack { free, ..lack }) {
        return Err(report("there is room without a missing record", before));
    }
    let roomier = before.with_more_free(missing);
    let Ok(made) = swap(&roomier, lack.level) else {
        return Err(report("the missing records are not enough", before));
    };
    if !made.after.free_numbers().is_empty() {
        return Err(report("not all free and dying records are taken", before));
    }
    if roomier.store().record_count() > MOST_RECORDS {
        return swap_counts(&roomier, &made);
    }
    swap_keeps(&roomier, &made, random)
}

/// A run of the model, done again swap by swap: it has made so many swaps,
/// each of an inverted pair, which takes one inversion away. How many of them
/// took a dying record.
pub fn run_keeps(
    before: &Input,
    target: &[u8],
    plan: &Plan,
    swaps: u32,
    after: &Input,
    random: &mut Random,
) -> Result<usize, String> {
    let mut took_dying = 0;
    let mut state = before.clone();
    let mut previous = None;
    for _ in 0..swaps {
        let Some(level) = (plan.next)(&state.order, target) else {
            return Err(report("a run swaps beyond its target", before));
        };
        if !is_inversion(state.order[level], state.order[level + 1], target) {
            return Err(report("a run swaps a pair that is not inverted", &state));
        }
        let Ok(made) = swap(&state, level) else {
            return Err(report("a run swaps without room", before));
        };
        swap_counts(&state, &made)?;
        accepted(&made.after)?;
        if left(&made.after.order, target) + 1 != left(&state.order, target) {
            return Err(report("left does not fall by one", &state));
        }
        took_dying += usize::from(made.taken > 0);
        previous = Some(state);
        state = made.after;
    }
    if state.store() != after.store() {
        return Err(report("a run is not its swaps", before));
    }
    match previous {
        None if before.log != after.log => return Err(report("no swap is logged", after)),
        None => {}
        Some(previous) => leads_back(&previous, after)?,
    }
    if after.order == target && swaps as usize != left(&before.order, target) {
        return Err(report(
            "a finished run has other swaps than inversions",
            before,
        ));
    }
    values_kept(before, after, random)?;
    Ok(took_dying)
}

/// Used after is used before and needed less dying, each counted by itself. In
/// the order one pair is exchanged, and the roots are the same.
fn swap_counts(before: &Input, made: &Swap) -> Result<(), String> {
    let after = &made.after;
    if left(&before.order, &after.order) != 1 || before.roots != after.roots {
        return Err(report("a swap changes other bytes than its own", before));
    }
    let fates = Fates::of(before, after)?;
    let used_before = before.store().used().count();
    let used_after = after.store().used().count();
    let right = fates.crossed.len() == made.crossing
        && fates.filled.len() + fates.taken.len() == made.needed
        && fates.taken.len() == made.taken
        && fates.freed.len() == made.freed
        && made.taken + made.freed == made.dying
        && used_after == used_before + made.needed - made.dying;
    if !right {
        return Err(report("a swap is miscounted", before));
    }
    if !fates.lowest_are_taken() || fates.new_in_turn(after) != fates.new_records() {
        return Err(report("a new record takes another's place", before));
    }
    Ok(())
}

/// What became of the records that a swap changed, and of the free ones: found
/// from the tables before and after alone, each list in rising record number.
#[derive(Default)]
struct Fates {
    /// Of x before, of y after.
    crossed: Vec<RecordNumber>,
    /// Free before, of x after.
    filled: Vec<RecordNumber>,
    still_free: Vec<RecordNumber>,
    /// They died. Of y before, of x after.
    taken: Vec<RecordNumber>,
    /// They died too. Of y before, free after.
    freed: Vec<RecordNumber>,
}

impl Fates {
    /// The orders differ: x is above y in the one before.
    fn of(before: &Input, after: &Input) -> Result<Fates, String> {
        let mut levels = before.order.iter().zip(&after.order);
        let changed = levels.find(|(x, y)| x != y);
        let (&x, &y) = changed.expect("a swap exchanges two levels");
        let (x, y) = (Some(Variable(x)), Some(Variable(y)));

        let mut fates = Fates::default();
        for number in before.store().record_numbers() {
            let variables = [before, after].map(|input| variable(input, number));
            match variables {
                [None, None] => fates.still_free.push(number),
                _ if before.store().bytes(number) == after.store().bytes(number) => {}
                [was, is] if was == x && is == y => fates.crossed.push(number),
                [None, is] if is == x => fates.filled.push(number),
                [was, is] if was == y && is == x => fates.taken.push(number),
                [was, None] if was == y => fates.freed.push(number),
                _ => return Err(report("a record becomes what it may not", before)),
            }
        }
        Ok(fates)
    }

    /// Free records are taken before dying ones, and of each the lowest.
    fn lowest_are_taken(&self) -> bool {
        let free_first = self.taken.is_empty() || self.still_free.is_empty();
        free_first
            && are_below(&self.filled, &self.still_free)
            && are_below(&self.taken, &self.freed)
    }

    /// In the order in which they must have been made.
    fn new_records(&self) -> Vec<RecordNumber> {
        [&self.filled[..], &self.taken].concat()
    }

    /// In the order in which the crossing records come upon them: each was made
    /// for the first that names it, low before high.
    fn new_in_turn(&self, after: &Input) -> Vec<RecordNumber> {
        let mut not_met: HashSet<RecordNumber> = self.new_records().into_iter().collect();
        let named = self.crossed.iter();
        named
            .flat_map(|&number| after.store().record(number).child_records())
            .filter(|child| not_met.remove(child))
            .collect()
    }
}

/// Of two rising lists: is all of the first below all of the second?
fn are_below(lower: &[RecordNumber], upper: &[RecordNumber]) -> bool {
    match (lower.last(), upper.first()) {
        (Some(last), Some(first)) => last < first,
        _ => true,
    }
}

/// None where the record is free.
fn variable(input: &Input, number: RecordNumber) -> Option<Variable> {
    let store = input.store();
    (!store.is_free(number)).then(|| store.record(number).variable)
}

fn accepted(after: &Input) -> Result<(), String> {
    match answer(&mut after.clone(), &Question::Check) {
        Answer::Accepted { .. } => Ok(()),
        other => Err(report(
            &format!("a swap leaves what is answered {other:?}"),
            after,
        )),
    }
}

fn values_kept(before: &Input, after: &Input, random: &mut Random) -> Result<(), String> {
    let combinations = combinations(before.order.len(), random);
    if root_values(before, &combinations) == root_values(after, &combinations) {
        Ok(())
    } else {
        Err(report("a root has another value", before))
    }
}

fn report(what: &str, input: &Input) -> String {
    format!("the model itself: {what}\n{}", hex(input))
}

/// Many combinations of inputs at once: a list of bits for each variable, and
/// each bit of it is the variable's input in another combination.
type Bits = Vec<u64>;

fn combinations(n: usize, random: &mut Random) -> Vec<Bits> {
    if n <= ALL_COMBINATIONS_UP_TO {
        all_combinations(n)
    } else {
        (0..n).map(|_| random.words(RANDOM_WORDS)).collect()
    }
}

/// Combination c has the binary digits of c as its inputs. Below six variables
/// 64 is more than 2^n, and some come again.
fn all_combinations(n: usize) -> Vec<Bits> {
    let words = (1_u64 << n).div_ceil(64);
    let word = |variable: usize, first: u64| {
        (0..64).fold(0, |word, bit| {
            let input = (first * 64 + bit) >> variable & 1;
            word | input << bit
        })
    };
    (0..n)
        .map(|variable| (0..words).map(|first| word(variable, first)).collect())
        .collect()
}

/// The value of each root under each of the combinations, found from the
/// lowest level upwards.
fn root_values(input: &Input, combinations: &[Bits]) -> Vec<Bits> {
    let words = combinations[0].len();
    let store = input.store();
    let mut from_below: Vec<_> = store.used().collect();
    from_below.sort_by_key(|(_, record)| Reverse(store.level(record.variable)));

    let mut known: HashMap<RecordNumber, Bits> = HashMap::new();
    for (number, record) in from_below {
        let chosen = &combinations[usize::from(record.variable.0)];
        let low = reference_values(record.low, &known, words);
        let high = reference_values(record.high, &known, words);
        let values = (0..words)
            .map(|word| !chosen[word] & low[word] | chosen[word] & high[word])
            .collect();
        known.insert(number, values);
    }
    store
        .roots()
        .map(|root| reference_values(root, &known, words))
        .collect()
}

fn reference_values(
    reference: Reference,
    known: &HashMap<RecordNumber, Bits>,
    words: usize,
) -> Bits {
    match reference.record() {
        Some(number) => known[&number].clone(),
        None if reference == Reference::constant(false) => vec![0; words],
        None => vec![u64::MAX; words],
    }
}

#[cfg(test)]
mod tests {
    use super::*;
    use crate::by_hand::{input, used, Bytes, FREE};
    use crate::generate::busy;
    use crate::value::value;

    #[test]
    fn the_model_keeps_what_it_must() {
        for seed in 0..2_000 {
            let random = &mut Random::from_seed(seed);
            let before = busy(random);
            for level in 0..before.order.len() - 1 {
                let kept = match swap(&before, level) {
                    Ok(made) => swap_keeps(&before, &made, random),
                    Err(lack) => no_room_keeps(&before, lack, random),
                };
                assert_eq!(kept, Ok(()), "seed {seed}, level {level}");
            }
        }
    }

    /// Case F with one free record fewer, and what it might become instead; the
    /// roots have their values in all of these.
    #[test]
    fn another_choice_of_records_is_told() {
        let before = [used(1, 0, 1), used(1, 1, 0), used(0, 2, 3), FREE];
        let before = input(&before, &[4], &[0, 1]);
        let told = |records: [Bytes; 4], taken| {
            let made = Swap {
                after: input(&records, &[4], &[1, 0]),
                crossing: 1,
                needed: 2,
                dying: 2,
                taken,
                freed: 2 - taken,
            };
            let random = &mut Random::from_seed(0);
            assert_eq!(values_kept(&before, &made.after, random), Ok(()));
            swap_keeps(&before, &made, random).is_err()
        };
        let [first, second] = [used(0, 0, 1), used(0, 1, 0)];
        let right = [second, FREE, used(1, 5, 2), first];
        let higher = [FREE, second, used(1, 5, 3), first];
        let other_turn = [first, FREE, used(1, 2, 5), second];
        let free_left = [first, second, used(1, 2, 3), FREE];
        let not_dead = [second, used(1, 1, 0), used(1, 5, 2), first];
        assert!(!told(right, 1));
        assert!(told(right, 2));
        assert!(told(higher, 1));
        assert!(told(other_turn, 1));
        assert!(told(free_left, 2));
        assert!(told(not_dead, 1));
    }

    /// With one more or one fewer needed or free than there are.
    #[test]
    fn a_miscounted_lack_is_told() {
        let records = [used(1, 0, 1), used(1, 1, 0), used(0, 2, 3), FREE];
        let before = input(&records, &[2, 3, 4], &[0, 1]);
        let told = |needed, free| {
            let level = 0;
            let lack = Lack {
                level,
                needed,
                free,
            };
            no_room_keeps(&before, lack, &mut Random::from_seed(0)).is_err()
        };
        assert!(!told(2, 1));
        assert!(told(3, 1) && told(1, 1) && told(2, 0) && told(2, 2));
        // Here a record dies, and there is room.
        let before = input(&records, &[2, 4], &[0, 1]);
        let lack = Lack {
            level: 0,
            needed: 2,
            free: 1,
        };
        assert!(no_room_keeps(&before, lack, &mut Random::from_seed(0)).is_err());
    }

    /// Many at once are the same as one after the other.
    #[test]
    fn bits_are_values() {
        for seed in 0..300 {
            let random = &mut Random::from_seed(seed);
            let input = busy(random);
            let n = input.order.len();
            let roots = root_values(&input, &all_combinations(n));
            for (root, bits) in input.root_list().into_iter().zip(roots) {
                for combination in 0..1_usize << n {
                    let inputs: Vec<u8> = (0..n)
                        .map(|variable| (combination >> variable & 1) as u8)
                        .collect();
                    let bit = bits[combination / 64] >> (combination % 64) & 1;
                    assert_eq!(u64::from(value(input.store(), root, &inputs)), bit);
                }
            }
        }
    }
}
