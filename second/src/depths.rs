//! Tables through many levels, made by hand, with the counts that the rules
//! give. Neither the tables nor the counts are taken from the model.

use crate::by_hand::{input, used, with, Bytes, Case};
use crate::input::Input;
use crate::model::{Answer, Question};
use crate::refusals::Refusal;

pub fn cases() -> Vec<Case> {
    [
        constants(),
        one_variable(),
        single_records(),
        chains_of_32(),
        chains_of_52(),
        parities(),
        skipped_levels(),
        too_many(),
        refused_besides(),
    ]
    .concat()
}

/// 2^31 and 2^32, 2^51 and 2^52.
const HALF_OF_32: u64 = 2_147_483_648;
const ALL_OF_32: u64 = 4_294_967_296;
const HALF_OF_52: u64 = 2_251_799_813_685_248;
const ALL_OF_52: u64 = 4_503_599_627_370_496;
/// 2^-32 and 2^-52, the shares of one combination of 32 inputs and of 52.
const ONE_OF_32: f64 = 2.328_306_436_538_696_3e-10;
const ONE_OF_52: f64 = 2.220_446_049_250_313e-16;

fn counted(name: &'static str, input: Input, position: u32, count: u64, share: f64) -> Case {
    let share = share.to_bits();
    let answer = Answer::Counted { count, share };
    Case::unchanged(name, input, Question::Count { position }, answer)
}

fn refused(name: &'static str, input: Input, position: u32, (number, place): (u32, usize)) -> Case {
    let refusal = Refusal { number, place };
    let question = Question::Count { position };
    Case::unchanged(name, input, question, Answer::Refused(refusal))
}

fn downwards(n: u8) -> Vec<u8> {
    (0..n).collect()
}

fn upwards(n: u8) -> Vec<u8> {
    (0..n).rev().collect()
}

/// No record, and a root to each constant.
fn both_constants(n: u8) -> Input {
    input(&[], &[0, 1], &downwards(n))
}

/// False is 1 under none of them, true under all.
fn constants() -> Vec<Case> {
    let of = both_constants;
    vec![
        counted("false, n = 1", of(1), 0, 0, 0.0),
        counted("true, n = 1", of(1), 1, 2, 1.0),
        counted("false, n = 12", of(12), 0, 0, 0.0),
        counted("true, n = 12", of(12), 1, 4_096, 1.0),
        counted("false, n = 13", of(13), 0, 0, 0.0),
        counted("true, n = 13", of(13), 1, 8_192, 1.0),
        counted("false, n = 32", of(32), 0, 0, 0.0),
        counted("true, n = 32", of(32), 1, ALL_OF_32, 1.0),
        counted("false, n = 33", of(33), 0, 0, 0.0),
        counted("true, n = 33", of(33), 1, 2 * ALL_OF_32, 1.0),
        counted("true, n = 51", of(51), 1, HALF_OF_52, 1.0),
        counted("false, n = 52", of(52), 0, 0, 0.0),
        counted("true, n = 52", of(52), 1, ALL_OF_52, 1.0),
    ]
}

fn one_variable() -> Vec<Case> {
    let both = || input(&[used(0, 0, 1), used(0, 1, 0)], &[2, 3], &[0]);
    vec![
        counted("a variable, n = 1", both(), 0, 1, 0.5),
        counted("its opposite, n = 1", both(), 1, 1, 0.5),
    ]
}

/// A variable alone is 1 under half of them, wherever it stands.
fn single_records() -> Vec<Case> {
    let alone = |order: &[u8]| input(&[used(0, 0, 1)], &[2], order);
    let opposite = |order: &[u8]| {
        let last = order.len() as u8 - 1;
        input(&[used(last, 1, 0)], &[2], order)
    };
    let both = |n, half| {
        let (down, up) = (downwards(n), upwards(n));
        [
            counted("at the top", alone(&down), 0, half, 0.5),
            counted("the lowest", alone(&up), 0, half, 0.5),
            counted("turned, the lowest", opposite(&down), 0, half, 0.5),
            counted("turned, at the top", opposite(&up), 0, half, 0.5),
        ]
    };
    [both(32, HALF_OF_32), both(52, HALF_OF_52)].concat()
}

/// Record i is of variable i and has record i + 1 and a constant as children;
/// the last has the two constants. The roots lead in at the top, in the middle
/// and at the lowest level.
fn chain(n: u8, record: impl Fn(u8, u16) -> Bytes, last: Bytes) -> Input {
    let mut records: Vec<Bytes> = (0..n - 1).map(|i| record(i, u16::from(i) + 3)).collect();
    records.push(last);
    let middle = u16::from(n / 2) + 2;
    input(&records, &[2, middle, u16::from(n) + 1], &downwards(n))
}

/// 1 where all inputs from a level on are 1.
fn and(n: u8) -> Input {
    chain(n, |i, next| used(i, 0, next), used(n - 1, 0, 1))
}

/// 1 where one of them is.
fn or(n: u8) -> Input {
    chain(n, |i, next| used(i, next, 1), used(n - 1, 0, 1))
}

/// Each level gives a binary digit to the count, the top the highest: a 1 where
/// the constant is true. The lowest record adds 1. So it is 1010...1011 in
/// binary: two thirds, as far as the digits go.
fn digits(n: u8) -> Input {
    let record = |i, next| used(i, next, u16::from(i % 2 == 0));
    chain(n, record, used(n - 1, 1, 0))
}

fn chains_of_32() -> Vec<Case> {
    // 16 of the 32 are free: 65,536 times 2^-32 is 2^-16.
    let lower = 0.000_015_258_789_062_5;
    vec![
        counted("all 32 are 1", and(32), 0, 1, ONE_OF_32),
        counted("the lower 16 are 1", and(32), 1, 65_536, lower),
        counted("the lowest is 1", and(32), 2, HALF_OF_32, 0.5),
        counted("one of 32 is 1", or(32), 0, ALL_OF_32 - 1, 1.0 - ONE_OF_32),
        counted(
            "one of the lower 16 is 1",
            or(32),
            1,
            ALL_OF_32 - 65_536,
            1.0 - lower,
        ),
        counted("the lowest of them", or(32), 2, HALF_OF_32, 0.5),
        counted(
            "every second digit of 32",
            digits(32),
            0,
            2_863_311_531,
            0.666_666_666_744_276_9,
        ),
    ]
}

fn chains_of_52() -> Vec<Case> {
    // 26 of the 52 are free: 67,108,864 times 2^-52 is 2^-26.
    let lower = 0.000_000_014_901_161_193_847_656_25;
    vec![
        counted("all 52 are 1", and(52), 0, 1, ONE_OF_52),
        counted("the lower 26 are 1", and(52), 1, 67_108_864, lower),
        counted("the lowest of 52 is 1", and(52), 2, HALF_OF_52, 0.5),
        counted("one of 52 is 1", or(52), 0, ALL_OF_52 - 1, 1.0 - ONE_OF_52),
        counted(
            "one of the lower 26 is 1",
            or(52),
            1,
            ALL_OF_52 - 67_108_864,
            1.0 - lower,
        ),
        counted("the lowest one of 52", or(52), 2, HALF_OF_52, 0.5),
        counted(
            "every second digit of 52",
            digits(52),
            0,
            3_002_399_751_580_331,
            f64::from_bits(0x3FE5_5555_5555_5556),
        ),
    ]
}

/// Is the number of ones odd? Two records on each level below the top, and 2^n
/// ways down. The second root leads in below the top, the third is the opposite
/// of that.
fn parity(order: &[u8]) -> Input {
    let (&last, others) = order.split_last().expect("there is a level");
    let mut records = vec![used(others[0], 3, 4)];
    for (&variable, odd) in others[1..].iter().zip((3..).step_by(2)) {
        records.push(used(variable, odd + 2, odd + 3));
        records.push(used(variable, odd + 3, odd + 2));
    }
    records.push(used(last, 0, 1));
    records.push(used(last, 1, 0));
    input(&records, &[2, 3, 4], order)
}

fn parities() -> Vec<Case> {
    let of = |n, half| {
        let down = || parity(&downwards(n));
        [
            counted("parity", down(), 0, half, 0.5),
            counted("parity of all but one", down(), 1, half, 0.5),
            counted("no parity of all but one", down(), 2, half, 0.5),
            counted("parity, turned", parity(&upwards(n)), 0, half, 0.5),
        ]
    };
    [of(32, HALF_OF_32), of(52, HALF_OF_52)].concat()
}

/// Levels 3, 17 and 31 of 32 alone: three quarters of the inputs with the
/// first 0 and a half of those with it 1. And levels 0 and 31: a quarter.
fn skipped_levels() -> Vec<Case> {
    let records = [used(3, 4, 3), used(31, 0, 1), used(17, 3, 1), used(0, 0, 3)];
    let skipped = |n| input(&records, &[2, 5, 4], &downwards(n));
    let times = ALL_OF_52 / ALL_OF_32;
    vec![
        counted("levels 3, 17, 31", skipped(32), 0, 2_684_354_560, 0.625),
        counted("levels 0 and 31", skipped(32), 1, 1_073_741_824, 0.25),
        counted("levels 17 and 31", skipped(32), 2, 3_221_225_472, 0.75),
        counted("these of 52", skipped(52), 0, 2_684_354_560 * times, 0.625),
        counted("two of 52", skipped(52), 1, 1_073_741_824 * times, 0.25),
        counted(
            "the others of 52",
            skipped(52),
            2,
            3_221_225_472 * times,
            0.75,
        ),
    ]
}

/// 53 inputs and more, whether there is such a root or not. Up to 52 that is
/// what counts.
fn too_many() -> Vec<Case> {
    let of = |n: u8| {
        let stores = [
            both_constants(n),
            and(n),
            or(n),
            digits(n),
            parity(&upwards(n)),
        ];
        let each = move |store: Input| {
            [0, 1, 2, 3, 64, 65_536, u32::MAX].map(|position| {
                let place = usize::from(n);
                refused("too many to count", store.clone(), position, (16, place))
            })
        };
        stores.into_iter().flat_map(each)
    };
    let mut cases: Vec<Case> = [53, 54, 63, 64].into_iter().flat_map(of).collect();
    let no_root =
        |position: u32| refused("no root of 52", and(52), position, (10, position as usize));
    cases.extend([3, 52, u32::MAX].map(no_root));
    cases.push(refused("n = 65", both_constants(65), 0, (1, 0)));
    cases
}

/// With 53 inputs, no such root, and something that goes first.
fn refused_besides() -> Vec<Case> {
    let order = downwards(53);
    let row = |name, records: &[Bytes], roots: &[u16], refusal| {
        refused(name, input(records, roots, &order), u32::MAX, refusal)
    };
    let mut twice = order.clone();
    twice[52] = 0;
    let literal = used(52, 0, 1);
    vec![
        refused("2 and 16", input(&[], &[1], &twice), 0, (2, 52)),
        row("4 and 16", &[with(literal, 1, 1)], &[2], (4, 0)),
        row("4 and 16, variable 53", &[used(53, 0, 1)], &[2], (4, 0)),
        row("5 and 16", &[literal, used(52, 0, 2)], &[3], (5, 1)),
        row("6 and 16", &[used(52, 1, 1)], &[2], (6, 0)),
        row("7 and 16", &[literal, literal], &[2, 3], (7, 1)),
        row("8 and 16", &[literal], &[2, 3], (8, 1)),
        row("9 and 16", &[literal], &[1], (9, 0)),
    ]
}
