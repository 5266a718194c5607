//! Tables made by hand, with the answers that the rules give to Check, and to
//! Count where there is no such root. Neither the tables nor the answers are
//! taken from the model.

use crate::by_hand::{input, used, with, Bytes, Case, A_0, A_1, FREE};
use crate::input::Input;
use crate::model::{Answer, Question};
use crate::refusals::Refusal;

pub fn cases() -> Vec<Case> {
    [
        lengths(),
        bench_sheet(),
        bench_sheet_afterwards(),
        wide_references(),
        refused_2(),
        refused_4(),
        refused_5(),
        refused_6(),
        refused_7(),
        refused_8(),
        refused_9(),
        lowest_number_first(),
    ]
    .into_iter()
    .flatten()
    .flat_map(|case| [counted(&case), case])
    .collect()
}

/// Count refuses what Check refuses, otherwise that there are more than 52
/// inputs, and otherwise that there is no root so far on.
fn counted(case: &Case) -> Case {
    let no_such_root = Refusal {
        number: 10,
        place: u32::MAX as usize,
    };
    let n = case.input.order.len();
    let too_many = Refusal {
        number: 16,
        place: n,
    };
    let refusal = match case.expected.answer {
        Answer::Refused(refusal) => refusal,
        _ if n > 52 => too_many,
        _ => no_such_root,
    };
    let position = u32::MAX;
    Case::unchanged(
        case.name,
        case.input.clone(),
        Question::Count { position },
        Answer::Refused(refusal),
    )
}

fn accepted(name: &'static str, used: usize, input: Input) -> Case {
    Case::unchanged(name, input, Question::Check, Answer::Accepted { used })
}

fn refused(name: &'static str, number: u32, place: usize, input: Input) -> Case {
    let refusal = Refusal { number, place };
    Case::unchanged(name, input, Question::Check, Answer::Refused(refusal))
}

fn lengths() -> Vec<Case> {
    let starting_order = |n: u8| (0..n).collect::<Vec<u8>>();
    let with_n = |n: u8| input(&[], &[], &starting_order(n));
    let with_bytes = |count: usize| Input {
        table: FREE.into_iter().cycle().take(count).collect(),
        ..with_n(1)
    };
    let with_root_bytes = |count: usize| Input {
        roots: [0, 0, 1, 0].into_iter().cycle().take(count).collect(),
        ..with_n(1)
    };
    vec![
        accepted("nothing stored, n = 1", 0, with_n(1)),
        accepted("n = 2", 0, with_n(2)),
        accepted("n = 32", 0, with_n(32)),
        accepted("n = 33", 0, with_n(33)),
        accepted("n = 52", 0, with_n(52)),
        accepted("n = 53", 0, with_n(53)),
        accepted("n = 63", 0, with_n(63)),
        accepted("n = 64", 0, with_n(64)),
        refused("n = 0", 1, 0, with_n(0)),
        refused("n = 65", 1, 0, with_n(65)),
        refused("n = 128", 1, 0, with_n(128)),
        refused("n = 255", 1, 0, with_n(255)),
        accepted("8 table bytes", 0, with_bytes(8)),
        refused("1 table byte", 1, 0, with_bytes(1)),
        refused("7 table bytes", 1, 0, with_bytes(7)),
        refused("9 table bytes", 1, 0, with_bytes(9)),
        accepted("32,768 table bytes", 0, with_bytes(32_768)),
        accepted("32,776 table bytes", 0, with_bytes(32_776)),
        accepted("65,528 table bytes", 0, with_bytes(65_528)),
        accepted("65,536 table bytes", 0, with_bytes(65_536)),
        refused("65,535 table bytes", 1, 0, with_bytes(65_535)),
        refused("65,537 table bytes", 1, 0, with_bytes(65_537)),
        refused("65,543 table bytes", 1, 0, with_bytes(65_543)),
        refused("65,544 table bytes", 1, 0, with_bytes(65_544)),
        refused("131,072 table bytes", 1, 0, with_bytes(131_072)),
        accepted("64 roots", 0, with_root_bytes(128)),
        refused("65 roots", 1, 0, with_root_bytes(130)),
        refused("256 roots", 1, 0, with_root_bytes(512)),
        refused("1 root byte", 1, 0, with_root_bytes(1)),
        refused("127 root bytes", 1, 0, with_root_bytes(127)),
        refused("129 root bytes", 1, 0, with_root_bytes(129)),
    ]
}

/// The tables of the bench sheet as they are given.
fn bench_sheet() -> Vec<Case> {
    let a = [A_0, A_1, FREE];
    let b = [A_0, A_1];
    let d = [used(1, 0, 1), used(0, 0, 2), used(0, 0, 1)];
    let e = [used(0, 0, 1), used(1, 0, 1)];
    let f = [used(1, 0, 1), used(1, 1, 0), used(0, 2, 3), FREE, FREE];
    vec![
        accepted("case A", 2, input(&a, &[3], &[0, 1])),
        accepted("case B", 2, input(&b, &[3], &[0, 1])),
        accepted("case B, both named", 2, input(&b, &[3, 2], &[0, 1])),
        accepted("case C", 2, input(&a, &[3, 2], &[0, 1])),
        accepted("case D", 3, input(&d, &[3, 4], &[0, 1])),
        accepted("case E", 2, input(&e, &[2, 3], &[0, 1])),
        accepted("case F", 3, input(&f, &[4], &[0, 1])),
        accepted("case F, one record fewer", 3, input(&f[..4], &[4], &[0, 1])),
        accepted("case G", 0, input(&[], &[], &[0, 1, 2])),
        accepted("case H", 0, input(&[], &[], &[0, 1, 2, 3])),
    ]
}

/// The same tables after the swap that the bench sheet tells.
fn bench_sheet_afterwards() -> Vec<Case> {
    let a = [FREE, used(1, 0, 4), used(0, 0, 1)];
    let b = [used(0, 0, 1), used(1, 0, 2)];
    let c = [used(1, 0, 1), used(1, 0, 4), used(0, 0, 1)];
    let e = [used(0, 0, 1), used(1, 0, 1)];
    let f = [FREE, FREE, used(1, 5, 6), used(0, 0, 1), used(0, 1, 0)];
    let fewer = [used(0, 1, 0), FREE, used(1, 5, 2), used(0, 0, 1)];
    vec![
        accepted("case A afterwards", 2, input(&a, &[3], &[1, 0])),
        accepted("case B afterwards", 2, input(&b, &[3], &[1, 0])),
        accepted("case C afterwards", 3, input(&c, &[3, 2], &[1, 0])),
        accepted("case D afterwards", 2, input(&a, &[3, 4], &[1, 0])),
        accepted("case E afterwards", 2, input(&e, &[2, 3], &[1, 0])),
        accepted("case F afterwards", 3, input(&f, &[4], &[1, 0])),
        accepted("one fewer, afterwards", 3, input(&fewer, &[4], &[1, 0])),
    ]
}

/// References that need both of their bytes.
fn wide_references() -> Vec<Case> {
    let mut last_used = vec![FREE; 8_192];
    last_used[8_191] = used(0, 1, 0);
    let mut last_child = last_used.clone();
    last_child[0] = used(0, 0, 8_193);
    last_child[8_191] = used(63, 1, 0);
    let mut past_the_last = last_child.clone();
    past_the_last[0] = used(0, 0, 8_194);
    let order: Vec<u8> = (0..64).collect();
    let mut far_child = vec![FREE; 257];
    far_child[0] = used(0, 258, 1);
    far_child[256] = used(1, 0, 1);
    let mut too_far = far_child.clone();
    too_far[0] = used(0, 259, 1);
    vec![
        accepted("root to record 8,191", 1, input(&last_used, &[8_193], &[0])),
        refused(
            "root to 8,192",
            8,
            1,
            input(&last_used, &[8_193, 8_194], &[0]),
        ),
        refused(
            "root to 8,190",
            8,
            0,
            input(&last_used, &[8_192, 8_193], &[0]),
        ),
        accepted("child record 8,191", 2, input(&last_child, &[2], &order)),
        refused(
            "child 8,192 of 8,192",
            4,
            0,
            input(&past_the_last, &[2, 8_193], &order),
        ),
        accepted("child record 256", 2, input(&far_child, &[2], &[0, 1])),
        refused("child 256 above", 5, 0, input(&far_child, &[2], &[1, 0])),
        refused("child 257 of 257", 4, 0, input(&too_far, &[2], &[0, 1])),
    ]
}

fn refused_2() -> Vec<Case> {
    let with_order = |order: &[u8]| input(&[], &[], order);
    vec![
        accepted("any permutation", 0, with_order(&[2, 0, 3, 1])),
        refused("variable n", 2, 1, with_order(&[0, 2])),
        refused("variable 1 alone", 2, 0, with_order(&[1])),
        refused("variable 255", 2, 2, with_order(&[2, 1, 255])),
        refused("0 twice", 2, 1, with_order(&[0, 0])),
        refused("1 twice, far apart", 2, 3, with_order(&[1, 0, 2, 1])),
        refused(
            "repeating, then out of range",
            2,
            2,
            with_order(&[0, 1, 1, 9]),
        ),
        refused(
            "out of range, then repeating",
            2,
            1,
            with_order(&[0, 9, 0, 1]),
        ),
    ]
}

fn refused_4() -> Vec<Case> {
    let a = |table: &[Bytes]| input(table, &[3], &[0, 1]);
    vec![
        refused("variable 2 of 2", 4, 0, a(&[used(2, 0, 1), A_1, FREE])),
        refused("variable 254", 4, 1, a(&[A_0, used(254, 0, 2), FREE])),
        refused("used, byte 1", 4, 0, a(&[with(A_0, 1, 1), A_1, FREE])),
        refused("used, byte 6", 4, 1, a(&[A_0, with(A_1, 6, 128), FREE])),
        refused("used, byte 7", 4, 1, a(&[A_0, with(A_1, 7, 255), FREE])),
        refused("free, byte 1", 4, 2, a(&[A_0, A_1, with(FREE, 1, 1)])),
        refused("free, byte 2", 4, 2, a(&[A_0, A_1, with(FREE, 2, 1)])),
        refused("free, byte 3", 4, 2, a(&[A_0, A_1, with(FREE, 3, 1)])),
        refused("free, byte 4", 4, 2, a(&[A_0, A_1, with(FREE, 4, 1)])),
        refused("free, byte 5", 4, 2, a(&[A_0, A_1, with(FREE, 5, 1)])),
        refused("free, byte 6", 4, 2, a(&[A_0, A_1, with(FREE, 6, 1)])),
        refused("free, byte 7", 4, 2, a(&[A_0, A_1, with(FREE, 7, 1)])),
        refused("low past the table", 4, 0, a(&[used(1, 5, 1), A_1, FREE])),
        refused("high past the table", 4, 1, a(&[A_0, used(0, 0, 5), FREE])),
        refused("low 65,535", 4, 0, a(&[used(1, 65_535, 1), A_1, FREE])),
        refused("high 65,535", 4, 0, a(&[used(1, 0, 65_535), A_1, FREE])),
        refused("low to a free record", 4, 1, a(&[A_0, used(0, 4, 2), FREE])),
        refused(
            "high to a free record",
            4,
            1,
            a(&[A_0, used(0, 0, 4), FREE]),
        ),
        refused(
            "name of a malformed free record, which comes later",
            4,
            1,
            a(&[A_0, used(0, 2, 4), with(FREE, 3, 7)]),
        ),
        refused(
            "name of a malformed free record, which came earlier",
            4,
            0,
            a(&[with(FREE, 3, 7), used(0, 0, 2), FREE]),
        ),
        refused(
            "two malformed records",
            4,
            1,
            a(&[A_0, used(7, 0, 2), with(FREE, 3, 7)]),
        ),
    ]
}

/// Levels count, not variables: the first two tables stand under both orders,
/// and only one of these suits them.
fn refused_5() -> Vec<Case> {
    let downwards = [used(0, 0, 3), used(1, 0, 1)];
    let low_downwards = [used(0, 3, 0), used(1, 0, 1)];
    let same_level = [used(1, 0, 1), used(1, 2, 1), used(1, 0, 2)];
    vec![
        accepted("high below", 2, input(&downwards, &[2], &[0, 1])),
        refused("high above", 5, 0, input(&downwards, &[2], &[1, 0])),
        accepted("low below", 2, input(&low_downwards, &[2], &[0, 1])),
        refused("low above", 5, 0, input(&low_downwards, &[2], &[1, 0])),
        refused("on one level", 5, 1, input(&same_level, &[3, 4], &[0, 1])),
        refused("itself low", 5, 0, input(&[used(0, 2, 1)], &[2], &[0])),
        refused("itself high", 5, 0, input(&[used(0, 1, 2)], &[2], &[0])),
        refused("itself twice", 5, 0, input(&[used(0, 2, 2)], &[2], &[0])),
    ]
}

fn refused_6() -> Vec<Case> {
    let child_twice = [used(0, 3, 3), used(1, 0, 1)];
    let two = [used(0, 0, 1), used(1, 1, 1), used(0, 0, 0)];
    vec![
        refused("(0,0)", 6, 0, input(&[used(0, 0, 0)], &[2], &[0])),
        refused("(1,1)", 6, 0, input(&[used(0, 1, 1)], &[2], &[0])),
        refused("one child twice", 6, 0, input(&child_twice, &[2], &[0, 1])),
        refused("two such records", 6, 1, input(&two, &[2, 3, 4], &[0, 1])),
    ]
}

fn refused_7() -> Vec<Case> {
    let (p, q) = (used(0, 0, 1), used(0, 1, 0));
    let other_variable = [used(0, 0, 1), used(1, 0, 1)];
    let other_high = [used(1, 0, 1), used(0, 0, 2), used(0, 0, 1)];
    let other_low = [used(1, 0, 1), used(0, 2, 1), used(0, 0, 1)];
    vec![
        accepted("low, high exchanged", 2, input(&[p, q], &[2, 3], &[0])),
        accepted(
            "other variable",
            2,
            input(&other_variable, &[2, 3], &[0, 1]),
        ),
        accepted("other high", 3, input(&other_high, &[3, 4], &[0, 1])),
        accepted("other low", 3, input(&other_low, &[3, 4], &[0, 1])),
        accepted("free records alike", 1, input(&[FREE, p, FREE], &[3], &[0])),
        refused("next to it", 7, 1, input(&[p, p], &[2, 3], &[0])),
        refused("further on", 7, 2, input(&[p, FREE, p], &[2, 4], &[0])),
        refused("three alike", 7, 1, input(&[p, p, p], &[2, 3, 4], &[0])),
        refused(
            "pair in a pair",
            7,
            2,
            input(&[p, q, q, p], &[2, 3, 4, 5], &[0]),
        ),
        refused(
            "pairs crossed",
            7,
            2,
            input(&[p, q, p, q], &[2, 3, 4, 5], &[0]),
        ),
    ]
}

fn refused_8() -> Vec<Case> {
    let a = [A_0, A_1, FREE];
    vec![
        accepted("constant roots", 2, input(&a, &[1, 3, 0, 3], &[0, 1])),
        refused("past the table", 8, 0, input(&a, &[5], &[0, 1])),
        refused("past the table, second", 8, 1, input(&a, &[3, 5], &[0, 1])),
        refused("root 65,535", 8, 1, input(&a, &[3, 65_535], &[0, 1])),
        refused("to a free record", 8, 0, input(&a, &[4], &[0, 1])),
        refused("free record, third", 8, 2, input(&a, &[3, 0, 4], &[0, 1])),
        refused("two such roots", 8, 1, input(&a, &[3, 4, 5], &[0, 1])),
        refused("root 2 in no table", 8, 0, input(&[], &[2], &[0])),
    ]
}

/// A record with a name is not idle, even if its namer is.
fn refused_9() -> Vec<Case> {
    let a = [A_0, A_1, FREE];
    let two = [used(0, 0, 1), used(1, 0, 1), used(2, 0, 1)];
    vec![
        refused("alone", 9, 0, input(&[used(0, 0, 1)], &[], &[0])),
        refused("case A without roots", 9, 1, input(&a, &[], &[0, 1])),
        refused("case A with root 2", 9, 1, input(&a, &[2], &[0, 1])),
        refused("constant roots only", 9, 1, input(&a, &[0, 1], &[0, 1])),
        refused("two idle records", 9, 0, input(&two, &[3], &[0, 1, 2])),
        refused("idle at the end", 9, 2, input(&two, &[3, 2], &[0, 1, 2])),
    ]
}

/// Two faults at once: the lowest number is the one given, wherever it is.
fn lowest_number_first() -> Vec<Case> {
    let one_and_two = Input {
        table: vec![0; 7],
        ..input(&[], &[], &[5, 5])
    };
    let two_and_four = input(&[with(A_0, 1, 1)], &[2], &[0, 0]);
    let four_and_five = [used(1, 0, 3), used(0, 0, 1), with(FREE, 1, 1)];
    let five_and_six = [used(0, 1, 1), used(1, 0, 2)];
    let six_and_seven = [used(0, 0, 1), used(0, 0, 1), used(1, 0, 0)];
    let seven_and_eight = [used(0, 0, 1), used(0, 0, 1)];
    let eight_and_nine = [used(0, 0, 1)];
    vec![
        refused("1 and 2", 1, 0, one_and_two),
        refused("2 and 4", 2, 1, two_and_four),
        refused("4 and 5", 4, 2, input(&four_and_five, &[2], &[0, 1])),
        refused("5 and 6", 5, 1, input(&five_and_six, &[3], &[0, 1])),
        refused("6 and 7", 6, 2, input(&six_and_seven, &[2, 3, 4], &[0, 1])),
        refused("7 and 8", 7, 1, input(&seven_and_eight, &[9, 2, 3], &[0])),
        refused("8 and 9", 8, 1, input(&eight_and_nine, &[1, 3], &[0])),
    ]
}
