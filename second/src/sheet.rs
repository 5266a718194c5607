//! The bench sheet's cases A to K, and what lies next to them, with the
//! answers and buffers written out by hand.

use crate::by_hand::{chain, chain_of, input, used, with, Bytes, Case, A_0, A_1, FREE};
use crate::input::Input;
use crate::model::{Answer, Question};
use crate::refusals::Refusal;
use crate::swap::Lack;

pub fn cases() -> Vec<Case> {
    let of_two_variables = [
        case_a(),
        case_b(),
        case_c(),
        case_d(),
        case_e(),
        case_f(),
        case_j(),
        case_k(),
        refused_runs(),
    ];
    let others = [
        case_g(),
        case_h(),
        case_i(),
        each_plan_its_own_pair(),
        stuck_on_the_way(),
        shared_lower_records(),
        named_from_above(),
        parts_shown(),
        values_read(),
        refused_reads(),
        refused_swaps(),
        refused_plans(),
        roots_counted(),
        refused_counts(),
    ];
    let by_every_plan = of_two_variables
        .into_iter()
        .flatten()
        .flat_map(by_every_plan);
    by_every_plan.chain(others.into_iter().flatten()).collect()
}

const LARGEST: u32 = u32::MAX;

fn check(name: &'static str, input: Input, answer: Answer) -> Case {
    Case::unchanged(name, input, Question::Check, answer)
}

fn read(name: &'static str, input: Input, position: u32, inputs: &[u8], answer: Answer) -> Case {
    let inputs = inputs.to_vec();
    Case::unchanged(name, input, Question::Read { position, inputs }, answer)
}

fn show(name: &'static str, input: Input, position: u32, part: [usize; 2]) -> Case {
    let [offset, length] = part;
    let answer = Answer::Part { offset, length };
    Case::unchanged(name, input, Question::Show { position }, answer)
}

fn swap(name: &'static str, input: Input, level: u32, answer: Answer, after: Input) -> Case {
    Case::logged(name, input, Question::Swap { level }, answer, after)
}

fn count(name: &'static str, input: Input, position: u32, answer: Answer) -> Case {
    Case::unchanged(name, input, Question::Count { position }, answer)
}

/// Plans are written as their numbers: 0 Bring Up, 1 Sink Down, 2 Lowest
/// Inversion, 3 Highest Inversion.
fn run_by(
    plan: u32,
    name: &'static str,
    input: Input,
    (target, budget): (&[u8], u32),
    answer: Answer,
    after: Input,
) -> Case {
    let question = Question::Run {
        target: target.to_vec(),
        plan,
        budget,
    };
    Case::logged(name, input, question, answer, after)
}

/// By Bring Up; `by_every_plan` makes the others of it.
fn run(name: &'static str, input: Input, job: (&[u8], u32), answer: Answer, after: Input) -> Case {
    run_by(0, name, input, job, answer, after)
}

/// A run, once for each plan: two variables have only one pair to be swapped.
/// Any other case is itself.
fn by_every_plan(case: Case) -> Vec<Case> {
    let Question::Run { target, budget, .. } = case.question.clone() else {
        return vec![case];
    };
    let by = |plan| Case {
        question: Question::Run {
            target: target.clone(),
            plan,
            budget,
        },
        ..case.clone()
    };
    (0..4).map(by).collect()
}

const EMPTY: [usize; 2] = [0, 0];

fn refused(number: u32, place: usize) -> Answer {
    Answer::Refused(Refusal { number, place })
}

fn accepted(used: usize) -> Answer {
    Answer::Accepted { used }
}

fn done(swaps: u32) -> Answer {
    Answer::Done { swaps, left: 0 }
}

fn paused(swaps: u32, left: usize) -> Answer {
    Answer::Paused { swaps, left }
}

fn lack(level: usize, needed: usize, free: usize) -> Lack {
    Lack {
        level,
        needed,
        free,
    }
}

fn counted(count: u64, share: f64) -> Answer {
    let share = share.to_bits();
    Answer::Counted { count, share }
}

/// A run without room.
fn stuck(swaps: u32, left: usize, lack: Lack) -> Answer {
    Answer::Stuck { swaps, left, lack }
}

fn a() -> Input {
    input(&[A_0, A_1, FREE], &[3], &[0, 1])
}

fn a_after() -> Input {
    input(&[FREE, used(1, 0, 4), used(0, 0, 1)], &[3], &[1, 0])
}

fn case_a() -> Vec<Case> {
    let to_1_0 = |budget| (&[1, 0][..], budget);
    vec![
        swap("A swapped", a(), 0, Answer::Made, a_after()),
        run("A, budget 1", a(), to_1_0(1), done(1), a_after()),
        run("A, budget 2", a(), to_1_0(2), done(1), a_after()),
        run(
            "A, largest budget",
            a(),
            to_1_0(LARGEST),
            done(1),
            a_after(),
        ),
        // And back again: y is the 0 of record 2, and record 0 is free.
        swap(
            "A swapped back",
            a_after(),
            0,
            Answer::Made,
            input(&[used(1, 0, 1), used(0, 0, 2), FREE], &[3], &[0, 1]),
        ),
    ]
}

fn b() -> Input {
    input(&[A_0, A_1], &[3], &[0, 1])
}

/// The new record 0 (0,1) has taken the place of record 0, which only the
/// crossing record named.
fn b_after() -> Input {
    input(&[used(0, 0, 1), used(1, 0, 2)], &[3], &[1, 0])
}

/// B with a root to record 0 too, so that it doesn't die.
fn b_both_named() -> Input {
    input(&[A_0, A_1], &[3, 2], &[0, 1])
}

fn case_b() -> Vec<Case> {
    let lack = lack(0, 1, 0);
    let no_room = stuck(0, 1, lack);
    let to_1_0 = |budget| (&[1, 0][..], budget);
    let named = b_both_named;
    vec![
        swap("B swapped", b(), 0, Answer::Made, b_after()),
        run("B, budget 1", b(), to_1_0(1), done(1), b_after()),
        run("B, budget 2", b(), to_1_0(2), done(1), b_after()),
        run(
            "B, largest budget",
            b(),
            to_1_0(LARGEST),
            done(1),
            b_after(),
        ),
        check("B afterwards", b_after(), accepted(2)),
        // And back again: y is the 0 of record 0, which dies.
        swap("B swapped back", b_after(), 0, Answer::Made, b()),
        swap("B, both named", named(), 0, Answer::NoRoom(lack), named()),
        run(
            "B, both named, budget 1",
            named(),
            to_1_0(1),
            no_room,
            named(),
        ),
        run(
            "B, both named, largest budget",
            named(),
            to_1_0(LARGEST),
            no_room,
            named(),
        ),
    ]
}

fn c() -> Input {
    input(&[A_0, A_1, FREE], &[3, 2], &[0, 1])
}

fn case_c() -> Vec<Case> {
    let after = || input(&[A_0, used(1, 0, 4), used(0, 0, 1)], &[3, 2], &[1, 0]);
    vec![
        swap("C swapped", c(), 0, Answer::Made, after()),
        run("C", c(), (&[1, 0], 1), done(1), after()),
        check("C afterwards", after(), accepted(3)),
    ]
}

fn d() -> Input {
    let records = [used(1, 0, 1), used(0, 0, 2), used(0, 0, 1)];
    input(&records, &[3, 4], &[0, 1])
}

fn case_d() -> Vec<Case> {
    let after = [FREE, used(1, 0, 4), used(0, 0, 1)];
    let after = || input(&after, &[3, 4], &[1, 0]);
    vec![
        swap("D swapped", d(), 0, Answer::Made, after()),
        run("D", d(), (&[1, 0], 1), done(1), after()),
    ]
}

fn e(order: &[u8]) -> Input {
    input(&[used(0, 0, 1), used(1, 0, 1)], &[2, 3], order)
}

fn case_e() -> Vec<Case> {
    vec![
        swap("E swapped", e(&[0, 1]), 0, Answer::Made, e(&[1, 0])),
        run("E", e(&[0, 1]), (&[1, 0], 1), done(1), e(&[1, 0])),
    ]
}

fn f() -> Input {
    let records = [used(1, 0, 1), used(1, 1, 0), used(0, 2, 3), FREE, FREE];
    input(&records, &[4], &[0, 1])
}

fn case_f() -> Vec<Case> {
    let after = [FREE, FREE, used(1, 5, 6), used(0, 0, 1), used(0, 1, 0)];
    let after = || input(&after, &[4], &[1, 0]);
    let mut cases = vec![
        swap("F swapped", f(), 0, Answer::Made, after()),
        run("F", f(), (&[1, 0], 1), done(1), after()),
    ];
    cases.extend(f_made_in_places_of_dying_records());
    cases.extend(f_without_room());
    cases
}

/// F with fewer free records. It needs two: 0 (0,1), and then 0 (1,0).
fn fewer(free: usize, roots: &[u16]) -> Input {
    let used = [used(1, 0, 1), used(1, 1, 0), used(0, 2, 3)];
    input(&[&used[..], &vec![FREE; free]].concat(), roots, &[0, 1])
}

/// A free record goes first, whatever its number; of two that die the lower one,
/// whichever of them is met first.
fn f_made_in_places_of_dying_records() -> Vec<Case> {
    let made = |name, run_name, before: Input, after: &[Bytes]| {
        let roots = before.root_list();
        let roots: Vec<u16> = roots.iter().map(|root| root.0).collect();
        let after = || input(after, &roots, &[1, 0]);
        [
            swap(name, before.clone(), 0, Answer::Made, after()),
            run(run_name, before, (&[1, 0], 1), done(1), after()),
        ]
    };
    let turned = [used(1, 1, 0), used(1, 0, 1), used(0, 3, 2)];
    [
        // The free record, then record 0; record 1 becomes free.
        made(
            "F, one fewer",
            "F, one fewer, run",
            fewer(1, &[4]),
            &[used(0, 1, 0), FREE, used(1, 5, 2), used(0, 0, 1)],
        ),
        // Record 0, then record 1.
        made(
            "F, none free",
            "F, none free, run",
            fewer(0, &[4]),
            &[used(0, 0, 1), used(0, 1, 0), used(1, 2, 3)],
        ),
        // The low child is record 1 here, and 0 (0,1) takes record 0 all the same.
        made(
            "F turned, none free",
            "F turned, none free, run",
            input(&turned, &[4], &[0, 1]),
            &[used(0, 0, 1), used(0, 1, 0), used(1, 2, 3)],
        ),
        // A root names record 0: the free record, then record 1, and that is all.
        made(
            "F, one free, one dying",
            "F, one free, one dying, run",
            fewer(1, &[4, 2]),
            &[used(1, 0, 1), used(0, 1, 0), used(1, 5, 3), used(0, 0, 1)],
        ),
    ]
    .concat()
}

/// Roots name one of the records of y, or both: these don't die.
fn f_without_room() -> Vec<Case> {
    let no_room = |name, run_name, before: Input, lack| {
        let answer = stuck(0, 1, lack);
        let after = before.clone();
        [
            swap(name, before.clone(), 0, Answer::NoRoom(lack), after.clone()),
            run(run_name, before, (&[1, 0], 1), answer, after),
        ]
    };
    [
        no_room(
            "F, none free, one dying",
            "F, none free, one dying, run",
            fewer(0, &[4, 2]),
            lack(0, 2, 0),
        ),
        no_room(
            "F, one free, none dying",
            "F, one free, none dying, run",
            fewer(1, &[3, 4, 2]),
            lack(0, 2, 1),
        ),
        no_room(
            "F, none free, none dying",
            "F, none free, none dying, run",
            fewer(0, &[2, 3, 4]),
            lack(0, 2, 0),
        ),
    ]
    .concat()
}

/// An order with no records and no roots.
fn alone(order: &[u8]) -> Input {
    input(&[], &[], order)
}

/// Three swaps by way of these orders; the last of them is the target.
fn in_three<const N: usize>(
    plan: u32,
    name: &'static str,
    start: [u8; N],
    way: [[u8; N]; 3],
) -> Vec<Case> {
    let [first, second, target] = way;
    let run = |budget, answer, after: [u8; N]| {
        let job = (&target[..], budget);
        run_by(plan, name, alone(&start), job, answer, alone(&after))
    };
    vec![
        run(0, paused(0, 3), start),
        run(1, paused(1, 2), first),
        run(2, paused(2, 1), second),
        run(3, done(3), target),
        run(4, done(3), target),
        run(LARGEST, done(3), target),
    ]
}

fn case_g() -> Vec<Case> {
    let g = |plan, name, way| in_three(plan, name, [0, 1, 2], way);
    [
        g(0, "G, Bring Up", [[0, 2, 1], [2, 0, 1], [2, 1, 0]]),
        g(1, "G, Sink Down", [[1, 0, 2], [1, 2, 0], [2, 1, 0]]),
        g(2, "G, Lowest", [[0, 2, 1], [2, 0, 1], [2, 1, 0]]),
        g(3, "G, Highest", [[1, 0, 2], [1, 2, 0], [2, 1, 0]]),
    ]
    .concat()
}

fn case_h() -> Vec<Case> {
    let target = [1, 3, 0, 2];
    let h = |plan, name, [first, second]: [[u8; 4]; 2]| {
        in_three(plan, name, [0, 1, 2, 3], [first, second, target])
    };
    [
        h(0, "H, Bring Up", [[1, 0, 2, 3], [1, 0, 3, 2]]),
        h(1, "H, Sink Down", [[0, 1, 3, 2], [1, 0, 3, 2]]),
        h(2, "H, Lowest", [[0, 1, 3, 2], [1, 0, 3, 2]]),
        h(3, "H, Highest", [[1, 0, 2, 3], [1, 0, 3, 2]]),
    ]
    .concat()
}

/// Bring Up and Lowest Inversion exchange the two lowest levels last, the
/// others the two highest.
fn case_i() -> Vec<Case> {
    let starting_65: Vec<u8> = (0..65).collect();
    let reversed_65: Vec<u8> = (0..65).rev().collect();
    let over = run(
        "I, n = 65",
        alone(&starting_65),
        (&reversed_65, LARGEST),
        refused(1, 0),
        alone(&starting_65),
    );
    [
        reversed_by(0, "I, Bring Up", 64, 62),
        reversed_by(1, "I, Sink Down", 64, 0),
        reversed_by(2, "I, Lowest", 64, 62),
        reversed_by(3, "I, Highest", 64, 0),
        reversed_by(0, "n = 33, Bring Up", 33, 31),
        reversed_by(1, "n = 33, Sink Down", 33, 0),
        by_every_plan(over),
    ]
    .concat()
}

/// All pairs of n variables are exchanged: with 64 these are 2,016, with 33 they
/// are 528. One swap before the end the pair at this upper level is still to be.
fn reversed_by(plan: u32, name: &'static str, n: u8, last: usize) -> Vec<Case> {
    let starting: Vec<u8> = (0..n).collect();
    let reversed: Vec<u8> = (0..n).rev().collect();
    let pairs = if n == 64 { 2_016 } else { 528 };
    let mut nearly = reversed.clone();
    nearly.swap(last, last + 1);
    let run = |budget, answer, after: &[u8]| {
        let job = (&reversed[..], budget);
        run_by(plan, name, alone(&starting), job, answer, alone(after))
    };
    vec![
        run(LARGEST, done(pairs), &reversed),
        run(pairs, done(pairs), &reversed),
        run(pairs - 1, paused(pairs - 1, 1), &nearly),
    ]
}

const CHAIN_ORDER: [u8; 6] = [2, 1, 0, 5, 4, 3];
const RISING: [u8; 6] = [0, 1, 2, 3, 4, 5];

/// From the chain's order to 0 1 2 3 4 5, without records, with the chain, and
/// with the chain and a root to its top alone, which every swap then leaves
/// standing in its full table: the first swap tells the plans apart.
fn each_plan_its_own_pair() -> Vec<Case> {
    let one = (&RISING[..], 1);
    let all = (&RISING[..], LARGEST);
    let of_one_root = |order| chain_of(order, &[2]);
    let start = || of_one_root(CHAIN_ORDER);
    let each = |plan, name, level, after: [u8; 6]| {
        let no_room = stuck(0, 6, lack(level, 1, 0));
        let (bare, bare_after) = (alone(&CHAIN_ORDER), alone(&after));
        let (first, end) = (of_one_root(after), of_one_root(RISING));
        [
            run_by(plan, name, bare, one, paused(1, 5), bare_after),
            run_by(plan, name, chain(), one, no_room, chain()),
            run_by(plan, name, start(), one, paused(1, 5), first),
            run_by(plan, name, start(), all, done(6), end),
        ]
    };
    [
        each(0, "six, Bring Up", 1, [2, 0, 1, 5, 4, 3]),
        each(1, "six, Sink Down", 3, [2, 1, 0, 4, 5, 3]),
        each(2, "six, Lowest", 4, [2, 1, 0, 5, 3, 4]),
        each(3, "six, Highest", 0, [1, 2, 0, 5, 4, 3]),
    ]
    .concat()
}

/// The chain with roots to records 0 and 4: at any level but 3 a record dies, and
/// there is room. Each plan comes to level 3 at last, after so many swaps.
fn stuck_on_the_way() -> Vec<Case> {
    let of_two_roots = |order| chain_of(order, &[2, 6]);
    let stuck_after = |plan, name, swaps: u32, order: [u8; 6]| {
        let answer = stuck(swaps, 6 - swaps as usize, lack(3, 1, 0));
        let row = |budget| {
            let (before, after) = (of_two_roots(CHAIN_ORDER), of_two_roots(order));
            run_by(plan, name, before, (&RISING, budget), answer, after)
        };
        [row(LARGEST), row(swaps)]
    };
    [
        stuck_after(0, "stuck, Bring Up", 4, [0, 1, 2, 5, 3, 4]),
        stuck_after(1, "stuck, Sink Down", 0, CHAIN_ORDER),
        stuck_after(2, "stuck, Lowest", 1, [2, 1, 0, 5, 3, 4]),
        stuck_after(3, "stuck, Highest", 3, [0, 1, 2, 5, 4, 3]),
    ]
    .concat()
}

fn case_j() -> Vec<Case> {
    let no_room = stuck(0, 1, lack(0, 1, 0));
    let named = b_both_named;
    vec![
        run("J, in A", a(), (&[1, 0], 0), paused(0, 1), a()),
        run("J, in B", b(), (&[1, 0], 0), paused(0, 1), b()),
        run("J, both named", named(), (&[1, 0], 0), no_room, named()),
        run("J, A at its target", a(), (&[0, 1], 0), done(0), a()),
        run("J, B at its target", b(), (&[0, 1], 0), done(0), b()),
        run(
            "J, both named, at its target",
            named(),
            (&[0, 1], 0),
            done(0),
            named(),
        ),
        run("B at its target", b(), (&[0, 1], LARGEST), done(0), b()),
    ]
}

/// A full table of which record 8,191 alone is used, named by so many roots.
fn last_used(roots: usize) -> Input {
    let mut records = vec![FREE; 8_192];
    records[8_191] = used(0, 0, 1);
    input(&records, &vec![8_193; roots], &[0])
}

/// Each of the six asked with the longest table and with one record more,
/// and with 64 roots and one more.
fn case_k() -> Vec<Case> {
    let records = |count: usize, order: &[u8]| input(&vec![FREE; count], &[1], order);
    let roots = |count: usize, order: &[u8]| input(&[], &vec![1; count], order);
    let (before, after) = (&[0, 1], &[1, 0]);
    let over = || records(8_193, before);
    let longer = || records(4_097, before);
    let many = || roots(65, before);
    let no = refused(1, 0);
    let (one, made, all_of_4) = (Answer::Value(1), Answer::Made, counted(4, 1.0));
    let there = || records(8_192, after);
    let longer_after = || records(4_097, after);
    vec![
        check("K, 65,536 bytes", records(8_192, before), accepted(0)),
        check("K, 65,544 bytes", over(), no),
        check("K, 64 roots", roots(64, before), accepted(0)),
        check("K, 65 roots", many(), no),
        read("K, 65,536 bytes", records(8_192, before), 0, &[0, 0], one),
        read("K, 65,544 bytes", over(), 0, &[0, 0], no),
        read("K, 64 roots", roots(64, before), 63, &[0, 0], one),
        read("K, 65 roots", many(), 63, &[0, 0], no),
        show("K, 65,536 bytes", last_used(1), 0, [65_528, 8]),
        show("K, 65,544 bytes", over(), 0, EMPTY),
        show("K, 64 roots", last_used(64), 63, [65_528, 8]),
        show("K, 65 roots", last_used(65), 64, EMPTY),
        swap("K, 65,536 bytes", records(8_192, before), 0, made, there()),
        swap("K, 65,544 bytes", over(), 0, no, over()),
        swap("K, 64 roots", roots(64, before), 0, made, roots(64, after)),
        swap("K, 65 roots", many(), 0, no, many()),
        run(
            "K, 65,536 bytes",
            records(8_192, before),
            (after, 1),
            done(1),
            there(),
        ),
        run("K, 65,544 bytes", over(), (after, 1), no, over()),
        run(
            "K, 64 roots",
            roots(64, before),
            (after, 1),
            done(1),
            roots(64, after),
        ),
        run("K, 65 roots", many(), (after, 1), no, many()),
        count("K, 65,536 bytes", records(8_192, before), 0, all_of_4),
        count("K, 65,544 bytes", over(), 0, no),
        count("K, 64 roots", roots(64, before), 63, all_of_4),
        count("K, 65 roots", many(), 63, no),
        count("K, the last record", last_used(64), 63, counted(1, 0.5)),
        // What was too long once is no longer.
        check("K, 32,776 bytes", longer(), accepted(0)),
        read("K, 32,776 bytes", longer(), 0, &[0, 0], one),
        swap("K, 32,776 bytes", longer(), 0, made, longer_after()),
        run(
            "K, 32,776 bytes",
            longer(),
            (after, 1),
            done(1),
            longer_after(),
        ),
        count("K, 32,776 bytes", longer(), 0, all_of_4),
    ]
}

/// Levels 1 and 2 of three, variables 2 and 0; the table is
///
/// 0: 2 (1,4), crossing; 1: free; 2: 0 (0,1); 3: 2 (4,0), crossing; 4: free;
/// 5: 1 (2,5), above; 6: 0 (1,0); 7: 2 (4,8), crossing; roots 7 and 9.
///
/// Record 0: f00 1, f01 1, f10 0, f11 1. Low X(1,0) is new, in record 1, and
/// high X(1,1) is 1. Record 3: f00 0, f01 1, f10 0, f11 0. Low is 0, and high
/// X(1,0) is the record just made. Record 7: f00 0, f01 1, f10 1, f11 0. Low
/// X(0,1) is new, in record 4, and high X(1,0) is record 1 again. No record 2
/// and no record 6 is named any more: they die, and no new record takes them.
fn shared_lower_records() -> Vec<Case> {
    let before = [
        used(2, 1, 4),
        FREE,
        used(0, 0, 1),
        used(2, 4, 0),
        FREE,
        used(1, 2, 5),
        used(0, 1, 0),
        used(2, 4, 8),
    ];
    let after = [
        used(0, 3, 1),
        used(2, 1, 0),
        FREE,
        used(0, 0, 3),
        used(2, 0, 1),
        used(1, 2, 5),
        FREE,
        used(0, 6, 3),
    ];
    let roots = [7, 9];
    let mut cases = vec![swap(
        "shared lower records",
        input(&before, &roots, &[1, 2, 0]),
        1,
        Answer::Made,
        input(&after, &roots, &[1, 0, 2]),
    )];
    cases.extend(shared_with_one_free());
    cases.extend(shared_with_none_free());
    cases
}

/// The same with one free record fewer. X(1,0) takes record 3, which is free,
/// and X(0,1) record 1, the lower of the two that die; record 5 becomes free.
/// Where roots name these two, there is room for one only.
fn shared_with_one_free() -> Vec<Case> {
    let before = [
        used(2, 1, 3),
        used(0, 0, 1),
        used(2, 3, 0),
        FREE,
        used(1, 2, 4),
        used(0, 1, 0),
        used(2, 3, 7),
    ];
    let after = [
        used(0, 5, 1),
        used(2, 0, 1),
        used(0, 0, 5),
        used(2, 1, 0),
        used(1, 2, 4),
        FREE,
        used(0, 3, 5),
    ];
    let named = || input(&before, &[6, 3, 8, 7], &[1, 2, 0]);
    vec![
        swap(
            "shared lower records, one free",
            input(&before, &[6, 8], &[1, 2, 0]),
            1,
            Answer::Made,
            input(&after, &[6, 8], &[1, 0, 2]),
        ),
        swap(
            "shared lower records, no room",
            named(),
            1,
            Answer::NoRoom(lack(1, 2, 1)),
            named(),
        ),
    ]
}

/// The same with no free record. X(1,0) takes record 1, and X(0,1) record 4.
/// Where a root names record 1, only record 4 dies: one record is missing. With
/// that one, record 6, X(1,0) takes it, X(0,1) takes record 4, and none is free
/// then.
fn shared_with_none_free() -> Vec<Case> {
    let before = [
        used(2, 1, 3),
        used(0, 0, 1),
        used(2, 3, 0),
        used(1, 2, 4),
        used(0, 1, 0),
        used(2, 3, 6),
    ];
    let after = [
        used(0, 3, 1),
        used(2, 1, 0),
        used(0, 0, 3),
        used(1, 2, 4),
        used(2, 0, 1),
        used(0, 6, 3),
    ];
    let exactly = [&before[..], &[FREE]].concat();
    let exactly_after = [
        used(0, 8, 1),
        used(0, 0, 1),
        used(0, 0, 8),
        used(1, 2, 4),
        used(2, 0, 1),
        used(0, 6, 8),
        used(2, 1, 0),
    ];
    let named = || input(&before, &[5, 7, 3], &[1, 2, 0]);
    vec![
        swap(
            "shared lower records, none free",
            input(&before, &[5, 7], &[1, 2, 0]),
            1,
            Answer::Made,
            input(&after, &[5, 7], &[1, 0, 2]),
        ),
        swap(
            "shared lower records, one missing",
            named(),
            1,
            Answer::NoRoom(lack(1, 2, 0)),
            named(),
        ),
        swap(
            "shared lower records, just enough",
            input(&exactly, &[5, 7, 3], &[1, 2, 0]),
            1,
            Answer::Made,
            input(&exactly_after, &[5, 7, 3], &[1, 0, 2]),
        ),
    ]
}

/// Levels 1 and 2 of three, variables 1 and 2. Record 1 crosses and needs
/// X(0,1). Record 2 stands above both levels: where it names record 0 too, that
/// one doesn't die; where it names record 1 alone, it does.
fn named_from_above() -> Vec<Case> {
    let below = [used(2, 0, 1), used(1, 0, 2)];
    let both = [&below[..], &[used(0, 2, 3)]].concat();
    let both_with_free = [&both[..], &[FREE]].concat();
    let both_after = [used(2, 0, 1), used(2, 0, 5), used(0, 2, 3), used(1, 0, 1)];
    let one = [&below[..], &[used(0, 0, 3)]].concat();
    let one_after = [used(1, 0, 1), used(2, 0, 2), used(0, 0, 3)];
    let before = |records: &[Bytes]| input(records, &[4], &[0, 1, 2]);
    let after = |records: &[Bytes]| input(records, &[4], &[0, 2, 1]);
    vec![
        swap(
            "named from above, no room",
            before(&both),
            1,
            Answer::NoRoom(lack(1, 1, 0)),
            before(&both),
        ),
        swap(
            "named from above, one free",
            before(&both_with_free),
            1,
            Answer::Made,
            after(&both_after),
        ),
        swap(
            "not named from above",
            before(&one),
            1,
            Answer::Made,
            after(&one_after),
        ),
    ]
}

fn parts_shown() -> Vec<Case> {
    let roots = || input(&[A_0, A_1, FREE], &[0, 3, 1, 2], &[0, 1]);
    let idle = input(&[A_0, A_1, FREE], &[2], &[0, 1]);
    vec![
        show("A shown", a(), 0, [8, 8]),
        show("A afterwards, shown", a_after(), 0, [8, 8]),
        show("root false", roots(), 0, EMPTY),
        show("root 3", roots(), 1, [8, 8]),
        show("root true", roots(), 2, EMPTY),
        show("root 2, at the start", roots(), 3, [0, 8]),
        show("no root 4", roots(), 4, EMPTY),
        show("no root 256", roots(), 256, EMPTY),
        show("no such root by far", roots(), LARGEST, EMPTY),
        show("a refused table", idle, 0, EMPTY),
        show("no roots", alone(&[0]), 0, EMPTY),
    ]
}

/// A is variable 0 and variable 1. The other table is variable 1, under an
/// order with that variable at level 0.
fn values_read() -> Vec<Case> {
    let value = Answer::Value;
    let roots = || input(&[A_0, A_1, FREE], &[0, 3, 1, 2], &[0, 1]);
    let turned = || input(&[used(1, 0, 1)], &[2], &[1, 0]);
    vec![
        read("A under 0 0", a(), 0, &[0, 0], value(0)),
        read("A under 0 1", a(), 0, &[0, 1], value(0)),
        read("A under 1 0", a(), 0, &[1, 0], value(0)),
        read("A under 1 1", a(), 0, &[1, 1], value(1)),
        read("A afterwards under 0 1", a_after(), 0, &[0, 1], value(0)),
        read("A afterwards under 1 0", a_after(), 0, &[1, 0], value(0)),
        read("A afterwards under 1 1", a_after(), 0, &[1, 1], value(1)),
        read("root false", roots(), 0, &[1, 1], value(0)),
        read("root 3", roots(), 1, &[0, 1], value(0)),
        read("root true", roots(), 2, &[0, 0], value(1)),
        read("root 2", roots(), 3, &[0, 1], value(1)),
        read("a variable, not a level", turned(), 0, &[0, 1], value(1)),
        read("nor the other way round", turned(), 0, &[1, 0], value(0)),
    ]
}

fn refused_reads() -> Vec<Case> {
    let idle = || input(&[A_0, A_1, FREE], &[2], &[0, 1]);
    let far = LARGEST as usize;
    vec![
        read("no root 1", a(), 1, &[0, 0], refused(10, 1)),
        read("no root 256", a(), 256, &[0, 0], refused(10, 256)),
        read("by far", a(), LARGEST, &[0, 0], refused(10, far)),
        read("no roots", alone(&[0]), 0, &[0], refused(10, 0)),
        read("no root, no inputs", a(), 1, &[], refused(10, 1)),
        read("no inputs", a(), 0, &[], refused(11, 0)),
        read("one input", a(), 0, &[1], refused(11, 0)),
        read("three inputs", a(), 0, &[1, 1, 1], refused(11, 0)),
        read("input 2", a(), 0, &[2, 1], refused(11, 0)),
        read("input 255", a(), 0, &[1, 255], refused(11, 0)),
        read("input 2, not looked at", a(), 0, &[0, 2], refused(11, 0)),
        read("idle, and no root", idle(), 7, &[3], refused(9, 1)),
    ]
}

fn refused_swaps() -> Vec<Case> {
    let malformed = || input(&[with(A_0, 1, 1), A_1], &[3], &[0, 1]);
    let far = LARGEST as usize;
    vec![
        swap("A, level 1", a(), 1, refused(12, 1), a()),
        swap("A, level 2", a(), 2, refused(12, 2), a()),
        swap("A, level 256", a(), 256, refused(12, 256), a()),
        swap("A, by far", a(), LARGEST, refused(12, far), a()),
        swap("n = 1", alone(&[0]), 0, refused(12, 0), alone(&[0])),
        swap("n = 0", alone(&[]), 0, refused(1, 0), alone(&[])),
        swap("4 and 12", malformed(), 1, refused(4, 0), malformed()),
    ]
}

fn refused_runs() -> Vec<Case> {
    let malformed = || input(&[with(A_0, 1, 1), A_1], &[3], &[0, 1]);
    let repeating = || alone(&[0, 0]);
    vec![
        run("no target", a(), (&[], 1), refused(1, 0), a()),
        run("target of 1", a(), (&[0], 1), refused(1, 0), a()),
        run("target of 3", a(), (&[1, 0, 2], 1), refused(1, 0), a()),
        run("target 1 1", a(), (&[1, 1], 1), refused(3, 1), a()),
        run("target 2 0", a(), (&[2, 0], 0), refused(3, 0), a()),
        run(
            "2 and 3",
            repeating(),
            (&[1, 1], 1),
            refused(2, 1),
            repeating(),
        ),
        run(
            "3 and 4",
            malformed(),
            (&[0, 255], 1),
            refused(3, 1),
            malformed(),
        ),
        run(
            "4, at its target",
            malformed(),
            (&[0, 1], 0),
            refused(4, 0),
            malformed(),
        ),
    ]
}

/// Numbers that are no plan's: the next one, and others whose last bits are.
const NO_PLANS: [u32; 5] = [4, 255, 256, 1 << 31, LARGEST];

/// Refused with any store, unless one of the refusals 1 to 9 applies: it wins.
fn refused_plans() -> Vec<Case> {
    NO_PLANS.into_iter().flat_map(refused_plan).collect()
}

fn refused_plan(plan: u32) -> Vec<Case> {
    let row = |name, input: Input, target: &[u8], answer| {
        run_by(plan, name, input.clone(), (target, 1), answer, input)
    };
    let order = &[0, 1];
    let (to, no_such_plan) = (&[1, 0], refused(13, plan as usize));
    let malformed = input(&[with(A_0, 1, 1), A_1], &[3], order);
    let equal = input(&[used(0, 1, 1)], &[2], order);
    let repeating = input(&[A_0, A_0], &[2, 3], order);
    vec![
        row("no such plan", a(), to, no_such_plan),
        row("no such plan, no room", b_both_named(), to, no_such_plan),
        row("no such plan, at the target", a(), order, no_such_plan),
        row("1 and 13", a(), &[0], refused(1, 0)),
        row("2 and 13", alone(&[0, 0]), to, refused(2, 1)),
        row("3 and 13", a(), &[1, 1], refused(3, 1)),
        row("4 and 13", malformed, to, refused(4, 0)),
        row("5 and 13", input(&[A_0, A_1], &[3], to), to, refused(5, 1)),
        row("6 and 13", equal, to, refused(6, 0)),
        row("7 and 13", repeating, to, refused(7, 1)),
        row("8 and 13", input(&[], &[2], order), to, refused(8, 0)),
        row("9 and 13", input(&[A_0], &[], order), to, refused(9, 0)),
    ]
}

/// A is variable 0 and variable 1: 1 under one of the four combinations. The
/// second roots of C and D, and both of E's, are a variable alone: under two. F
/// is 1 where its inputs differ: under two. The chain's root at level k is 1
/// where that level's input and all below it are 1: under 2^k.
fn roots_counted() -> Vec<Case> {
    let (one_of_4, two_of_4) = (counted(1, 0.25), counted(2, 0.5));
    let constants = || input(&[A_0, A_1, FREE], &[0, 3, 1], &[0, 1]);
    vec![
        count("A counted", a(), 0, one_of_4),
        count("A afterwards, counted", a_after(), 0, one_of_4),
        count("B counted", b(), 0, one_of_4),
        count("C counted", c(), 0, one_of_4),
        count("C, second root", c(), 1, two_of_4),
        count("D counted", d(), 0, one_of_4),
        count("D, second root", d(), 1, two_of_4),
        count("E counted", e(&[0, 1]), 0, two_of_4),
        count("E, second root, turned", e(&[1, 0]), 1, two_of_4),
        count("F counted", f(), 0, two_of_4),
        count("root false", constants(), 0, counted(0, 0.0)),
        count("a record between them", constants(), 1, one_of_4),
        count("root true", constants(), 2, counted(4, 1.0)),
        count("six, level 0", chain(), 0, counted(1, 0.015_625)),
        count("six, level 1", chain(), 1, counted(2, 0.031_25)),
        count("six, level 5", chain(), 5, counted(32, 0.5)),
    ]
}

fn refused_counts() -> Vec<Case> {
    let far = LARGEST as usize;
    let malformed = input(&[with(A_0, 1, 1), A_1], &[3], &[0, 1]);
    let equal = input(&[used(0, 1, 1)], &[2], &[0, 1]);
    let repeating = input(&[A_0, A_0], &[2, 3], &[0, 1]);
    vec![
        count("no root 1", a(), 1, refused(10, 1)),
        count("no root 256", a(), 256, refused(10, 256)),
        count("no root 65,536", a(), 65_536, refused(10, 65_536)),
        count("by far", a(), LARGEST, refused(10, far)),
        count("G, no roots", alone(&[0, 1, 2]), 0, refused(10, 0)),
        count("no order", input(&[], &[1], &[]), 0, refused(1, 0)),
        count("2 and 10", alone(&[0, 0]), 0, refused(2, 1)),
        count("4 and 10", malformed, 1, refused(4, 0)),
        count(
            "5 and 10",
            input(&[A_0, A_1], &[3], &[1, 0]),
            1,
            refused(5, 1),
        ),
        count("6 and 10", equal, 1, refused(6, 0)),
        count("7 and 10", repeating, 2, refused(7, 1)),
        count("8 and 10", input(&[], &[2], &[0, 1]), 1, refused(8, 0)),
        count("9 and 10", input(&[A_0], &[], &[0, 1]), 0, refused(9, 0)),
    ]
}
