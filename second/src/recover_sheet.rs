//! Recoveries of case A and of what lies next to it, with the answers and buffers
//! written out by hand.

use crate::by_hand::{input, used, Case, A_0, A_1, FREE};
use crate::input::Input;
use crate::log_sheet::{
    a, a_after, refused, sealed, stored, with, LogBytes, CLEARED_4, ENTRIES, ONES, SEALED_4, ZEROS,
};
use crate::model::{Answer, Question};

pub fn cases() -> Vec<Case> {
    [
        put_back(),
        nothing_put_back(),
        refused_lengths(),
        refused_seals(),
        refused_entries(),
        lowest_first(),
        refused_sizes(),
    ]
    .concat()
}

/// Records 0 and 2 as they are afterwards, the others and the order as they were.
fn a_torn(log: &[LogBytes]) -> Input {
    let records = [FREE, A_1, used(0, 0, 1)];
    input(&records, &[3], &[0, 1]).with_log(log.concat())
}

fn recovered(name: &'static str, before: Input, entries: usize, after: Input) -> Case {
    let answer = Answer::PutBack { entries };
    Case::changed(name, before, Question::Recover, answer, after)
}

fn refused_14(name: &'static str, before: Input, place: usize) -> Case {
    Case::unchanged(name, before, Question::Recover, refused(14, place))
}

/// Whatever of the swap was made, and whatever else stands in the store.
fn put_back() -> Vec<Case> {
    let [e, f, g, h] = ENTRIES;
    let log = [e, f, g, h, SEALED_4];
    let log_after = [e, f, g, h, CLEARED_4];
    let turned = [h, g, f, e, SEALED_4];
    let turned_after = [h, g, f, e, CLEARED_4];
    let longer = [e, f, g, h, ONES, ZEROS, SEALED_4];
    let longer_after = [e, f, g, h, ONES, ZEROS, CLEARED_4];
    let garbage = input(&[[7; 8], [8; 8], [9; 8]], &[3], &[200, 200]);
    vec![
        recovered("A, sealed and no more", a(&log), 4, a(&log_after)),
        recovered("A torn", a_torn(&log), 4, a(&log_after)),
        recovered("A swapped, still sealed", a_after(&log), 4, a(&log_after)),
        recovered(
            "A, all bytes wrong",
            garbage.with_log(log.concat()),
            4,
            a(&log_after),
        ),
        recovered("A, entries turned", a_after(&turned), 4, a(&turned_after)),
        recovered("A, a longer log", a_after(&longer), 4, a(&longer_after)),
        recovered(
            "A, two of its entries",
            a_after(&[e, f, g, h, sealed(2)]),
            2,
            input(&[A_0, A_1, used(0, 0, 1)], &[3], &[1, 0])
                .with_log([e, f, g, h, with(CLEARED_4, 2, 2)].concat()),
        ),
        pairs_in_turn(),
        last_of_all(),
    ]
}

/// Levels 0 and 1 become 5 6, and then levels 1 and 2 become 7 8: level 1 is in
/// both, and the later entry has it.
fn pairs_in_turn() -> Case {
    let first = [0, 1, 0, 0, 5, 6, 0, 0, 0, 0, 0, 0, 0, 0, 0, 0];
    let second = [0, 1, 1, 0, 7, 8, 0, 0, 0, 0, 0, 0, 0, 0, 0, 0];
    recovered(
        "pairs with a level in common",
        stored(0, &[0, 1, 2], &[first, second, sealed(2)]),
        2,
        stored(0, &[5, 7, 8], &[first, second, with(CLEARED_4, 2, 2)]),
    )
}

/// Record 8,191 of 8,192, and levels 62 and 63: numbers of both bytes, and at the
/// end.
fn last_of_all() -> Case {
    let record = [0, 0, 255, 31, 1, 2, 3, 4, 5, 6, 7, 8, 0, 0, 0, 0];
    let pair = [0, 1, 62, 0, 9, 10, 0, 0, 0, 0, 0, 0, 0, 0, 0, 0];
    let order: Vec<u8> = (0..64).collect();
    let mut order_after = order.clone();
    order_after[62] = 9;
    order_after[63] = 10;
    let log_after = [record, pair, with(CLEARED_4, 2, 2)];
    let mut after = stored(8_191, &order_after, &log_after);
    after.table.extend([1, 2, 3, 4, 5, 6, 7, 8]);
    recovered(
        "the last record and the lowest pair",
        stored(8_192, &order, &[record, pair, sealed(2)]),
        2,
        after,
    )
}

/// Under a seal of 0 nothing counts; sealed without an entry, the seal is
/// cleared.
fn nothing_put_back() -> Vec<Case> {
    let [e, f, g, h] = ENTRIES;
    let unchanged = |name, log: &[LogBytes]| {
        let before = a_torn(log);
        recovered(name, before.clone(), 0, before)
    };
    vec![
        unchanged("an empty log", &[ZEROS; 5]),
        unchanged("the log of a made swap", &[e, f, g, h, CLEARED_4]),
        unchanged("a seal alone", &[ZEROS]),
        unchanged("ones under a seal of 0", &[ONES, ONES, with(ONES, 0, 0)]),
        unchanged("a seal elsewhere", &[sealed(0), SEALED_4, ZEROS]),
        recovered(
            "sealed without an entry",
            a_torn(&[ONES, ONES, sealed(0)]),
            0,
            a_torn(&[ONES, ONES, ZEROS]),
        ),
        recovered("a seal alone, sealed", a(&[sealed(0)]), 0, a(&[ZEROS])),
        recovered(
            "4,096 log records",
            a(&[vec![ONES; 4_095], vec![sealed(0)]].concat()),
            0,
            a(&[vec![ONES; 4_095], vec![ZEROS]].concat()),
        ),
    ]
}

fn refused_lengths() -> Vec<Case> {
    let of = |bytes: usize, byte: u8| Input {
        log: vec![byte; bytes],
        ..a(&[])
    };
    vec![
        refused_14("no log", of(0, 0), 0),
        refused_14("1 log byte", of(1, 0), 0),
        refused_14("15 log bytes", of(15, 0), 0),
        refused_14("17 log bytes", of(17, 0), 0),
        refused_14("17 log bytes, all A5", of(17, 0xA5), 0),
        refused_14("31 log bytes", of(31, 0), 0),
        refused_14("65,535 log bytes", of(65_535, 0), 0),
        refused_14("65,537 log bytes", of(65_537, 0), 0),
        refused_14("65,552 log bytes", of(65_552, 0), 0),
        refused_14("131,072 log bytes", of(131_072, 0), 0),
    ]
}

/// Byte 0 is neither 0 nor A5; or it is A5, and another byte isn't 0; or there
/// are fewer entries than it says.
fn refused_seals() -> Vec<Case> {
    let with_seal = |seal: LogBytes| {
        let [e, f, g, h] = ENTRIES;
        a(&[e, f, g, h, seal])
    };
    let byte_0 = [1, 2, 0x5A, 0xA4, 0xA6, 0x25, 0x85, 255];
    let byte_0 = byte_0.map(|byte| with(SEALED_4, 0, byte));
    let others = [1].into_iter().chain(4..16);
    let other_bytes =
        others.flat_map(|position| [1, 0xA5, 255].map(|byte| with(SEALED_4, position, byte)));
    let counts = [[5, 0], [0, 1], [4, 1], [255, 15], [0, 16], [255, 255]];
    let counts = counts.map(|[low, high]| with(with(SEALED_4, 2, low), 3, high));
    let seals = byte_0.into_iter().chain(other_bytes).chain(counts);
    let mut cases: Vec<Case> = seals
        .map(|seal| refused_14("a bad seal", with_seal(seal), 4))
        .collect();
    cases.push(refused_14("a seal alone, 1 entry", a(&[sealed(1)]), 0));
    cases.push(refused_14("a seal alone, all A5", a(&[[0xA5; 16]]), 0));
    cases.push(refused_14(
        "4,096 entries of 4,095",
        a(&[vec![ZEROS; 4_095], vec![with(sealed(0), 3, 16)]].concat()),
        4_095,
    ));
    cases
}

/// The last of the four entries is bad, or the third.
fn refused_entries() -> Vec<Case> {
    let [e, f, g, h] = ENTRIES;
    let fourth = |name, entry| refused_14(name, a_torn(&[e, f, g, entry, SEALED_4]), 3);
    let third = |name, entry| refused_14(name, a_torn(&[e, f, entry, h, SEALED_4]), 2);
    let other_old = [0, 0, 1, 0, 9, 9, 9, 9, 9, 9, 9, 9, 0, 0, 0, 0];
    let pair_again = [0, 1, 0, 0, 9, 9, 0, 0, 0, 0, 0, 0, 0, 0, 0, 0];
    let mut cases = vec![
        fourth("an entry's byte 0 is 1", with(h, 0, 1)),
        third("an entry's byte 0 is A5", with(g, 0, 0xA5)),
        fourth("kind 2", with(h, 1, 2)),
        third("kind 255", with(g, 1, 255)),
        third("record 1 again", f),
        third("record 1 again, other old bytes", other_old),
        refused_14("pair 0 again", a(&[h, e, pair_again, f, SEALED_4]), 2),
        refused_14("entry 0 again", a(&[e, f, g, e, SEALED_4]), 3),
        third("record 3 of 3", with(g, 2, 3)),
        third("record 258 of 3", with(g, 3, 1)),
        third("record 65,282", with(g, 3, 255)),
        fourth("levels 1 and 2 of 2", with(h, 2, 1)),
        fourth("levels 256 and 257 of 2", with(h, 3, 1)),
        refused_14("record 0 of none", stored(0, &[0, 1], &[e, sealed(1)]), 0),
        refused_14("levels 0 and 1 of 1", stored(3, &[0], &[h, sealed(1)]), 0),
        refused_14(
            "levels 31 and 32 of 32",
            stored(3, &[0; 32], &[with(h, 2, 31), sealed(1)]),
            0,
        ),
        refused_14(
            "levels 63 and 64 of 64",
            stored(3, &[0; 64], &[with(h, 2, 63), sealed(1)]),
            0,
        ),
        refused_14(
            "record 8,192 of 8,192",
            stored(8_192, &[0, 1], &[with(e, 3, 32), sealed(1)]),
            0,
        ),
    ];
    for position in 12..16 {
        cases.push(third("a record's bytes 12 to 15", with(g, position, 1)));
        cases.push(fourth("a pair's bytes 12 to 15", with(h, position, 255)));
    }
    for position in 6..12 {
        cases.push(fourth("a pair's bytes 6 to 11", with(h, position, 1)));
    }
    cases.extend(entries_not_refused());
    cases
}

/// A record's old bytes may be any, and what isn't counted too; a record and a
/// pair of one number are two things.
fn entries_not_refused() -> Vec<Case> {
    let record_1 = [0, 0, 1, 0, 9, 9, 9, 9, 9, 9, 9, 9, 0, 0, 0, 0];
    let pair_1 = [0, 1, 1, 0, 255, 255, 0, 0, 0, 0, 0, 0, 0, 0, 0, 0];
    let log = |seal| [record_1, pair_1, record_1, ONES, seal].concat();
    let before = stored(2, &[0, 1, 2], &[]).with_log(log(sealed(2)));
    let mut after = stored(1, &[0, 255, 255], &[]).with_log(log(with(CLEARED_4, 2, 2)));
    after.table.extend([9; 8]);
    vec![recovered(
        "uncounted, any bytes, one number",
        before,
        2,
        after,
    )]
}

/// The length, then the seal, then the lowest entry, whatever its fault is.
fn lowest_first() -> Vec<Case> {
    let [e, f, g, h] = ENTRIES;
    let bad_seal = with(SEALED_4, 15, 1);
    let long = Input {
        log: [&[ONES, bad_seal].concat()[..], &[0]].concat(),
        ..a(&[])
    };
    vec![
        refused_14("length and seal", long, 0),
        refused_14("seal and entry", a(&[ONES, f, g, h, bad_seal]), 4),
        refused_14(
            "entries 1 and 2",
            a(&[e, with(f, 1, 2), with(g, 2, 9), h, SEALED_4]),
            1,
        ),
        refused_14(
            "past, then malformed",
            a(&[e, with(f, 2, 9), ONES, h, SEALED_4]),
            1,
        ),
        refused_14("again, then malformed", a(&[e, e, ONES, h, SEALED_4]), 1),
        refused_14(
            "again, then past",
            a(&[e, f, f, with(h, 2, 9), SEALED_4]),
            2,
        ),
        refused_14("three times", a(&[h, e, e, e, SEALED_4]), 2),
    ]
}

/// 1 before 14; there are no roots, so that theirs may be any.
fn refused_sizes() -> Vec<Case> {
    let row = |name, input: Input| Case::unchanged(name, input, Question::Recover, refused(1, 0));
    let [e, f, g, h] = ENTRIES;
    let log = [e, f, g, h, SEALED_4];
    let part = Input {
        table: vec![0; 23],
        ..a(&log)
    };
    let odd_roots = Input {
        roots: vec![3; 131],
        ..a_after(&log)
    };
    let odd_roots_after = Input {
        roots: vec![3; 131],
        ..a(&[e, f, g, h, CLEARED_4])
    };
    let sealed_alone = |records, n| stored(records, &vec![0; n], &[sealed(0)]);
    let cleared = |records, n| stored(records, &vec![0; n], &[ZEROS]);
    vec![
        row("n = 0", stored(3, &[], &log)),
        row("n = 65", stored(3, &[0; 65], &log)),
        row("23 table bytes", part),
        row("8,193 records", stored(8_193, &[0, 1], &log)),
        row("n = 0, and no log", stored(3, &[], &[])),
        row("n = 65, and a bad seal", stored(3, &[0; 65], &[ONES])),
        recovered("n = 33", sealed_alone(3, 33), 0, cleared(3, 33)),
        recovered("n = 64", sealed_alone(3, 64), 0, cleared(3, 64)),
        recovered(
            "4,097 records",
            sealed_alone(4_097, 2),
            0,
            cleared(4_097, 2),
        ),
        recovered(
            "8,192 records",
            sealed_alone(8_192, 2),
            0,
            cleared(8_192, 2),
        ),
        recovered("131 root bytes", odd_roots, 4, odd_roots_after),
    ]
}
