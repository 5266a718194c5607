//! Files of the program with labels made by hand, with all the bytes that it
//! prints for them. Neither is taken from the model.

use crate::by_hand::label_record;
use crate::generate::all_used;
use crate::printed::{Files, FACTORY, SITE};
use crate::random::Random;
use crate::texts::{a, b_both_named, files, listed, with_plan};

pub fn cases() -> Vec<(Files, Vec<u8>)> {
    let mut cases = [
        which_file(),
        whole_texts(),
        bytes_of_all_kinds(),
        lengths(),
        bad_lengths(),
        free_records(),
        other_runs(),
        refused(),
    ]
    .concat();
    cases.push(every_record_labelled());
    cases
}

/// With the site's list and the factory's.
fn with_labels(files: &Files, site: &[u8], factory: &[u8]) -> Files {
    let mut files = files.clone();
    files[SITE] = Some(site.to_vec());
    files[FACTORY] = Some(factory.to_vec());
    files
}

/// Case A on the way to its target.
fn case_a() -> Files {
    a(&[3, 0], &[1, 0])
}

/// What case A prints, with these lines after records 1 and 2, which are of
/// variables 1 and 0.
fn text_of_a(line_1: &[u8], line_0: &[u8]) -> Vec<u8> {
    [
        b"plan 0\ndone swaps 1 left 0\norder 1 0\n0 free\n1 1 0 4\n",
        line_1,
        b"2 0 0 1\n",
        line_0,
        b"roots 3\n",
    ]
    .concat()
}

fn without_labels() -> Vec<u8> {
    text_of_a(b"", b"")
}

/// Breaker contacts, as a factory calls them and a site.
fn contacts() -> Vec<u8> {
    [
        label_record(0, b"52a closed"),
        label_record(1, b"52b closed"),
    ]
    .concat()
}

fn own_names() -> Vec<u8> {
    [label_record(1, b"bay 7"), label_record(0, b"bay 9")].concat()
}

/// Missing, empty, or naming both variables, one of them, or others.
fn which_file() -> Vec<(Files, Vec<u8>)> {
    let (factory, site) = (contacts(), own_names());
    let of_factory = || text_of_a(b"52b closed\n", b"52a closed\n");
    let of_site = || text_of_a(b"bay 7\n", b"bay 9\n");
    let only = |place: usize, list: &[u8]| {
        let mut files = case_a();
        files[place] = Some(list.to_vec());
        files
    };
    let with = |site: &[u8], factory: &[u8]| with_labels(&case_a(), site, factory);
    let others = [label_record(2, b"two"), label_record(254, b"no variable")].concat();
    let twice = [contacts(), own_names()].concat();
    vec![
        (only(FACTORY, &factory), of_factory()),
        (only(SITE, &site), of_site()),
        (only(SITE, &[]), without_labels()),
        (only(FACTORY, &[]), without_labels()),
        (with(&[], &[]), without_labels()),
        (with(&[], &factory), of_factory()),
        (with(&site, &[]), of_site()),
        (with(&site, &factory), of_site()),
        (with(&factory, &site), of_factory()),
        (
            with(&site[..16], &factory),
            text_of_a(b"bay 7\n", b"52a closed\n"),
        ),
        (
            with(&site[16..], &factory),
            text_of_a(b"52b closed\n", b"bay 9\n"),
        ),
        (only(SITE, &site[16..]), text_of_a(b"", b"bay 9\n")),
        (
            only(FACTORY, &factory[16..]),
            text_of_a(b"52b closed\n", b""),
        ),
        (with(&others, &factory), of_factory()),
        (with(&others, &others), without_labels()),
        // Of two records for a variable the first counts.
        (only(SITE, &twice), of_factory()),
        (only(FACTORY, &twice), of_factory()),
    ]
}

/// A text ends before its first zero, or with its last byte.
fn whole_texts() -> Vec<(Files, Vec<u8>)> {
    let texts: [(&[u8], &[u8]); 9] = [
        (b"fifteen letters", b"fifteen letters\n"),
        (b"14 characters.", b"14 characters.\n"),
        (b"x", b"x\n"),
        (b" ", b" \n"),
        (b"", b"\n"),
        (b"\0", b"\n"),
        (b"\0behind a zero", b"\n"),
        (b"to\0be\0read", b"to\n"),
        (b"a zero is last\0", b"a zero is last\n"),
    ];
    texts.into_iter().flat_map(in_each_file).collect()
}

/// Bytes are printed as they stand, whatever they are.
fn bytes_of_all_kinds() -> Vec<(Files, Vec<u8>)> {
    let texts: [(&[u8], &[u8]); 7] = [
        (b"two\nlines", b"two\nlines\n"),
        (b"\n", b"\n\n"),
        (
            b"\n\n\n\n\n\n\n\n\n\n\n\n\n\n\n",
            b"\n\n\n\n\n\n\n\n\n\n\n\n\n\n\n\n",
        ),
        (&[200], &[200, b'\n']),
        (
            &[b'a', 200, b'\n', 255, 1],
            &[b'a', 200, b'\n', 255, 1, b'\n'],
        ),
        (&[255; 15], &[[255; 15].as_slice(), b"\n"].concat()),
        ("Öl 40 °C".as_bytes(), "Öl 40 °C\n".as_bytes()),
    ];
    texts.into_iter().flat_map(in_each_file).collect()
}

/// This text for variable 0 and the line that is printed, in trip.lbs with a
/// record behind it, and alone in trip.lbf.
fn in_each_file((text, line): (&[u8], &[u8])) -> [(Files, Vec<u8>); 2] {
    let alone = label_record(0, text);
    let before = [alone.clone(), label_record(1, b"bay 7")].concat();
    [
        (
            with_labels(&case_a(), &before, &contacts()),
            text_of_a(b"bay 7\n", line),
        ),
        (with_labels(&case_a(), &[], &alone), text_of_a(b"", line)),
    ]
}

/// So many records for variables that the store lacks, and then this list.
fn behind_others(records: usize, list: &[u8]) -> Vec<u8> {
    [
        label_record(100, b"not stored").repeat(records).as_slice(),
        list,
    ]
    .concat()
}

/// The 1,024 bytes that there may be; both variables are named at their end.
fn lengths() -> Vec<(Files, Vec<u8>)> {
    let full = behind_others(62, &contacts());
    let others = behind_others(64, &[]);
    let labelled = || text_of_a(b"52b closed\n", b"52a closed\n");
    let with = |site: &[u8], factory: &[u8]| with_labels(&case_a(), site, factory);
    vec![
        (with(&full, &own_names()), labelled()),
        (with(&[], &full), labelled()),
        (with(&others, &full), labelled()),
        (with(&full, &full), labelled()),
        (with(&others, &others), without_labels()),
    ]
}

/// A list of such a length leaves the other one without labels as well, whether
/// it has got any of its own or not.
fn bad_lengths() -> Vec<(Files, Vec<u8>)> {
    let whole = contacts();
    let long = behind_others(62, &contacts());
    let bad = [
        whole[..1].to_vec(),
        whole[..15].to_vec(),
        whole[..17].to_vec(),
        whole[..31].to_vec(),
        [whole.as_slice(), &[0]].concat(),
        long[..1_023].to_vec(),
        [long.as_slice(), &[0]].concat(),
        behind_others(63, &whole),
        [long.as_slice(), &long[..15]].concat(),
        behind_others(4_096, &whole),
    ];
    let cases = |bad: &Vec<u8>| {
        let of =
            |site: &[u8], factory: &[u8]| (with_labels(&case_a(), site, factory), without_labels());
        [
            of(bad, &whole),
            of(&whole, bad),
            of(bad, bad),
            of(bad, &[]),
            of(&[], bad),
        ]
    };
    bad.iter().flat_map(cases).collect()
}

/// Byte 0 of a free record is 255, and yet no label for 255 is its own.
fn free_records() -> Vec<(Files, Vec<u8>)> {
    let free = label_record(255, b"free");
    let both = [free.clone(), contacts()].concat();
    let labelled = text_of_a(b"52b closed\n", b"52a closed\n");
    let only_free = files(&[255, 0, 0, 0, 0, 0, 0, 0].repeat(2), &[1, 0], &[0], &[0]);
    let text = b"plan 0\ndone swaps 0 left 0\norder 0\n0 free\n1 free\nroots 1\n";
    vec![
        (with_labels(&case_a(), &free, &free), without_labels()),
        (with_labels(&case_a(), &both, &[]), labelled.clone()),
        (with_labels(&case_a(), &[], &both), labelled),
        (with_labels(&only_free, &both, &both), text.to_vec()),
    ]
}

/// By another plan, at the target already, without room, and without a record.
fn other_runs() -> Vec<(Files, Vec<u8>)> {
    let labelled = |files: &Files| with_labels(files, &[], &contacts());
    let by_plan_3 = with_plan(&labelled(&case_a()), &[3]);
    let there = labelled(&a(&[3, 0], &[0, 1]));
    let stuck = labelled(&b_both_named());
    let no_record = labelled(&files(&[], &[1, 0], &[0, 1], &[1, 0]));
    let cases = [
        (
            by_plan_3,
            "plan 3\ndone swaps 1 left 0\norder 1 0\n0 free\n\
             1 1 0 4\n52b closed\n2 0 0 1\n52a closed\nroots 3\n",
        ),
        (
            there,
            "plan 0\ndone swaps 0 left 0\norder 0 1\n\
             0 1 0 1\n52b closed\n1 0 0 2\n52a closed\n2 free\nroots 3\n",
        ),
        (
            stuck,
            "plan 0\nno room swaps 0 left 1 level 0 needed 1 free 0\norder 0 1\n\
             0 1 0 1\n52b closed\n1 0 0 2\n52a closed\nroots 3 2\n",
        ),
        (
            no_record,
            "plan 0\ndone swaps 1 left 0\norder 1 0\nroots 1\n",
        ),
    ];
    cases.map(|(files, text)| (files, text.into())).to_vec()
}

/// A refusal is told as ever, whether the labels' files are good or bad.
fn refused() -> Vec<(Files, Vec<u8>)> {
    let no_plan = with_plan(&case_a(), &[4]);
    let runs = [
        (Files::default(), "refused 1 place 0\n"),
        (a(&[3], &[1, 0]), "refused 1 place 0\n"),
        (a(&[3, 0], &[1, 1]), "refused 3 place 1\n"),
        (a(&[], &[1, 0]), "refused 9 place 1\n"),
        (no_plan, "refused 13 place 4\n"),
    ];
    let (good, bad) = (contacts(), behind_others(64, &contacts()));
    let cases = |(files, text): &(Files, &str)| {
        let with = |site: &[u8], factory: &[u8]| {
            (with_labels(files, site, factory), text.as_bytes().to_vec())
        };
        [with(&good, &good), with(&bad, &good), with(&good, &bad)]
    };
    runs.iter().flat_map(cases).collect()
}

/// All that a listing can have: 8,192 used records, each with a label of 15
/// bytes, for the first 16 variables one of the site; and 64 roots.
fn every_record_labelled() -> (Files, Vec<u8>) {
    let store = all_used(8_192, &mut Random::from_seed(FULL_SEED));
    let label = |owner: &str, variable: u8| format!("{owner:<12}{variable:03}");
    let list = |owner, variables: u8| -> Vec<u8> {
        let record = |variable| label_record(variable, label(owner, variable).as_bytes());
        (0..variables).flat_map(record).collect()
    };
    let printed = |variable| {
        let owner = if variable < 16 { "site" } else { "factory" };
        Some(label(owner, variable))
    };
    let text = format!("plan 0\ndone swaps 0 left 0\n{}", listed(&store, printed));
    let files = files(&store.table, &store.roots, &store.order, &store.order);
    let labelled = with_labels(&files, &list("site", 16), &list("factory", 64));
    (labelled, text.into_bytes())
}

/// What comes from this seed has 8,192 used records, 64 variables and 64 roots.
const FULL_SEED: u64 = 0;

#[cfg(test)]
mod tests {
    use super::*;
    use crate::input::Input;
    use crate::model::{answer, Answer, Question};

    #[test]
    fn the_full_table_has_as_much_as_there_may_be() {
        let ([table, roots, order, ..], _) = every_record_labelled();
        let [table, roots, order] = [table, roots, order].map(Option::unwrap);
        let mut input = Input {
            table,
            roots,
            order,
            ..Input::default()
        };
        let wanted = Answer::Accepted { used: 8_192 };
        assert_eq!(answer(&mut input, &Question::Check), wanted);
        assert_eq!(input.order.len(), 64);
        assert_eq!(input.root_list().len(), 64);
    }
}
