//! Files of the program made by hand, with the whole text that it prints for
//! them. Neither is taken from the model.

use crate::by_hand::{chain, chain_of, input, used, A_0, A_1, FREE};
use crate::input::Input;
use crate::label_texts;
use crate::printed::{Files, PLAN};
use crate::wide_sheet::{rising, swapped, wide, wide_after};

pub fn cases() -> Vec<(Files, Vec<u8>)> {
    let without_labels = [
        not_refused().into_iter().flat_map(by_every_plan).collect(),
        chain_by_each_plan(),
        refused().into_iter().flat_map(whatever_the_plan).collect(),
        bad_plans(),
        at_the_limits(),
        wide_swaps(),
    ]
    .concat();
    let in_bytes = |(files, text): (Files, String)| (files, text.into_bytes());
    let without_labels = without_labels.into_iter().map(in_bytes);
    without_labels.chain(label_texts::cases()).collect()
}

/// All files but trip.pln and those of labels.
pub fn files(table: &[u8], roots: &[u8], order: &[u8], target: &[u8]) -> Files {
    let [table, roots, order, target] =
        [table, roots, order, target].map(|bytes| Some(bytes.to_vec()));
    [table, roots, order, target, None, None, None]
}

pub fn with_plan(files: &Files, plan: &[u8]) -> Files {
    let mut files = files.clone();
    files[PLAN] = Some(plan.to_vec());
    files
}

/// The table of case A, order 0 1.
pub fn a(roots: &[u8], target: &[u8]) -> Files {
    files(&[A_0, A_1, FREE].concat(), roots, &[0, 1], target)
}

/// The table of case B, from order 0 1 to 1 0.
fn b(roots: &[u8]) -> Files {
    files(&[A_0, A_1].concat(), roots, &[0, 1], &[1, 0])
}

/// B with a root to each record: the lower one doesn't die.
pub fn b_both_named() -> Files {
    b(&[3, 0, 2, 0])
}

/// F with one free record fewer.
fn f() -> Files {
    let table = [used(1, 0, 1), used(1, 1, 0), used(0, 2, 3), FREE];
    files(&table.concat(), &[4, 0], &[0, 1], &[1, 0])
}

/// A, B, C, F and G of the bench sheet, with the text after the plan's line.
fn not_refused() -> Vec<(Files, &'static str)> {
    let [order, target] = [[0, 1, 2], [2, 1, 0]].map(|bytes| Some(bytes.to_vec()));
    let only_orders = [None, None, order, target, None, None, None];
    vec![
        (
            a(&[3, 0], &[1, 0]),
            "done swaps 1 left 0\norder 1 0\n0 free\n1 1 0 4\n2 0 0 1\nroots 3\n",
        ),
        (
            a(&[3, 0], &[0, 1]),
            "done swaps 0 left 0\norder 0 1\n0 1 0 1\n1 0 0 2\n2 free\nroots 3\n",
        ),
        (
            b(&[3, 0]),
            "done swaps 1 left 0\norder 1 0\n0 0 0 1\n1 1 0 2\nroots 3\n",
        ),
        (
            b_both_named(),
            "no room swaps 0 left 1 level 0 needed 1 free 0\n\
             order 0 1\n0 1 0 1\n1 0 0 2\nroots 3 2\n",
        ),
        (
            a(&[3, 0, 2, 0], &[1, 0]),
            "done swaps 1 left 0\norder 1 0\n0 1 0 1\n1 1 0 4\n2 0 0 1\nroots 3 2\n",
        ),
        (
            f(),
            "done swaps 1 left 0\norder 1 0\n0 0 1 0\n1 free\n2 1 5 2\n3 0 0 1\nroots 4\n",
        ),
        (only_orders, "done swaps 3 left 0\norder 2 1 0\nroots\n"),
    ]
}

/// These end alike by every plan; without trip.pln it is plan 0.
fn by_every_plan((files, text): (Files, &str)) -> Vec<(Files, String)> {
    let by = |plan: u8| (with_plan(&files, &[plan]), format!("plan {plan}\n{text}"));
    let missing = (files.clone(), format!("plan 0\n{text}"));
    (0..4).map(by).chain([missing]).collect()
}

/// With a root to each record each plan is stuck at a level of its own; with
/// roots to records 0 and 4 it is stuck at level 3, sooner or later; with a root
/// to the top alone it comes to the end.
fn chain_by_each_plan() -> Vec<(Files, String)> {
    let start = [2, 1, 0, 5, 4, 3];
    let rising = [0, 1, 2, 3, 4, 5];
    let stuck_at_once = |(plan, level)| {
        let answer = format!("no room swaps 0 left 6 level {level} needed 1 free 0");
        let listed = listed_chain(start, "2 3 4 5 6 7");
        of_chain(&chain(), plan, &answer, &listed)
    };
    let stuck_later = |(plan, swaps, order)| {
        let left = 6 - swaps;
        let answer = format!("no room swaps {swaps} left {left} level 3 needed 1 free 0");
        let listed = listed_chain(order, "2 6");
        of_chain(&chain_of(start, &[2, 6]), plan, &answer, &listed)
    };
    let done = |plan| {
        let listed = listed_chain(rising, "2");
        of_chain(&chain_of(start, &[2]), plan, "done swaps 6 left 0", &listed)
    };
    let later = [
        (0, 4, [0, 1, 2, 5, 3, 4]),
        (1, 0, start),
        (2, 1, [2, 1, 0, 5, 3, 4]),
        (3, 3, [0, 1, 2, 5, 4, 3]),
    ];
    [
        [(0, 1), (1, 3), (2, 4), (3, 0)].map(stuck_at_once),
        later.map(stuck_later),
        [0, 1, 2, 3].map(done),
    ]
    .concat()
}

/// The chain by this plan, on the way to 0 1 2 3 4 5.
fn of_chain(chain: &Input, plan: u8, answer: &str, listed: &str) -> (Files, String) {
    let target = [0, 1, 2, 3, 4, 5];
    let files = files(&chain.table, &chain.roots, &chain.order, &target);
    let text = format!("plan {plan}\n{answer}\n{listed}");
    (with_plan(&files, &[plan]), text)
}

/// Record i of the chain stands at level i.
fn listed_chain([a, b, c, d, e, f]: [u8; 6], roots: &str) -> String {
    format!(
        "order {a} {b} {c} {d} {e} {f}\n\
         0 {a} 0 3\n1 {b} 0 4\n2 {c} 0 5\n3 {d} 0 6\n4 {e} 0 7\n5 {f} 0 1\n\
         roots {roots}\n"
    )
}

/// No files, and A spoilt.
fn refused() -> Vec<(Files, &'static str)> {
    vec![
        (Files::default(), "refused 1 place 0\n"),
        (a(&[3], &[1, 0]), "refused 1 place 0\n"),
        (a(&[3, 0], &[1, 1]), "refused 3 place 1\n"),
        (a(&[], &[1, 0]), "refused 9 place 1\n"),
    ]
}

/// Good or bad, trip.pln changes nothing about an earlier refusal.
fn whatever_the_plan((files, text): (Files, &str)) -> Vec<(Files, String)> {
    let plans: [&[u8]; 5] = [&[1], &[], &[4], &[0, 0], &[0; 5_000]];
    let with = |plan| (with_plan(&files, plan), text.to_string());
    let missing = (files.clone(), text.to_string());
    plans.into_iter().map(with).chain([missing]).collect()
}

/// Whether the run would be done, at its target already, or without room.
fn bad_plans() -> Vec<(Files, String)> {
    let plans: [(&[u8], u32); 7] = [
        (&[], 0),
        (&[4], 4),
        (&[5], 5),
        (&[255], 255),
        (&[0, 0], 0),
        (&[4, 4], 0),
        (&[3; 5_000], 0),
    ];
    let stores = [a(&[3, 0], &[1, 0]), a(&[3, 0], &[0, 1]), b_both_named()];
    let with = |files: &Files| {
        plans.map(|(plan, place)| {
            (
                with_plan(files, plan),
                format!("refused 13 place {place}\n"),
            )
        })
    };
    stores.iter().flat_map(with).collect()
}

/// Each file as long as it may be, and then with something more, without
/// which it would be right.
fn at_the_limits() -> Vec<(Files, String)> {
    let store = input(&[FREE; 8_192], &[1; 64], &rising());
    let Input {
        table,
        roots,
        order,
        ..
    } = &store;
    let with = |bytes: &[u8], more: &[u8]| [bytes, more].concat();
    let whole = format!("plan 0\ndone swaps 0 left 0\n{}", listed(&store, |_| None));
    // What was too long once is no longer.
    let longer = input(&[FREE; 4_097], &[], &(0..33).collect::<Vec<u8>>());
    let longer_text = format!("plan 0\ndone swaps 0 left 0\n{}", listed(&longer, |_| None));
    let (of_4_097, of_33) = (&longer.table, &longer.order);

    let refused = [
        files(&with(table, &FREE), roots, order, order),
        files(&with(table, &[255]), roots, order, order),
        files(table, &with(roots, &[1, 0]), order, order),
        files(table, roots, &with(order, &[0]), order),
        files(table, roots, order, &with(order, &[0])),
        files(table, roots, &with(order, &[64]), &with(order, &[64])),
    ];
    let whole = [
        (files(table, roots, order, order), whole),
        (files(of_4_097, &[], of_33, of_33), longer_text),
    ];
    let refused = refused.map(|files| (files, "refused 1 place 0\n".to_string()));
    whole.into_iter().chain(refused).collect()
}

/// Swaps of thousands of records: the program's log holds 4,095 entries.
fn wide_swaps() -> Vec<(Files, String)> {
    let row = |store: &Input, target: &[u8], plan: u8, answer: &str, after: &Input| {
        let files = files(&store.table, &store.roots, &store.order, target);
        let text = format!("plan {plan}\n{answer}\n{}", listed(after, |_| None));
        (with_plan(&files, &[plan]), text)
    };
    let target = swapped();
    let (enough, short, full) = (wide(2_047, 0), wide(2_047, 1), wide(2_733, 1));
    // Levels 62 and 63 too, which Lowest Inversion exchanges first.
    let mut further = target.clone();
    further.swap(62, 63);
    let mut on_the_way = full.clone();
    on_the_way.order.swap(62, 63);
    let short_by_one = "log short swaps 0 left 1 level 6 needed 4096 held 4095";
    let short_at_once = "log short swaps 0 left 2 level 6 needed 5468 held 4095";
    let short_later = "log short swaps 1 left 1 level 6 needed 5468 held 4095";
    let after = wide_after(2_047, 0);
    vec![
        row(&enough, &target, 0, "done swaps 1 left 0", &after),
        row(&short, &target, 0, short_by_one, &short),
        row(&full, &further, 0, short_at_once, &full),
        row(&full, &further, 2, short_later, &on_the_way),
    ]
}

/// What is listed of a store whose variables have these labels.
pub fn listed(store: &Input, label: impl Fn(u8) -> Option<String>) -> String {
    let mut text = String::from("order");
    for variable in &store.order {
        text += &format!(" {variable}");
    }
    text += "\n";
    for (number, record) in store.table.chunks(8).enumerate() {
        let variable = record[0];
        if variable == 255 {
            text += &format!("{number} free\n");
            continue;
        }
        let [low, high] = [2, 4].map(|at| u16::from_le_bytes([record[at], record[at + 1]]));
        text += &format!("{number} {variable} {low} {high}\n");
        if let Some(label) = label(variable) {
            text += &format!("{label}\n");
        }
    }
    text += "roots";
    for root in store.roots.chunks(2) {
        text += &format!(" {}", u16::from_le_bytes([root[0], root[1]]));
    }
    text + "\n"
}

#[cfg(test)]
mod tests {
    use super::cases;
    use crate::printed::Run;

    #[test]
    fn the_model_prints_the_text_made_by_hand() {
        for (files, text) in cases() {
            assert!(Run::of(&files).text() == text, "{}", text.escape_ascii());
        }
    }
}
