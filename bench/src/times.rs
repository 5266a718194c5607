//! Times of the library beside those of an ordinary Rust program, and of BuDDy
//! where the variable BUDDY names the program made of buddy.c.
//!
//! Both sides take turns on the same tables; of each the least time is shown.

use std::env;
use std::hint::black_box;
use std::process::ExitCode;
use std::time::Instant;

use crate::agree;
use crate::buddy;
use crate::crowded::{self, Chains, Crowded};
use crate::generate::{self, Buffers, Case, PLAN};
use crate::library::{self, Numbers};
use crate::limits::COUNTED;
use crate::ordinary::{self, Counted};
use crate::points::{self, Point, SLICE};

pub fn print(repetitions: usize) -> ExitCode {
    agree::on_edges();
    agree::on_log_short();
    let cases = generate::full_tables();
    for case in &cases {
        if let Err(reason) = print_case(case, repetitions) {
            eprintln!("BuDDy: {reason}");
            return ExitCode::FAILURE;
        }
    }
    let crowded_tables = [
        crowded::one_bucket(2),
        crowded::buckets_of_5(1),
        crowded::buckets_of_6(1),
    ];
    let [.., large_wide, _] = &cases;
    for crowded in crowded_tables {
        print_crowded(&crowded, large_wide, repetitions);
    }
    println!(
        "Microseconds, the least of {repetitions}; left the library, right the other program."
    );
    ExitCode::SUCCESS
}

/// All rows of a table, or the reason why BuDDy's is missing.
fn print_case(case: &Case, repetitions: usize) -> Result<(), String> {
    println!(
        "{}: {}, {} of {} records used, order of {} reversed in {} swaps",
        case.name,
        case.functions,
        case.before.used(),
        case.before.records(),
        case.target.len(),
        case.swaps
    );
    let points = points::spread(case);
    agree::on_case(case, &points);
    let times = measure(case, &points, repetitions);
    times.print();
    if let Some(program) = env::var_os("BUDDY") {
        let time = buddy::microseconds(&program, case, repetitions)?;
        let time = time / f64::from(case.swaps);
        row("swap, against BuDDy", [times.within[0], time]);
    }
    println!();
    Ok(())
}

/// The check of a crowded table, beside that of a table which isn't crowded.
fn print_crowded(crowded: &Crowded, even: &Case, repetitions: usize) {
    println!(
        "{}: {} of {} records used, {}",
        crowded.name,
        crowded.buffers.used(),
        crowded.buffers.records(),
        chains_text(&crowded.chains)
    );
    agree::on_accepted(&crowded.buffers);
    let mut check = [f64::INFINITY; 2];
    let mut of_even = f64::INFINITY;
    for _ in 0..repetitions {
        time_checks(&crowded.buffers, &mut check);
        time_library_check(&even.before, &mut of_even);
    }
    header();
    println!(
        "{}   and {:.2} times the check of the {} table",
        line(&format!("check, {}", crowded.name), check),
        check[0] / of_even,
        even.name
    );
    println!();
}

fn chains_text(chains: &Chains) -> String {
    let end = match chains.given_up {
        Some(record) => format!("given up at record {record}"),
        None => "all made".to_string(),
    };
    format!(
        "in {} buckets, {} in the fullest; {} steps, {end}",
        chains.taken, chains.fullest, chains.steps
    )
}

/// Least times in microseconds, of the library and of the ordinary program.
struct Times {
    check: [f64; 2],
    /// None where there are more variables than Count counts by.
    count: Option<CountTimes>,
    /// The mean of the swaps at the points, each by a call of its own.
    swap: [f64; 2],
    /// The mean of the slices from the points, each by a call of its own.
    slice: [f64; 2],
    /// That of these slices whose ratio is the largest.
    worst_slice: [f64; 2],
    /// The mean swap of the run: its time without that of its check.
    within: [f64; 2],
    /// All swaps by one call.
    run: [f64; 2],
    /// The mean of the same swaps as `swap`, each cut at its end.
    recover: [f64; 2],
}

/// The mean of all roots, each by a call of its own.
struct CountTimes {
    with_check: [f64; 2],
    /// Of the library it is a difference, since no call leaves the check out.
    alone: [f64; 2],
}

fn measure(case: &Case, points: &[Point], repetitions: usize) -> Times {
    let none = [f64::INFINITY; 2];
    let counted = case.target.len() <= COUNTED;
    let mut check = none;
    let mut counts = vec![[f64::INFINITY; 3]; case.before.positions()];
    let mut swaps = vec![none; points.len()];
    let mut slices = swaps.clone();
    let mut recoveries = swaps.clone();
    let mut run = none;
    for _ in 0..repetitions {
        time_checks(&case.before, &mut check);
        if counted {
            time_counts(&case.before, &mut counts);
        }
        time_swaps(points, &mut swaps);
        for (point, slice) in points.iter().zip(&mut slices) {
            time_run(&point.buffers, &case.target, SLICE, slice);
        }
        time_recoveries(points, &mut recoveries);
        time_run(&case.before, &case.target, u32::MAX, &mut run);
    }
    let within = |side: usize| (run[side] - check[side]) / f64::from(case.swaps);
    Times {
        check,
        count: counted.then(|| CountTimes {
            with_check: [mean(&counts, 0), mean(&counts, 1)],
            alone: [mean(&counts, 0) - check[0], mean(&counts, 2)],
        }),
        swap: means(&swaps),
        slice: means(&slices),
        worst_slice: worst(&slices),
        within: [within(0), within(1)],
        run,
        recover: means(&recoveries),
    }
}

fn time_checks(buffers: &Buffers, [ours, theirs]: &mut [f64; 2]) {
    time_library_check(buffers, ours);
    least(theirs, || ordinary::check(black_box(buffers)));
}

fn time_library_check(buffers: &Buffers, best: &mut f64) {
    let mut answer = Numbers::default();
    least(best, || library::check(black_box(buffers), &mut answer));
}

/// The count of each root: the library's time, the ordinary program's, and the
/// ordinary program's without its check.
fn time_counts(buffers: &Buffers, counts: &mut [[f64; 3]]) {
    let mut counted = Counted::default();
    let mut answer = Numbers::default();
    for (position, [ours, theirs, alone]) in counts.iter_mut().enumerate() {
        let number = position as u32;
        least(ours, || {
            library::count(black_box(buffers), number, &mut counted, &mut answer)
        });
        least(theirs, || ordinary::count(black_box(buffers), position));
        least(alone, || {
            ordinary::count_accepted(black_box(buffers), position)
        });
    }
}

/// The swap at each point.
fn time_swaps(points: &[Point], swaps: &mut [[f64; 2]]) {
    let mut answer = Numbers::default();
    for (point, [ours, theirs]) in points.iter().zip(swaps) {
        let mut buffers = point.buffers.clone();
        least(ours, || {
            library::swap(&mut buffers, point.level as u32, &mut answer)
        });
        let mut buffers = point.buffers.clone();
        least(theirs, || ordinary::swap(&mut buffers, point.level));
        black_box(&buffers);
    }
}

/// One call with that budget.
fn time_run(before: &Buffers, target: &[u8], budget: u32, [ours, theirs]: &mut [f64; 2]) {
    let mut answer = Numbers::default();
    let mut buffers = before.clone();
    least(ours, || {
        library::run(&mut buffers, target, PLAN, budget, &mut answer)
    });
    let mut buffers = before.clone();
    least(theirs, || ordinary::run(&mut buffers, target, PLAN, budget));
    black_box(&buffers);
}

/// The recovery from a cut at the end of each point's swap.
fn time_recoveries(points: &[Point], recoveries: &mut [[f64; 2]]) {
    let mut answer = Numbers::default();
    for (point, [ours, theirs]) in points.iter().zip(recoveries) {
        let mut buffers = point.cut.clone();
        least(ours, || library::recover(&mut buffers, &mut answer));
        let mut buffers = point.cut.clone();
        least(theirs, || ordinary::recover(&mut buffers));
        black_box(&buffers);
    }
}

/// The mean of each side.
fn means(times: &[[f64; 2]]) -> [f64; 2] {
    [mean(times, 0), mean(times, 1)]
}

/// The mean of one column.
fn mean<const COLUMNS: usize>(times: &[[f64; COLUMNS]], column: usize) -> f64 {
    let sum: f64 = times.iter().map(|row| row[column]).sum();
    sum / times.len() as f64
}

/// The times whose ratio is the largest.
fn worst(times: &[[f64; 2]]) -> [f64; 2] {
    let ratio = |[ours, theirs]: &[f64; 2]| ours / theirs;
    let by_ratio = times.iter().max_by(|a, b| ratio(a).total_cmp(&ratio(b)));
    *by_ratio.expect("a run has points")
}

fn least<T>(best: &mut f64, work: impl FnOnce() -> T) {
    let start = Instant::now();
    let result = work();
    let time = start.elapsed().as_secs_f64() * 1e6;
    black_box(result);
    *best = best.min(time);
}

impl Times {
    fn print(&self) {
        header();
        row("check", self.check);
        if let Some(count) = &self.count {
            row("count, with its check", count.with_check);
            row("count alone", count.alone);
        }
        row("swap, a call of its own", self.swap);
        row(&format!("slice of {SLICE} swaps"), self.slice);
        row("slice, the worst of them", self.worst_slice);
        row("swap, within the run", self.within);
        row("full run", self.run);
        row("recover, all of a swap", self.recover);
    }
}

fn header() {
    println!(
        "{:<26} {:>10} {:>10} {:>7}",
        "", "library", "ordinary", "ratio"
    );
}

fn row(name: &str, times: [f64; 2]) {
    println!("{}", line(name, times));
}

fn line(name: &str, [ours, theirs]: [f64; 2]) -> String {
    format!(
        "{name:<26} {ours:>10.1} {theirs:>10.1} {:>7.2}",
        ours / theirs
    )
}
