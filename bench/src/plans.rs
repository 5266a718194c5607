//! How far each plan brings the same random jobs in tables with little room:
//! the share of jobs done, and the most records used on the way.

use crate::generate::{self, Job, JOB};
use crate::library::{self, Numbers, DONE, NO_ROOM, PAUSED};
use crate::ordinary::Plan;

const JOBS: u64 = 300;
/// How full the tables are, in per cent.
const FILLS: [usize; 3] = [95, 98, 100];
/// The most inputs of a root, by turns from job to job.
const INPUTS: [usize; 4] = [5, 6, 7, 8];

pub fn print() {
    println!(
        "{JOBS} jobs at each fill: {} records, {} variables",
        JOB.records, JOB.variables
    );
    println!("                           jobs done by       most used");
    println!("full  plan                it    any    all   mean  largest");
    for percent in FILLS {
        let jobs = (0..JOBS).zip(INPUTS.into_iter().cycle());
        let ways: Vec<Ways> = jobs
            .map(|(seed, most)| generate::job(seed, most, percent))
            .map(|job| Plan::ALL.map(|plan| way(&job, plan)))
            .collect();
        print_rows(percent, &ways);
    }
    println!("Per cent of the jobs, and of the table; most used: in jobs done by all plans.");
}

/// How one job went by one plan.
struct Way {
    done: bool,
    /// The most records used before, between and after its swaps.
    most: usize,
}

/// How one job went by each plan, at the plan's number.
type Ways = [Way; Plan::ALL.len()];

/// Runs in slices of one swap, to count the used records after each.
fn way(job: &Job, plan: Plan) -> Way {
    let mut buffers = job.before.clone();
    let mut most = buffers.used();
    let mut answer = Numbers::default();
    loop {
        library::run(&mut buffers, &job.target, plan, 1, &mut answer);
        most = most.max(buffers.used());
        match answer[0] {
            PAUSED => {}
            DONE => return Way { done: true, most },
            NO_ROOM => return Way { done: false, most },
            number => panic!("a job is refused: {number}"),
        }
    }
}

/// One row for each plan. The most used is that of the jobs that all plans bring
/// to the end, since a plan that gets stuck early has used little.
fn print_rows(percent: usize, ways: &[Ways]) {
    let done = |way: &Way| way.done;
    let by_any = ways.iter().filter(|ways| ways.iter().any(done)).count();
    let by_all: Vec<&Ways> = ways.iter().filter(|ways| ways.iter().all(done)).collect();
    for plan in Plan::ALL {
        let number = plan as usize;
        let by_it = ways.iter().filter(|ways| ways[number].done).count();
        let most = by_all.iter().map(|ways| ways[number].most);
        println!(
            "{percent:>3}%  {:<17} {:>5.1} {:>6.1} {:>6.1} {:>6.1} {:>8.1}",
            name(plan),
            share(by_it, ways.len()),
            share(by_any, ways.len()),
            share(by_all.len(), ways.len()),
            share(most.clone().sum(), by_all.len() * JOB.records),
            share(most.max().unwrap_or(0), JOB.records),
        );
    }
}

fn name(plan: Plan) -> &'static str {
    match plan {
        Plan::BringUp => "Bring Up",
        Plan::SinkDown => "Sink Down",
        Plan::LowestInversion => "Lowest Inversion",
        Plan::HighestInversion => "Highest Inversion",
    }
}

/// In per cent.
fn share(part: usize, whole: usize) -> f64 {
    100.0 * part as f64 / whole as f64
}
