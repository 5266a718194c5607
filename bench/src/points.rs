//! Points spread over the run of a full table, at which swaps, slices and
//! recoveries are compared and timed.

use crate::generate::{Buffers, Case, PLAN};
use crate::limits::{LOG_RECORD_SIZE, SEALED};
use crate::ordinary;

/// How many points there are.
const POINTS: u32 = 16;
/// The budget of a slice from each of them.
pub const SLICE: u32 = 8;

/// The buffers before some swap of the run, its upper level, and the buffers as
/// they are if supply is lost right before the swap's last store.
pub struct Point {
    pub buffers: Buffers,
    pub level: usize,
    pub cut: Buffers,
}

/// Points evenly apart, from the start of the run on.
pub fn spread(case: &Case) -> Vec<Point> {
    let apart = case.swaps / POINTS;
    let mut points = Vec::new();
    let mut buffers = case.before.clone();
    while let Some(level) = PLAN.next(&buffers.order, &case.target) {
        let mut cut = buffers.clone();
        ordinary::swap(&mut cut, level);
        let seal = cut.log.len() - LOG_RECORD_SIZE;
        cut.log[seal] = SEALED;
        points.push(Point {
            buffers: buffers.clone(),
            level,
            cut,
        });
        ordinary::run(&mut buffers, &case.target, PLAN, apart);
    }
    points
}
