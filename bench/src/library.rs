//! The five calls that the bench makes, each behind one safe function. Each
//! writes the answer's numbers into the lent list and tells how many it wrote.

use crate::entries::{relay_check, relay_count, relay_recover, relay_run, relay_swap};
use crate::generate::Buffers;
use crate::limits::NUMBERS;
use crate::ordinary::{Counted, Plan};

/// A list that holds the longest answer.
pub type Numbers = [u32; NUMBERS];

/// The first number of a run's answer, where it isn't a refusal's.
pub const DONE: u32 = 0;
pub const NO_ROOM: u32 = 100;
pub const PAUSED: u32 = 101;
pub const LOG_SHORT: u32 = 102;

// SAFETY, for each call below: each pointer comes with the length of the live
// buffer that it points to, no two of the buffers overlap, and those that the
// call may change are borrowed for writing.

pub fn check(buffers: &Buffers, answer: &mut Numbers) -> usize {
    let (table, roots, order) = (&buffers.table, &buffers.roots, &buffers.order);
    unsafe {
        relay_check(
            table.as_ptr(),
            table.len(),
            roots.as_ptr(),
            roots.len(),
            order.as_ptr(),
            order.len(),
            answer.as_mut_ptr(),
            answer.len(),
        )
    }
}

/// Count and share are written into `counted`.
pub fn count(
    buffers: &Buffers,
    position: u32,
    counted: &mut Counted,
    answer: &mut Numbers,
) -> usize {
    let (table, roots, order) = (&buffers.table, &buffers.roots, &buffers.order);
    unsafe {
        relay_count(
            table.as_ptr(),
            table.len(),
            roots.as_ptr(),
            roots.len(),
            order.as_ptr(),
            order.len(),
            position,
            &mut counted.count,
            1,
            &mut counted.share,
            1,
            answer.as_mut_ptr(),
            answer.len(),
        )
    }
}

pub fn swap(buffers: &mut Buffers, level: u32, answer: &mut Numbers) -> usize {
    let (table, roots, order) = (&mut buffers.table, &buffers.roots, &mut buffers.order);
    let log = &mut buffers.log;
    unsafe {
        relay_swap(
            table.as_mut_ptr(),
            table.len(),
            roots.as_ptr(),
            roots.len(),
            order.as_mut_ptr(),
            order.len(),
            log.as_mut_ptr(),
            log.len(),
            level,
            answer.as_mut_ptr(),
            answer.len(),
        )
    }
}

pub fn run(
    buffers: &mut Buffers,
    target: &[u8],
    plan: Plan,
    budget: u32,
    answer: &mut Numbers,
) -> usize {
    let (table, roots, order) = (&mut buffers.table, &buffers.roots, &mut buffers.order);
    let log = &mut buffers.log;
    unsafe {
        relay_run(
            table.as_mut_ptr(),
            table.len(),
            roots.as_ptr(),
            roots.len(),
            order.as_mut_ptr(),
            order.len(),
            target.as_ptr(),
            target.len(),
            log.as_mut_ptr(),
            log.len(),
            plan as u32,
            budget,
            answer.as_mut_ptr(),
            answer.len(),
        )
    }
}

pub fn recover(buffers: &mut Buffers, answer: &mut Numbers) -> usize {
    let (table, order, log) = (&mut buffers.table, &mut buffers.order, &mut buffers.log);
    unsafe {
        relay_recover(
            table.as_mut_ptr(),
            table.len(),
            order.as_mut_ptr(),
            order.len(),
            log.as_mut_ptr(),
            log.len(),
            answer.as_mut_ptr(),
            answer.len(),
        )
    }
}
