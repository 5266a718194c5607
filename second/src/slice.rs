//! A slice: planned swaps, as far as a budget goes.

use crate::commit::{logged_swap, Obstacle};
use crate::input::Input;
use crate::model::Answer;
use crate::plans::{left, Plan};

/// One slice of an accepted input towards a target that is a permutation.
///
/// Done goes before no room, that before log short, and that before paused,
/// whatever the budget: so the next swap is tried even where it is spent.
pub fn slice(input: &mut Input, target: &[u8], plan: &Plan, budget: u32) -> Answer {
    let mut swaps = 0;
    loop {
        let left = left(&input.order, target);
        let Some(level) = (plan.next)(&input.order, target) else {
            return Answer::Done { swaps, left };
        };
        match logged_swap(input, level) {
            Err(Obstacle::NoRoom(lack)) => return Answer::Stuck { swaps, left, lack },
            Err(Obstacle::LogShort(short)) => return Answer::OutOfLog { swaps, left, short },
            Ok(_) if swaps == budget => return Answer::Paused { swaps, left },
            Ok(after) => {
                *input = after;
                swaps += 1;
            }
        }
    }
}
