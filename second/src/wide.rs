//! Random inputs with a swap of so many records that the longest log is just
//! long enough for it, or too short.
//!
//! Each crossing record has children of its own on the level below, which die.
//! It needs a name from above, and a record above gives two names and needs one:
//! so there are nearly as many records above as cross.

use crate::diagram::{Diagram, Edge};
use crate::generate::{placed, random_order};
use crate::input::Input;
use crate::layout::{Reference, MOST_RECORDS, MOST_ROOTS, MOST_VARIABLES};
use crate::log::MOST_LOG_RECORDS;
use crate::random::Random;

pub struct Wide {
    pub input: Input,
    /// The upper level of the swap.
    pub level: usize,
}

/// So many levels above the pair are enough for all that crosses, and so many
/// below it for the grandchildren.
const LEVELS_ABOVE: usize = 7;
const LEVELS_BELOW: usize = 12;
/// A record of the lower level has two different ones of at least so many edges.
const EDGES_BELOW: usize = 74;
/// Some roots are left for edges below that nothing names.
const MOST_TREES: usize = MOST_ROOTS - 4;
/// So near to what the longest log holds is near.
const NEAR: usize = 6;

/// What crosses: so many records with one child of their own, and so many with
/// two.
struct Crossing {
    with_one: usize,
    with_two: usize,
}

impl Crossing {
    fn count(&self) -> usize {
        self.with_one + self.with_two
    }

    /// So many records change together: each of them and its children.
    fn that_change(records: usize, random: &mut Random) -> Crossing {
        let most = records / 3;
        let with_two = match random.below(3) {
            0 => 0,
            1 => most,
            _ => random.between(0, most),
        };
        // With two of its own a record makes three: the rest must be even.
        let with_two = match (records - 3 * with_two) % 2 {
            0 => with_two,
            _ if with_two > 0 => with_two - 1,
            _ => 1,
        };
        Crossing {
            with_one: (records - 3 * with_two) / 2,
            with_two,
        }
    }
}

pub fn wide(random: &mut Random) -> Wide {
    let n = match random.coin() {
        true => MOST_VARIABLES,
        false => random.between(LEVELS_ABOVE + 2 + LEVELS_BELOW, MOST_VARIABLES),
    };
    let level = random.between(LEVELS_ABOVE, n - 2 - LEVELS_BELOW);
    let held = MOST_LOG_RECORDS - 1;
    let needed = match random.below(6) {
        0 | 1 => held,
        2 => held + 1,
        3 => random.between(held - NEAR, held + NEAR),
        _ => random.between(held, held + held / 4),
    };
    // Free records are taken first, and change too; one entry is for the pair.
    let free = random.below(2) * random.below(4);
    let crossing = Crossing::that_change(needed - 1 - free, random);
    let diagram = grown(n, level, &crossing, random);
    let all = random.once_in(4);
    let used = diagram.nodes().len();
    let records = if all { MOST_RECORDS } else { used + free };
    Wide {
        input: in_a_table(&diagram, n, records, random),
        level,
    }
}

fn grown(n: usize, level: usize, crossing: &Crossing, random: &mut Random) -> Diagram {
    let mut diagram = Diagram::new(n);
    let below = edges_below(&mut diagram, n, level + 2, random);
    let mut forest = Forest {
        level,
        below,
        children: own_children(crossing, random),
        diagram,
    };
    let trees = random.between(MOST_TREES / 2, MOST_TREES);
    for tree in 0..trees {
        let leaves = (crossing.count() + tree) / trees;
        forest.tree(0, leaves, random);
    }
    forest.diagram
}

/// How many children of its own each has, in any order.
fn own_children(crossing: &Crossing, random: &mut Random) -> Vec<usize> {
    let mut children = vec![1; crossing.with_one];
    children.resize(crossing.count(), 2);
    random.shuffle(&mut children);
    children
}

/// The constants, and records on some of the levels from this one on.
fn edges_below(
    diagram: &mut Diagram,
    n: usize,
    first_level: usize,
    random: &mut Random,
) -> Vec<Edge> {
    let mut levels: Vec<usize> = (first_level..n).collect();
    random.shuffle(&mut levels);
    levels.truncate(LEVELS_BELOW);
    levels.sort();
    let mut edges = vec![Edge::Constant(false), Edge::Constant(true)];
    for &level in levels.iter().rev() {
        if edges.len() >= EDGES_BELOW {
            break;
        }
        let mut here: Vec<Edge> = (0..EDGES_BELOW / LEVELS_BELOW + 2)
            .map(|_| {
                let [low, high] = two_of(&edges, random);
                diagram.node(level, low, high)
            })
            .collect();
        here.sort();
        here.dedup();
        edges.extend(here);
    }
    edges
}

/// Two different ones.
fn two_of(edges: &[Edge], random: &mut Random) -> [Edge; 2] {
    let one = random.below(edges.len());
    let other = (one + random.between(1, edges.len() - 1)) % edges.len();
    [edges[one], edges[other]]
}

/// Trees whose leaves are the records that cross.
struct Forest {
    diagram: Diagram,
    level: usize,
    below: Vec<Edge>,
    /// Of the leaves that are still to be made.
    children: Vec<usize>,
}

impl Forest {
    /// A tree from this level on with so many leaves. Each of its levels doubles
    /// them at most, and one that isn't needed may be left out.
    fn tree(&mut self, from: usize, leaves: usize, random: &mut Random) -> Edge {
        if leaves == 1 {
            return self.leaf(random);
        }
        let most = 1 << (self.level - from - 1).min(MOST_RECORDS.ilog2() as usize);
        if leaves <= most && random.once_in(4) {
            return self.tree(from + 1, leaves, random);
        }
        let fewest = leaves.saturating_sub(most).max(1);
        let left = random.between(fewest, leaves - fewest);
        let low = self.tree(from + 1, left, random);
        let high = self.tree(from + 1, leaves - left, random);
        self.diagram.node(from, low, high)
    }

    /// A record that crosses, with one or two children of its own.
    fn leaf(&mut self, random: &mut Random) -> Edge {
        let children = self.children.pop().expect("there are as many leaves");
        let first = self.own_child(random);
        let mut both = match children {
            1 => [first, Edge::Constant(random.coin())],
            _ => [first, self.own_child(random)],
        };
        random.shuffle(&mut both);
        let [low, high] = both;
        self.diagram.node(self.level, low, high)
    }

    /// A record of the lower level that there wasn't yet.
    fn own_child(&mut self, random: &mut Random) -> Edge {
        loop {
            let before = self.diagram.nodes().len();
            let [low, high] = two_of(&self.below, random);
            let child = self.diagram.node(self.level + 1, low, high);
            if self.diagram.nodes().len() > before {
                return child;
            }
        }
    }
}

/// With roots to the tops alone, so that all that can die does.
fn in_a_table(diagram: &Diagram, n: usize, records: usize, random: &mut Random) -> Input {
    let (mut input, references) = placed(diagram, records, random_order(n, random), random);
    let mut roots: Vec<Reference> = diagram.tops().iter().map(|&top| references[top]).collect();
    random.shuffle(&mut roots);
    input.set_roots(&roots);
    input
}

#[cfg(test)]
mod tests {
    use super::*;
    use crate::commit::entries;
    use crate::model::{answer, Answer, Question};
    use crate::swap::swap;

    #[test]
    fn the_swap_has_room_and_changes_as_many_as_a_log_holds() {
        let mut just_enough = 0;
        let mut just_short = 0;
        for seed in 0..60 {
            let Wide { mut input, level } = wide(&mut Random::from_seed(seed));
            let used = input.used_numbers().len();
            let wanted = Answer::Accepted { used };
            assert_eq!(answer(&mut input, &Question::Check), wanted, "seed {seed}");
            let Ok(made) = swap(&input, level) else {
                panic!("seed {seed}: no room");
            };
            let needed = entries(&input, &made.after, level).len();
            assert!(
                needed + NEAR + 1 >= MOST_LOG_RECORDS,
                "seed {seed}: {needed}"
            );
            just_enough += usize::from(needed + 1 == MOST_LOG_RECORDS);
            just_short += usize::from(needed == MOST_LOG_RECORDS);
        }
        assert!(just_enough > 0 && just_short > 0);
    }
}
