//! The plans, and the inversions that each of them takes away one by one.

pub struct Plan {
    pub name: &'static str,
    /// The upper level of the pair to be swapped next, for an order and a
    /// target; none where they are equal.
    pub next: fn(&[u8], &[u8]) -> Option<usize>,
}

/// In the order of their numbers, from 0.
pub const PLANS: [Plan; 4] = [
    Plan {
        name: "Bring Up",
        next: bring_up,
    },
    Plan {
        name: "Sink Down",
        next: sink_down,
    },
    Plan {
        name: "Lowest Inversion",
        next: lowest_inversion,
    },
    Plan {
        name: "Highest Inversion",
        next: highest_inversion,
    },
];

/// The plan of this number, if there is one.
pub fn plan(number: u32) -> Option<&'static Plan> {
    PLANS.get(number as usize)
}

/// The target's variable of the topmost level that differs goes up (docs/RULES.md,
/// 5.2).
fn bring_up(order: &[u8], target: &[u8]) -> Option<usize> {
    let mut levels = order.iter().zip(target);
    let k = levels.position(|(here, there)| here != there)?;
    let p = level_of(target[k], order);
    Some(p - 1)
}

/// The target's variable of the lowest level that differs goes down.
fn sink_down(order: &[u8], target: &[u8]) -> Option<usize> {
    let mut levels = order.iter().zip(target);
    let k = levels.rposition(|(here, there)| here != there)?;
    let p = level_of(target[k], order);
    Some(p)
}

/// The adjacent inverted pair nearest the bottom.
fn lowest_inversion(order: &[u8], target: &[u8]) -> Option<usize> {
    inverted_neighbours(order, target).next_back()
}

/// The adjacent inverted pair nearest the top.
fn highest_inversion(order: &[u8], target: &[u8]) -> Option<usize> {
    inverted_neighbours(order, target).next()
}

/// The upper level of each adjacent inverted pair, from the top downwards.
fn inverted_neighbours<'a>(
    order: &'a [u8],
    target: &'a [u8],
) -> impl DoubleEndedIterator<Item = usize> + 'a {
    let neighbours = order.windows(2).enumerate();
    neighbours
        .filter(|(_, pair)| is_inversion(pair[0], pair[1], target))
        .map(|(upper, _)| upper)
}

/// Left: the number of inversions. Each variable is looked for in the target
/// once, not for each pair.
pub fn left(order: &[u8], target: &[u8]) -> usize {
    let levels = order.iter().map(|&variable| level_of(variable, target));
    let levels: Vec<usize> = levels.collect();
    let inversions_of = |upper: usize| {
        let below = levels[upper + 1..].iter();
        below.filter(|&&lower| levels[upper] > lower).count()
    };
    (0..levels.len()).map(inversions_of).sum()
}

/// Of two variables, the first above the second in the order: does the target
/// have them the other way round?
pub fn is_inversion(above: u8, below: u8, target: &[u8]) -> bool {
    level_of(above, target) > level_of(below, target)
}

fn level_of(variable: u8, order: &[u8]) -> usize {
    order
        .iter()
        .position(|&other| other == variable)
        .expect("order and target hold the same variables")
}

#[cfg(test)]
mod tests {
    use super::*;

    /// Every order of up to five variables with every target.
    fn every_order_and_target() -> Vec<(Vec<u8>, Vec<u8>)> {
        (1..=5)
            .flat_map(|n| {
                let targets = orders(n);
                orders(n).into_iter().flat_map(move |order| {
                    let with_order = |target: &Vec<u8>| (order.clone(), target.clone());
                    targets.iter().map(with_order).collect::<Vec<_>>()
                })
            })
            .collect()
    }

    fn orders(n: usize) -> Vec<Vec<u8>> {
        let Some(last) = n.checked_sub(1) else {
            return vec![Vec::new()];
        };
        let with_last = |shorter: Vec<u8>| {
            (0..n).map(move |level| {
                let mut order = shorter.clone();
                order.insert(level, last as u8);
                order
            })
        };
        orders(last).into_iter().flat_map(with_last).collect()
    }

    /// The other way to tell the plans: each variable is written as its level
    /// in the target, so that a pair is inverted where these fall. Of the
    /// falling neighbours the plans choose the one that ends in the smallest,
    /// the one that begins with the largest, the lowest and the highest.
    #[test]
    fn each_plan_chooses_among_the_falling_neighbours() {
        for (order, target) in every_order_and_target() {
            let mut target_levels = vec![0; target.len()];
            for (level, &variable) in target.iter().enumerate() {
                target_levels[usize::from(variable)] = level;
            }
            let levels: Vec<usize> = order
                .iter()
                .map(|&variable| target_levels[usize::from(variable)])
                .collect();
            let falling = || (1..levels.len()).filter(|&lower| levels[lower - 1] > levels[lower]);
            let chosen = [
                falling().min_by_key(|&lower| levels[lower]),
                falling().max_by_key(|&lower| levels[lower - 1]),
                falling().max(),
                falling().min(),
            ];
            let chosen = chosen.map(|lower| lower.map(|lower| lower - 1));
            let planned = PLANS.map(|plan| (plan.next)(&order, &target));
            assert_eq!(planned, chosen, "{order:?} to {target:?}");
        }
    }

    /// Bring Up, Sink Down, Lowest and Highest Inversion, on the way to 0 1 2
    /// and so on.
    #[test]
    fn the_pairs_written_out() {
        let pairs: [(&[u8], [usize; 4]); 9] = [
            (&[0, 2, 1], [1, 1, 1, 1]),
            (&[1, 0, 2], [0, 0, 0, 0]),
            (&[1, 2, 0], [1, 1, 1, 1]),
            (&[2, 0, 1], [0, 0, 0, 0]),
            (&[2, 1, 0], [1, 0, 1, 0]),
            (&[1, 0, 3, 2], [0, 2, 2, 0]),
            (&[3, 0, 2, 1], [0, 0, 2, 0]),
            (&[2, 1, 3, 0], [2, 2, 2, 0]),
            (&[2, 1, 0, 5, 4, 3], [1, 3, 4, 0]),
        ];
        for (order, uppers) in pairs {
            let target: Vec<u8> = (0..order.len() as u8).collect();
            let planned = PLANS.map(|plan| (plan.next)(order, &target));
            assert_eq!(planned, uppers.map(Some), "{order:?}");
        }
    }

    #[test]
    fn each_plan_makes_as_many_swaps_as_there_are_inversions() {
        for (order, target) in every_order_and_target() {
            for plan in &PLANS {
                let mut order = order.clone();
                for _ in 0..left(&order, &target) {
                    let upper = (plan.next)(&order, &target).expect("an inversion is left");
                    order.swap(upper, upper + 1);
                }
                assert_eq!(order, target, "{}", plan.name);
                assert_eq!((plan.next)(&order, &target), None, "{}", plan.name);
            }
        }
    }
}
