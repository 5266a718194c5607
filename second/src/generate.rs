//! Random inputs that Check accepts: reduced ordered shared diagrams of all
//! sizes, from the empty table to the full one.

use std::collections::HashMap;

use crate::diagram::{Diagram, Edge};
use crate::input::Input;
use crate::layout::{
    Record, RecordNumber, Reference, MOST_COUNTED, MOST_RECORDS, MOST_ROOTS, MOST_VARIABLES,
};
use crate::random::Random;

/// What is wanted of a diagram. Fewer records are used where the variables
/// and roots do not allow as many.
struct Shape {
    n: usize,
    used: usize,
    free: usize,
    most_tops: usize,
    /// A step adds a whole random function once in so many times, and
    /// otherwise a single node.
    function_once_in: usize,
}

/// So many useless steps end the growing of a diagram.
const MOST_MISSES: usize = 100;

/// A random input that Check accepts, mostly a small one, and the number of
/// its used records.
pub fn accepted(random: &mut Random) -> (Input, usize) {
    let shape = random_shape(random);
    of_shape(&shape, random)
}

/// A random accepted input on which a swap finds much to do: few variables
/// and many records, with few, some or many free ones.
pub fn busy(random: &mut Random) -> Input {
    let used = random.between(1, 40);
    let free = match random.below(3) {
        0 => random.below(3),
        1 => random.below(10),
        _ => random.between(0, 2 * used),
    };
    let shape = Shape {
        n: random.between(2, 7),
        used,
        free,
        most_tops: random.between(1, 8),
        function_once_in: random.between(1, 4),
    };
    of_shape(&shape, random).0
}

/// A random accepted input of some dozen records, with more variables than a
/// busy one and mostly with room for many swaps.
pub fn roomy(random: &mut Random) -> Input {
    let shape = Shape {
        n: random.between(6, 16),
        used: random.between(1, 60),
        free: random.between(0, 300),
        most_tops: random.between(1, 8),
        function_once_in: random.between(1, 10),
    };
    of_shape(&shape, random).0
}

/// A random accepted input of hundreds or thousands of records.
pub fn big(random: &mut Random) -> Input {
    let shape = match random.below(10) {
        0..=2 => hundreds(random),
        3..=4 => large(random),
        5..=7 => longest(random),
        _ => brimful(random),
    };
    of_shape(&shape, random).0
}

/// A random accepted input of as many records and variables as there may be, few
/// of them used: a swap there has little to do.
pub fn spacious(random: &mut Random) -> Input {
    let used = random.between(MOST_VARIABLES, 3 * MOST_VARIABLES);
    let shape = Shape {
        n: MOST_VARIABLES,
        used,
        free: MOST_RECORDS,
        most_tops: random.between(1, 8),
        function_once_in: random.between(1, 4),
    };
    of_shape(&shape, random).0
}

/// A random accepted input whose records stand on every level, one below the
/// other: a root's count there takes as many binary digits as there are. Often
/// there are as many variables as can be counted, or one more.
pub fn deep(random: &mut Random) -> Input {
    let n = match random.below(10) {
        0..=3 => MOST_COUNTED,
        4 => MOST_COUNTED + 1,
        5 => MOST_VARIABLES,
        _ => random.between(1, MOST_VARIABLES),
    };
    let mut diagram = Diagram::new(n);
    diagram.climb(random);
    let free = random_free(6, random);
    in_a_table(&diagram, n, free, random)
}

/// A random accepted input with no free record and with so many used ones, or
/// fewer where the variables and roots do not allow as many.
pub fn all_used(used: usize, random: &mut Random) -> Input {
    let shape = match used {
        0..80 => Shape {
            n: random_n(1, random),
            ..with_room_for_roots(used, random)
        },
        80..1_000 => with_room_for_roots(used, random),
        _ => Shape {
            used,
            free: 0,
            ..brimful(random)
        },
    };
    of_shape(&shape, random).0
}

/// Many levels, and half of the roots at most.
fn with_room_for_roots(used: usize, random: &mut Random) -> Shape {
    Shape {
        n: random_n(MOST_VARIABLES / 2, random),
        used,
        free: 0,
        most_tops: random.between(1, MOST_ROOTS / 2),
        function_once_in: random.between(1, 3),
    }
}

/// The same diagram with so many free records, and its records at random
/// places among them.
pub fn with_free(input: &Input, free: usize, random: &mut Random) -> Input {
    let records = input.used_numbers().len() + free;
    let mut numbers: Vec<RecordNumber> = (0..records).map(RecordNumber).collect();
    random.shuffle(&mut numbers);
    moved(input, records, numbers)
}

/// The same diagram in a table of so many records, its own at the first of
/// these numbers and the others free.
pub fn moved(input: &Input, records: usize, numbers: Vec<RecordNumber>) -> Input {
    let used: Vec<(RecordNumber, Record)> = input.store().used().collect();
    let old_numbers = used.iter().map(|&(number, _)| number);
    let new_numbers: HashMap<RecordNumber, RecordNumber> = old_numbers.zip(numbers).collect();
    let moved = |reference: Reference| match reference.record() {
        None => reference,
        Some(number) => Reference::to(new_numbers[&number]),
    };

    let mut result = Input::free(records, input.order.clone());
    for (number, record) in used {
        let record = Record {
            low: moved(record.low),
            high: moved(record.high),
            ..record
        };
        result.set_record(new_numbers[&number], record);
    }
    let roots: Vec<Reference> = input.root_list().into_iter().map(moved).collect();
    result.set_roots(&roots);
    result
}

/// An input of this shape, and the number of its used records.
fn of_shape(shape: &Shape, random: &mut Random) -> (Input, usize) {
    let diagram = random_diagram(shape, random);
    let used = diagram.nodes().len();
    (in_a_table(&diagram, shape.n, shape.free, random), used)
}

/// The diagram with so many free records, unless they are too many, and with
/// an order and roots of its own.
fn in_a_table(diagram: &Diagram, n: usize, free: usize, random: &mut Random) -> Input {
    let records = (diagram.nodes().len() + free).min(MOST_RECORDS);
    let (mut input, references) = placed(diagram, records, random_order(n, random), random);
    input.set_roots(&random_roots(diagram, &references, random));
    input
}

pub fn random_order(n: usize, random: &mut Random) -> Vec<u8> {
    let mut order: Vec<u8> = (0..n as u8).collect();
    random.shuffle(&mut order);
    order
}

fn random_shape(random: &mut Random) -> Shape {
    match random.below(100) {
        0..=69 => small(random),
        70..=89 => medium(random),
        90..=95 => hundreds(random),
        96..=97 => large(random),
        _ => brimful(random),
    }
}

/// At least so many variables, and often as many as there may be.
fn random_n(fewest: usize, random: &mut Random) -> usize {
    if random.once_in(4) {
        MOST_VARIABLES
    } else {
        random.between(fewest, MOST_VARIABLES)
    }
}

fn small(random: &mut Random) -> Shape {
    Shape {
        n: match random.coin() {
            true => random.between(1, 5),
            false => random_n(1, random),
        },
        used: random.below(13),
        free: random_free(6, random),
        most_tops: random.between(1, 8),
        function_once_in: random.between(1, 6),
    }
}

fn medium(random: &mut Random) -> Shape {
    Shape {
        n: random_n(1, random),
        used: random.below(80),
        free: random_free(80, random),
        most_tops: random.between(1, MOST_ROOTS),
        function_once_in: random.between(1, 20),
    }
}

fn hundreds(random: &mut Random) -> Shape {
    Shape {
        n: random_n(4, random),
        used: random.between(80, 800),
        free: random_free(800, random),
        most_tops: random.between(1, MOST_ROOTS),
        function_once_in: random.between(1, 40),
    }
}

/// Up to the longest table, with some or none of its records used.
fn large(random: &mut Random) -> Shape {
    let records = random.between(1_000, MOST_RECORDS);
    let used = random.below(records + 1);
    Shape {
        n: random_n(1, random),
        used,
        free: records - used,
        most_tops: random.between(1, MOST_ROOTS),
        function_once_in: random.between(1, 3),
    }
}

/// The longest table, with many of its records free.
fn longest(random: &mut Random) -> Shape {
    let used = random.between(100, MOST_RECORDS / 2);
    Shape {
        n: random_n(8, random),
        used,
        free: MOST_RECORDS - used,
        most_tops: random.between(1, MOST_ROOTS),
        function_once_in: random.between(1, 40),
    }
}

/// The longest table, with all of its records used, or all but a few.
fn brimful(random: &mut Random) -> Shape {
    let free = random_free(3, random);
    Shape {
        n: random_n(16, random),
        used: MOST_RECORDS - free,
        free,
        most_tops: MOST_ROOTS,
        function_once_in: 1,
    }
}

fn random_free(most: usize, random: &mut Random) -> usize {
    if random.once_in(3) {
        0
    } else {
        random.between(0, most)
    }
}

fn random_diagram(shape: &Shape, random: &mut Random) -> Diagram {
    let mut diagram = Diagram::new(shape.n);
    let mut misses = 0;
    while diagram.nodes().len() < shape.used && misses < MOST_MISSES {
        let before = diagram.nodes().len();
        if diagram.tops().len() < shape.most_tops && random.once_in(shape.function_once_in) {
            let (levels, truth) = random_function(shape.n, shape.used - before, random);
            diagram.function(&levels, &truth);
        } else {
            diagram.grow(shape.most_tops, random);
        }
        let grown = diagram.nodes().len() > before;
        misses = if grown { 0 } else { misses + 1 };
    }
    diagram
}

/// Rising levels and a truth table over them, so few that the function takes
/// `room` nodes at most.
fn random_function(n: usize, room: usize, random: &mut Random) -> (Vec<usize>, Vec<bool>) {
    let most = n.min((room + 1).ilog2() as usize);
    let count = random.between(0, most).max(random.between(0, most));
    let mut levels: Vec<usize> = (0..n).collect();
    random.shuffle(&mut levels);
    levels.truncate(count);
    levels.sort();
    let truth = (0..1 << count).map(|_| random.coin()).collect();
    (levels, truth)
}

/// The diagram's nodes as records with random numbers, the others free, no
/// roots yet; and the reference to each node.
pub fn placed(
    diagram: &Diagram,
    records: usize,
    order: Vec<u8>,
    random: &mut Random,
) -> (Input, Vec<Reference>) {
    let mut numbers: Vec<RecordNumber> = (0..records).map(RecordNumber).collect();
    random.shuffle(&mut numbers);
    numbers.truncate(diagram.nodes().len());
    let references: Vec<Reference> = numbers.iter().copied().map(Reference::to).collect();

    let mut input = Input::free(records, order);
    for (node, &number) in diagram.nodes().iter().zip(&numbers) {
        let record = Record {
            variable: input.variable_at(node.level),
            low: reference(node.low, &references),
            high: reference(node.high, &references),
        };
        input.set_record(number, record);
    }
    (input, references)
}

fn reference(edge: Edge, references: &[Reference]) -> Reference {
    match edge {
        Edge::Constant(value) => Reference::constant(value),
        Edge::Node(number) => references[number],
    }
}

/// All tops, so that no record is idle, and as many further roots as there is
/// room for: constants, records inside, and the same ones once more.
fn random_roots(
    diagram: &Diagram,
    references: &[Reference],
    random: &mut Random,
) -> Vec<Reference> {
    let mut roots: Vec<Reference> = diagram.tops().iter().map(|&top| references[top]).collect();
    let room = MOST_ROOTS - roots.len();
    let further = match random.below(8) {
        0 => random.between(0, room),
        1 => room,
        2..=4 => 0,
        _ => random.between(0, room.min(3)),
    };
    for _ in 0..further {
        let from = match random.below(3) {
            0 => None,
            1 => random.pick(&roots),
            _ => random.pick(references),
        };
        roots.push(from.unwrap_or(Reference::constant(random.coin())));
    }
    random.shuffle(&mut roots);
    roots
}

#[cfg(test)]
mod tests {
    use super::*;
    use crate::model::{answer, Answer, Question};
    use crate::value::value;

    #[test]
    fn the_model_accepts_what_is_generated() {
        for seed in 0..2_000 {
            let random = &mut Random::from_seed(seed);
            let (mut input, used) = accepted(random);
            let wanted = Answer::Accepted { used };
            assert_eq!(answer(&mut input, &Question::Check), wanted, "seed {seed}");
            let free = random.below(5);
            let mut moved = with_free(&input, free, random);
            assert_eq!(moved.free_numbers().len(), free);
            if moved.store().record_count() <= MOST_RECORDS {
                assert_eq!(answer(&mut moved, &Question::Check), wanted, "seed {seed}");
            }
        }
    }

    #[test]
    fn what_is_deep_has_a_record_on_every_level() {
        for seed in 0..500 {
            let mut input = deep(&mut Random::from_seed(seed));
            let used = input.order.len();
            let wanted = Answer::Accepted { used };
            assert_eq!(answer(&mut input, &Question::Check), wanted, "seed {seed}");
            let numbers = input.used_numbers().into_iter();
            let mut levels: Vec<_> = numbers.map(|number| input.level_of(number)).collect();
            levels.sort();
            assert_eq!(
                levels,
                (0..used).map(Some).collect::<Vec<_>>(),
                "seed {seed}"
            );
        }
    }

    /// Three random functions share one table; each is read back for every
    /// choice of its variables, with the other inputs at random.
    #[test]
    fn the_roots_have_the_values_of_their_functions() {
        for seed in 0..500 {
            let random = &mut Random::from_seed(seed);
            let n = random.between(1, MOST_VARIABLES);
            let mut diagram = Diagram::new(n);
            let functions: Vec<_> = (0..3).map(|_| random_function(n, 63, random)).collect();
            let edges: Vec<Edge> = functions
                .iter()
                .map(|(levels, truth)| diagram.function(levels, truth))
                .collect();
            let records = diagram.nodes().len() + random.below(5);
            let order = random_order(n, random);
            let (input, references) = placed(&diagram, records, order, random);

            for ((levels, truth), &edge) in functions.iter().zip(&edges) {
                let root = reference(edge, &references);
                for (choice, &wanted) in truth.iter().enumerate() {
                    let inputs = inputs_of_choice(choice, levels, &input.order, random);
                    assert_eq!(value(input.store(), root, &inputs), u8::from(wanted));
                }
            }
        }
    }

    /// The first level takes the highest digit of the choice.
    fn inputs_of_choice(
        choice: usize,
        levels: &[usize],
        order: &[u8],
        random: &mut Random,
    ) -> Vec<u8> {
        let mut inputs: Vec<u8> = order.iter().map(|_| random.below(2) as u8).collect();
        for (digit, &level) in levels.iter().rev().enumerate() {
            inputs[usize::from(order[level])] = (choice >> digit & 1) as u8;
        }
        inputs
    }
}
