//! A reduced ordered shared diagram while it is built: nodes with levels, not
//! yet records with numbers. A unique table keeps it reduced.

use std::collections::HashMap;

use crate::random::Random;

#[derive(Clone, Copy, Debug, PartialEq, Eq, PartialOrd, Ord, Hash)]
pub enum Edge {
    Constant(bool),
    Node(usize),
}

#[derive(Clone, Copy, PartialEq, Eq, Hash)]
pub struct Node {
    pub level: usize,
    pub low: Edge,
    pub high: Edge,
}

pub struct Diagram {
    n: usize,
    nodes: Vec<Node>,
    unique: HashMap<Node, usize>,
    /// The nodes that no node names: each must become a root.
    tops: Vec<usize>,
}

impl Diagram {
    pub fn new(n: usize) -> Diagram {
        Diagram {
            n,
            nodes: Vec::new(),
            unique: HashMap::new(),
            tops: Vec::new(),
        }
    }

    pub fn nodes(&self) -> &[Node] {
        &self.nodes
    }

    pub fn tops(&self) -> &[usize] {
        &self.tops
    }

    /// The node with these parts, made only where it is needed: never with
    /// equal children, never twice.
    pub fn node(&mut self, level: usize, low: Edge, high: Edge) -> Edge {
        if low == high {
            return low;
        }
        let node = Node { level, low, high };
        if let Some(&number) = self.unique.get(&node) {
            return Edge::Node(number);
        }
        let number = self.nodes.len();
        self.nodes.push(node);
        self.unique.insert(node, number);
        self.tops
            .retain(|&top| low != Edge::Node(top) && high != Edge::Node(top));
        self.tops.push(number);
        Edge::Node(number)
    }

    /// The function of the variables at these rising levels that this truth
    /// table gives: its first half holds where the first of them is 0. At most
    /// one node less is made than the truth table has entries, and at most one
    /// of them is a top.
    pub fn function(&mut self, levels: &[usize], truth: &[bool]) -> Edge {
        match levels.split_first() {
            None => Edge::Constant(truth[0]),
            Some((&level, below)) => {
                let (zero, one) = truth.split_at(truth.len() / 2);
                let low = self.function(below, zero);
                let high = self.function(below, one);
                self.node(level, low, high)
            }
        }
    }

    /// One more node above random children, unless the draw fails: the children
    /// are the same, or leave no level above them, or have that node already.
    /// There are never more than `most_tops` tops: at that number the new node
    /// takes one of them as a child.
    pub fn grow(&mut self, most_tops: usize, random: &mut Random) -> bool {
        let crowded = self.tops.len() >= most_tops;
        let mut children = [
            if crowded {
                self.random_top(random)
            } else {
                self.random_edge(random)
            },
            self.random_edge(random),
        ];
        random.shuffle(&mut children);
        let [low, high] = children;
        let ceiling = self.level(low).min(self.level(high));
        if ceiling == 0 {
            return false;
        }
        let level = if random.coin() {
            ceiling - 1
        } else {
            random.below(ceiling)
        };
        let before = self.nodes.len();
        self.node(level, low, high);
        self.nodes.len() > before
    }

    /// A node on every level of an empty diagram, the lowest first: one child
    /// is the node just below, the other any other edge. So the count of each
    /// is odd, and can take all binary digits there are.
    pub fn climb(&mut self, random: &mut Random) {
        let mut below = Edge::Constant(random.coin());
        for level in (0..self.n).rev() {
            let mut children = [below, self.random_edge_but(below, random)];
            random.shuffle(&mut children);
            let [low, high] = children;
            below = self.node(level, low, high);
        }
    }

    /// A constant counts as below every level.
    fn level(&self, edge: Edge) -> usize {
        match edge {
            Edge::Constant(_) => self.n,
            Edge::Node(number) => self.nodes[number].level,
        }
    }

    fn random_top(&self, random: &mut Random) -> Edge {
        match random.pick(&self.tops) {
            None => Edge::Constant(random.coin()),
            Some(top) => Edge::Node(top),
        }
    }

    fn random_edge(&self, random: &mut Random) -> Edge {
        match random.below(3) {
            0 => Edge::Constant(random.coin()),
            1 => self.random_top(random),
            _ if self.nodes.is_empty() => Edge::Constant(random.coin()),
            _ => Edge::Node(random.below(self.nodes.len())),
        }
    }

    fn random_edge_but(&self, edge: Edge, random: &mut Random) -> Edge {
        loop {
            let other = self.random_edge(random);
            if other != edge {
                return other;
            }
        }
    }
}
