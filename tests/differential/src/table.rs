//! Node tables.

use std::fmt;

pub const MOST_NODES: usize = 2045;

#[derive(Clone, Copy, Debug, PartialEq, Eq)]
pub struct Node {
    pub code: u8,
    pub a: u16,
    pub b: u16,
}

impl fmt::Display for Node {
    fn fmt(&self, out: &mut fmt::Formatter<'_>) -> fmt::Result {
        write!(out, "{} {} {}", self.code, self.a, self.b)
    }
}

/// What the numbers of a node are.
#[derive(Clone, Copy, Debug, PartialEq, Eq)]
pub enum Shape {
    True,
    Question,
    One,
    Two,
}

pub fn shape(code: u8) -> Option<Shape> {
    match code {
        0 => Some(Shape::True),
        1 => Some(Shape::Question),
        2 | 5..=10 => Some(Shape::One),
        3 | 4 | 11 | 12 => Some(Shape::Two),
        _ => None,
    }
}

impl Node {
    pub fn new(code: u8, a: usize, b: usize) -> Node {
        let short = |number| u16::try_from(number).expect("a table is short");
        Node {
            code,
            a: short(a),
            b: short(b),
        }
    }

    /// Whether the node may stand at place `number` of a table on so many
    /// questions.
    pub fn is_in_order(&self, number: usize, questions: usize) -> bool {
        let (a, b) = (usize::from(self.a), usize::from(self.b));
        match shape(self.code) {
            None => false,
            Some(Shape::True) => a == 0 && b == 0,
            Some(Shape::Question) => a < questions && b == 0,
            Some(Shape::One) => a < number && b == 0,
            Some(Shape::Two) => a < number && b < number,
        }
    }

    /// The nodes that this one names.
    pub fn parts(&self) -> Vec<usize> {
        let (a, b) = (usize::from(self.a), usize::from(self.b));
        match shape(self.code) {
            Some(Shape::One) => vec![a],
            Some(Shape::Two) => vec![a, b],
            _ => Vec::new(),
        }
    }
}

pub fn are_in_order(nodes: &[Node], questions: usize) -> bool {
    nodes
        .iter()
        .enumerate()
        .all(|(i, node)| node.is_in_order(i, questions))
}
