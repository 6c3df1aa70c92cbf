//! The inputs that are timed: the same images and tables as in `crates/bench`.

use crate::node::Node;
use crate::node::Operator::{self, *};

/// How the states lead on: each to 16 others, each to the next in a ring, each to the one before in a ring,
/// or each to the next and the last to itself.
#[derive(Clone, Copy)]
pub enum Shape {
    Dense,
    Ring,
    RingBackward,
    Chain,
}

/// What state s leads to by step i.
fn target(shape: Shape, s: u8, i: u8) -> u8 {
    match shape {
        Shape::Dense => s.wrapping_mul(7).wrapping_add(i.wrapping_mul(17)),
        Shape::Ring => s.wrapping_add(1),
        Shape::RingBackward => s.wrapping_sub(1),
        Shape::Chain => s.saturating_add(1),
    }
}

/// An image of 256 states of signal words, of which one or none shows signal 0.
pub fn image(shape: Shape, lit: Option<u8>) -> Vec<u8> {
    let steps = if let Shape::Dense = shape { 16 } else { 1 };
    let mut bytes = vec![1, 0, 0, 1, 0, steps, 0, 0];
    for s in 0..=255 {
        let first = u16::from(s) * u16::from(steps) + 1;
        bytes.extend([u8::from(lit == Some(s)), 0, 0, 0]);
        bytes.extend(first.to_le_bytes());
        bytes.extend([0, 0]);
    }
    for s in 0..=255 {
        for i in 1..=steps {
            let after = u16::from(s) * u16::from(steps) + u16::from(i) + 1;
            let next = if i < steps { after } else { 0 };
            bytes.extend([target(shape, s, i), 0]);
            bytes.extend(next.to_le_bytes());
        }
    }
    bytes
}

const OPERATORS: [Operator; 11] = [Not, And, Or, EX, AX, EF, AF, EG, AG, EU, AU];

const MOST_NODES: usize = 2045;

/// Question 0 and true, and then all operators in turn, each on those two.
pub fn long_table() -> Vec<Node> {
    let mut nodes = vec![Node::new(Question, 0, 0), Node::new(True, 0, 0)];
    for operator in OPERATORS.into_iter().cycle().take(MOST_NODES - 2) {
        let a = if let And | Or | EU | AU = operator { 1 } else { 0 };
        nodes.push(Node::new(operator, a, 0));
    }
    nodes
}
