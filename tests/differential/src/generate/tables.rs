//! Node tables, in order and damaged.

use super::texts;
use crate::protocol::Given;
use crate::rng::Rng;
use crate::table::{shape, Node, Shape, MOST_NODES};

/// The questions that a table may ask, and those that tell states of a model
/// apart.
pub struct Asked {
    count: usize,
    telling: Vec<usize>,
}

impl Asked {
    pub fn any(count: usize) -> Asked {
        Asked {
            count,
            telling: Vec::new(),
        }
    }

    pub fn of(given: &Given) -> Asked {
        let count = given.kind().questions();
        let states = given.load(false).map_or(Vec::new(), |model| model.states);
        let telling = |&question: &usize| {
            states
                .iter()
                .any(|state| state.answers[question] != states[0].answers[question])
        };
        Asked {
            count,
            telling: (0..count).filter(telling).collect(),
        }
    }

    fn question(&self, rng: &mut Rng) -> usize {
        if self.telling.is_empty() || rng.chance(15) {
            rng.below(self.count.min(32))
        } else {
            rng.pick(&self.telling)
        }
    }
}

fn leaf(rng: &mut Rng, asked: &Asked) -> Node {
    if asked.count == 0 || rng.chance(15) {
        Node::new(0, 0, 0)
    } else {
        Node::new(1, asked.question(rng), 0)
    }
}

/// A node of a table in order at place `number`.
fn node(rng: &mut Rng, number: usize, asked: &Asked) -> Node {
    if number == 0 || rng.chance(20) {
        return leaf(rng, asked);
    }
    let earlier = |rng: &mut Rng| {
        if rng.chance(60) {
            number - 1 - rng.below(number.min(3))
        } else {
            rng.below(number)
        }
    };
    let code = rng.between(2, 12) as u8;
    let a = earlier(rng);
    let b = if shape(code) == Some(Shape::Two) {
        earlier(rng)
    } else {
        0
    };
    Node::new(code, a, b)
}

fn in_order(rng: &mut Rng, count: usize, asked: &Asked) -> Vec<Node> {
    (0..count).map(|number| node(rng, number, asked)).collect()
}

fn damage(rng: &mut Rng, nodes: &mut [Node], questions: usize) {
    let number = match rng.below(4) {
        0 => 0,
        1 => nodes.len() - 1,
        _ => rng.below(nodes.len()),
    };
    let short = |value: usize| value.min(65535) as u16;
    let node = &mut nodes[number];
    match rng.below(7) {
        0 => node.code = rng.pick(&[13, 14, 128, 255]),
        1 => node.code = rng.below(13) as u8,
        2 => node.a = short(rng.pick(&[number, number + 1, number.saturating_sub(1), 65535])),
        3 => node.b = short(rng.pick(&[number, number + 1, number.saturating_sub(1), 65535])),
        4 => {
            let asked = rng.pick(&[questions, questions + 1, 31, 32, 255, 256]);
            *node = Node::new(1, asked.min(65535), 0);
        }
        5 => node.b = rng.pick(&[1, 256, 65535]),
        _ => *node = Node::new(0, rng.below(2), rng.below(2)),
    }
}

/// A table of mostly a few nodes, damaged in so many of a hundred cases.
pub fn table(rng: &mut Rng, asked: &Asked, damaged: usize) -> Vec<Node> {
    let count = match rng.below(30) {
        0 => 0,
        1 => rng.between(60, 250),
        _ => rng.between(1, 25),
    };
    let mut nodes = in_order(rng, count, asked);
    if count > 0 && rng.chance(damaged) {
        for _ in 0..rng.pick(&[1, 1, 2]) {
            damage(rng, &mut nodes, asked.count);
        }
    }
    nodes
}

/// A table of as many nodes as there may be, or one more or less.
pub fn long(rng: &mut Rng, asked: &Asked) -> Vec<Node> {
    let count = rng.between(MOST_NODES - 1, MOST_NODES + 1);
    let mut nodes = in_order(rng, count, asked);
    if rng.chance(20) {
        damage(rng, &mut nodes, asked.count);
    }
    nodes
}

/// The table of a formula text.
pub fn of_text(rng: &mut Rng, questions: usize) -> Vec<Node> {
    let text = texts::formula(rng, questions.clamp(1, 32));
    crate::text::read(&text, questions.clamp(1, 32), MOST_NODES).unwrap_or_default()
}

/// A table whose text has 4,095 to 4,097 bytes, the greater part of it shared.
pub fn near_longest_text(rng: &mut Rng) -> Vec<Node> {
    let wanted = rng.between(4095, 4097);
    let mut nodes = vec![Node::new(0, 0, 0)];
    let mut lengths = vec![1];
    // Doubled parts come near to the length, and signs `!` up to it.
    loop {
        let last = nodes.len() - 1;
        let fitting = |length: usize, own: usize| length + own <= wanted - lengths[last];
        let part = (0..nodes.len())
            .rev()
            .find(|&part| fitting(lengths[part], 3));
        match part {
            Some(part) if !rng.chance(20) => {
                let code = rng.pick(&[3, 4, 11]);
                let own = if code == 11 { 6 } else { 3 };
                if fitting(lengths[part], own) {
                    let (a, b) = if rng.chance(50) {
                        (last, part)
                    } else {
                        (part, last)
                    };
                    lengths.push(lengths[last] + lengths[part] + own);
                    nodes.push(Node::new(code, a, b));
                }
            }
            _ if lengths[last] < wanted => {
                let code = if wanted - lengths[last] >= 3 {
                    rng.pick(&[2, 5, 6, 7, 8, 9, 10])
                } else {
                    2
                };
                lengths.push(lengths[last] + if code == 2 { 1 } else { 3 });
                nodes.push(Node::new(code, last, 0));
            }
            _ => return nodes,
        }
    }
}

/// A table of 63 to 66 levels.
pub fn near_deepest(rng: &mut Rng) -> Vec<Node> {
    let levels = rng.between(63, 66);
    let mut nodes = vec![Node::new(0, 0, 0)];
    while nodes.len() < levels {
        let last = nodes.len() - 1;
        let code = rng.pick(&[2, 5, 6, 7, 8, 9, 10, 3, 4, 11, 12]);
        // The other argument is short, so that the text is.
        let node = match (shape(code), rng.chance(50)) {
            (Some(Shape::Two), true) => Node::new(code, last, 0),
            (Some(Shape::Two), false) => Node::new(code, 0, last),
            _ => Node::new(code, last, 0),
        };
        nodes.push(node);
    }
    nodes
}

/// Nodes of any numbers.
pub fn arbitrary(rng: &mut Rng, count: usize) -> Vec<Node> {
    let number = |rng: &mut Rng| {
        let digits = rng.pick(&[10, 100, 1000, 10000, 65536]);
        rng.below(digits) as u16
    };
    (0..count)
        .map(|_| Node {
            code: rng.byte() >> rng.below(8),
            a: number(rng),
            b: number(rng),
        })
        .collect()
}
