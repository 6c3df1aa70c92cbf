//! Answers that a right program could give, for the tests of the judge: the
//! own ones, and where a formula is asked for, one that is made by splits
//! (docs/LOGIC.md, "The comparison").

use crate::judge::judge;
use crate::model::Model;
use crate::protocol::{Job, Payload};
use crate::rounds::least_with_same;
use crate::table::Node;
use std::collections::{BTreeMap, BTreeSet};

/// Classes of states, and for each a node that holds at its states and at no
/// others.
struct Splits {
    classes: Vec<usize>,
    node_of: BTreeMap<usize, usize>,
    nodes: Vec<Node>,
}

impl Splits {
    fn push(&mut self, node: Node) -> usize {
        self.nodes.push(node);
        self.nodes.len() - 1
    }

    /// The conjunction of a class's node and a test; at first all states are
    /// one class, and its node is true.
    fn and(&mut self, class: usize, test: usize) -> usize {
        match self.node_of[&class] {
            0 => test,
            node => self.push(Node::new(3, node, test)),
        }
    }

    /// The classes in which a test is true at some states only.
    fn parted(&self, set: &[bool]) -> BTreeSet<usize> {
        let states = 0..set.len();
        states
            .filter(|&state| set[state] != set[self.classes[state]])
            .map(|state| self.classes[state])
            .collect()
    }

    /// Splits by a test, which is a node to come and the states that have it.
    fn split(&mut self, test: Node, set: &[bool]) {
        let parted = self.parted(set);
        if parted.is_empty() {
            return;
        }
        let yes = self.push(test);
        let no = self.push(Node::new(2, yes, 0));
        let old = self.classes.clone();
        self.classes = least_with_same(old.iter().zip(set).collect());
        for class in parted {
            let halves = [true, false].map(|side| {
                let member = (0..set.len()).find(|&s| old[s] == class && set[s] == side);
                self.classes[member.expect("the class is parted")]
            });
            let nodes = [self.and(class, yes), self.and(class, no)];
            self.node_of.extend(halves.into_iter().zip(nodes));
        }
    }

    fn round(&mut self, successors: &[Vec<usize>]) {
        let old = self.classes.clone();
        for (class, node) in self.node_of.clone() {
            let steps: Vec<bool> = successors
                .iter()
                .map(|list| list.iter().any(|&t| old[t] == class))
                .collect();
            self.split(Node::new(5, node, 0), &steps);
        }
    }
}

/// The nodes that the node at a place reaches, in their order, with new numbers.
fn reached(nodes: &[Node], root: usize) -> Vec<Node> {
    let mut number: BTreeMap<usize, usize> = [(root, 0)].into();
    for place in (0..=root).rev() {
        if number.contains_key(&place) {
            number.extend(nodes[place].parts().into_iter().map(|part| (part, 0)));
        }
    }
    for (new, old) in number.values_mut().enumerate() {
        *old = new;
    }
    let renumbered = |&place: &usize| {
        let Node { code, a, b } = nodes[place];
        match nodes[place].parts()[..] {
            [] => Node { code, a, b },
            [a] => Node::new(code, number[&a], 0),
            [a, b, ..] => Node::new(code, number[&a], number[&b]),
        }
    };
    number.keys().map(renumbered).collect()
}

/// A formula that separates two models, for which there is one.
fn formula(first: &Model, second: &Model) -> Vec<Node> {
    let shift = first.states.len();
    let initials = [first.initial, shift + second.initial];
    let states: Vec<_> = first.states.iter().chain(&second.states).collect();
    let successors: Vec<Vec<usize>> = states
        .iter()
        .enumerate()
        .map(|(number, state)| {
            let before = if number < shift { 0 } else { shift };
            state.successors.iter().map(|t| before + t).collect()
        })
        .collect();
    let mut splits = Splits {
        classes: vec![0; states.len()],
        node_of: [(0, 0)].into(),
        nodes: vec![Node::new(0, 0, 0)],
    };
    for question in 0..first.questions() {
        let yes: Vec<bool> = states.iter().map(|s| s.answers[question]).collect();
        splits.split(Node::new(1, question, 0), &yes);
    }
    while splits.classes[initials[0]] == splits.classes[initials[1]] {
        splits.round(&successors);
    }
    reached(&splits.nodes, splits.node_of[&splits.classes[initials[0]]])
}

/// The two models of a job that compares.
fn models(job: &Job) -> Option<(Model, Model)> {
    if job.tag == b'J' {
        return crate::pair::models(&job.payload).ok();
    }
    let mut payload = Payload::new(&job.payload);
    let first = payload.model()?.load(false).ok()?;
    let second = payload.model()?.load(true).ok()?;
    Some((first, second))
}

/// The answer to a job, line by line.
pub fn answer(job: &Job) -> Vec<String> {
    let own = judge(job, &[]).own;
    if !matches!(job.tag, b'C' | b'J') {
        return own;
    }
    let mut lines = Vec::new();
    let mut made = None;
    for line in own {
        // The own answer has in brackets which formula is wanted.
        match line.split_once('(') {
            None => lines.push(line),
            Some((head, _)) => {
                let nodes = made.get_or_insert_with(|| {
                    let (first, second) = models(job).expect("the models are lawful");
                    formula(&first, &second)
                });
                lines.push(format!("{head}{}", nodes.len()));
                lines.extend(node_lines(nodes, job.tag == b'J'));
            }
        }
    }
    lines
}

fn node_lines(nodes: &[Node], numbered: bool) -> impl Iterator<Item = String> + '_ {
    nodes.iter().enumerate().map(move |(number, node)| {
        if numbered {
            format!("{number} {node}")
        } else {
            node.to_string()
        }
    })
}
