//! Two models compared by partition refinement, with a formula where they differ.

use crate::model::{Model, State};
use crate::node::{Node, Operator};
use std::collections::HashMap;
use std::hash::Hash;

pub enum Outcome {
    Alike { rounds: usize },
    Different { rounds: usize, nodes: Vec<Node> },
}

/// The class of each state, and how many classes there are.
struct Classes {
    of: Vec<u16>,
    count: usize,
}

/// States with equal keys are one class.
fn classes<K: Hash + Eq>(keys: impl Iterator<Item = K>) -> Classes {
    let mut numbers = HashMap::new();
    let mut of = Vec::new();
    for key in keys {
        let new = numbers.len() as u16;
        of.push(*numbers.entry(key).or_insert(new));
    }
    let count = numbers.len();
    Classes { of, count }
}

/// One round: states stay together when they were and their successors lie in the same classes.
fn refined(states: &[State], before: &Classes) -> Classes {
    classes(states.iter().zip(&before.of).map(|(state, own)| {
        let mut next: Vec<u16> = state.next.iter().map(|t| before.of[*t as usize]).collect();
        next.sort_unstable();
        next.dedup();
        (*own, next)
    }))
}

/// The states of both models, those of the second numbered on after those of the first.
fn joined(first: Model, second: Model) -> Vec<State> {
    let n = first.states.len() as u16;
    let mut states = first.states;
    for state in second.states {
        let next = state.next.iter().map(|t| t + n).collect();
        states.push(State { next, ..state });
    }
    states
}

pub fn compare(first: Model, second: Model) -> Outcome {
    let one = first.initial;
    let other = first.states.len() + second.initial;
    let states = joined(first, second);
    let mut history = vec![classes(states.iter().map(|state| state.label))];
    loop {
        let rounds = history.len() - 1;
        let last = &history[rounds];
        if last.of[one] != last.of[other] {
            let nodes = separating(&states, &history, one, other);
            return Outcome::Different { rounds, nodes };
        }
        let after = refined(&states, last);
        if after.count == last.count {
            return Outcome::Alike { rounds: rounds + 1 };
        }
        history.push(after);
    }
}

/// The nodes of a formula that holds at one state and fails at the other.
fn separating(states: &[State], history: &[Classes], one: usize, other: usize) -> Vec<Node> {
    let (nodes, known) = (Vec::new(), HashMap::new());
    let mut formulas = Formulas { states, history, nodes, known };
    formulas.tell(one, other);
    formulas.nodes
}

/// Formulas that tell states apart, in one table, and the pairs of states whose formula is known.
struct Formulas<'a> {
    states: &'a [State],
    history: &'a [Classes],
    nodes: Vec<Node>,
    known: HashMap<(usize, usize), usize>,
}

impl Formulas<'_> {
    fn push(&mut self, operator: Operator, a: usize, b: usize) -> usize {
        self.nodes.push(Node::new(operator, a, b));
        self.nodes.len() - 1
    }

    /// The number of a formula that holds at s and fails at t, which some round tells apart.
    fn tell(&mut self, s: usize, t: usize) -> usize {
        if let Some(number) = self.known.get(&(s, t)) {
            return *number;
        }
        let number = match self.history.iter().position(|c| c.of[s] != c.of[t]) {
            Some(0) => self.tell_by_label(s, t),
            Some(round) => self.tell_by_successors(s, t, &self.history[round - 1].of),
            None => unreachable!("the states are alike"),
        };
        self.known.insert((s, t), number);
        number
    }

    fn tell_by_label(&mut self, s: usize, t: usize) -> usize {
        let (one, other) = (self.states[s].label, self.states[t].label);
        let question = (one ^ other).trailing_zeros();
        let node = self.push(Operator::Question, question as usize, 0);
        if one >> question & 1 == 1 {
            return node;
        }
        self.push(Operator::Not, node, 0)
    }

    /// By a successor of s, or else of t, whose class no successor of the other has.
    fn tell_by_successors(&mut self, s: usize, t: usize, class: &[u16]) -> usize {
        let (next, others) = (&self.states[s].next, &self.states[t].next);
        let lacking = |u: u16| others.iter().all(|v| class[*v as usize] != class[u as usize]);
        let Some(u) = next.iter().find(|u| lacking(**u)) else {
            let node = self.tell(t, s);
            return self.push(Operator::Not, node, 0);
        };
        let mut all = self.tell(*u as usize, others[0] as usize);
        for v in &others[1..] {
            let one = self.tell(*u as usize, *v as usize);
            all = self.push(Operator::And, all, one);
        }
        self.push(Operator::EX, all, 0)
    }
}
