//! Where the formulas of a node table hold, by fixed points over sets of
//! states.

use crate::model::Model;
use crate::refusal::{refuse_first, Breach, Refusal, EVALUATION};
use crate::table::{Node, MOST_NODES};

type Set = Vec<bool>;

fn not(set: &Set) -> Set {
    set.iter().map(|x| !x).collect()
}

fn and(left: &Set, right: &Set) -> Set {
    left.iter().zip(right).map(|(x, y)| *x && *y).collect()
}

fn or(left: &Set, right: &Set) -> Set {
    left.iter().zip(right).map(|(x, y)| *x || *y).collect()
}

/// The states with some successor in a set.
fn some_next(model: &Model, set: &Set) -> Set {
    model
        .states
        .iter()
        .map(|s| s.successors.iter().any(|&t| set[t]))
        .collect()
}

/// The states with each successor in a set.
fn each_next(model: &Model, set: &Set) -> Set {
    model
        .states
        .iter()
        .map(|s| s.successors.iter().all(|&t| set[t]))
        .collect()
}

type Next = fn(&Model, &Set) -> Set;

/// What a monotone step comes to rest at, from `start`.
fn rest(start: Set, step: impl Fn(&Set) -> Set) -> Set {
    let mut set = start;
    loop {
        let following = step(&set);
        if following == set {
            return set;
        }
        set = following;
    }
}

/// The least set X with X = g or (f and next X).
fn until(model: &Model, next: Next, f: &Set, g: &Set) -> Set {
    let nothing = vec![false; model.states.len()];
    rest(nothing, |set| or(g, &and(f, &next(model, set))))
}

/// The greatest set X with X = f and next X.
fn always(model: &Model, next: Next, f: &Set) -> Set {
    let everything = vec![true; model.states.len()];
    rest(everything, |set| and(f, &next(model, set)))
}

fn at_node(model: &Model, node: &Node, before: &[Set]) -> Set {
    let everything: Set = vec![true; model.states.len()];
    let a = usize::from(node.a);
    let b = usize::from(node.b);
    match node.code {
        0 => everything,
        1 => model.states.iter().map(|s| s.answers[a]).collect(),
        2 => not(&before[a]),
        3 => and(&before[a], &before[b]),
        4 => or(&before[a], &before[b]),
        5 => some_next(model, &before[a]),
        6 => each_next(model, &before[a]),
        7 => until(model, some_next, &everything, &before[a]),
        8 => until(model, each_next, &everything, &before[a]),
        9 => always(model, some_next, &before[a]),
        10 => always(model, each_next, &before[a]),
        11 => until(model, some_next, &before[a], &before[b]),
        12 => until(model, each_next, &before[a], &before[b]),
        code => unreachable!("code {code} of a table in order"),
    }
}

/// For each node of a table in order, the states at which it holds.
pub fn holds(model: &Model, nodes: &[Node]) -> Vec<Set> {
    let mut sets = Vec::new();
    for node in nodes {
        let set = at_node(model, node, &sets);
        sets.push(set);
    }
    sets
}

fn breaches(nodes: &[Node], questions: usize, words: usize) -> Vec<Breach> {
    let mut breaches = Vec::new();
    if nodes.is_empty() || nodes.len() > MOST_NODES {
        breaches.push((14, 0));
    }
    for (i, node) in nodes.iter().enumerate() {
        if !node.is_in_order(i, questions) {
            breaches.push((15, i));
        }
    }
    if words < 4 * nodes.len() {
        breaches.push((16, words));
    }
    breaches
}

fn write_row(row: &mut [u64], set: &Set) {
    row.fill(0);
    for (state, holds) in set.iter().enumerate() {
        if *holds {
            row[state / 64] |= 1 << (state % 64);
        }
    }
}

pub struct Holding {
    pub at_initial: bool,
    pub count: usize,
}

/// Writes the rows of a table and tells where its root holds.
pub fn evaluate(model: &Model, nodes: &[Node], words: &mut [u64]) -> Result<Holding, Refusal> {
    refuse_first(breaches(nodes, model.questions(), words.len()), EVALUATION)?;
    let sets = holds(model, nodes);
    for (i, set) in sets.iter().enumerate() {
        write_row(&mut words[4 * i..4 * i + 4], set);
    }
    let root = sets.last().expect("a table has a node");
    Ok(Holding {
        at_initial: root[model.initial],
        count: root.iter().filter(|x| **x).count(),
    })
}
