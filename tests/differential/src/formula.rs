//! Checks a formula that is said to separate two models.

use crate::evaluate::holds;
use crate::model::Model;
use crate::table::{are_in_order, Node};

/// The greatest number of EX one inside another, node by node.
fn nestings(nodes: &[Node]) -> Vec<usize> {
    let mut nestings: Vec<usize> = Vec::new();
    for node in nodes {
        let inside = node
            .parts()
            .into_iter()
            .map(|part| nestings[part])
            .max()
            .unwrap_or(0);
        nestings.push(inside + usize::from(node.code == 5));
    }
    nestings
}

/// Whether each node is the root or named by a node that is reached.
fn all_reached(nodes: &[Node]) -> bool {
    let mut reached = vec![false; nodes.len()];
    reached[nodes.len() - 1] = true;
    for (number, node) in nodes.iter().enumerate().rev() {
        if reached[number] {
            for part in node.parts() {
                reached[part] = true;
            }
        }
    }
    reached.into_iter().all(|x| x)
}

fn root_holds(model: &Model, nodes: &[Node]) -> bool {
    holds(model, nodes)
        .last()
        .is_some_and(|set| set[model.initial])
}

/// What is wrong with a table as the formula of two models that are different
/// after so many rounds.
pub fn objection(first: &Model, second: &Model, rounds: usize, nodes: &[Node]) -> Option<String> {
    let most = 4 * (first.states.len() + second.states.len()) - 3;
    if nodes.is_empty() || nodes.len() > most {
        return Some(format!("{} nodes, and 1 to {most} are wanted", nodes.len()));
    }
    if !are_in_order(nodes, first.questions()) {
        return Some("the table is not in order".into());
    }
    if !nodes
        .iter()
        .all(|node| matches!(node.code, 0 | 1 | 2 | 3 | 5))
    {
        return Some("the formula is not next-only".into());
    }
    if !all_reached(nodes) {
        return Some("a node is no part of the root".into());
    }
    let nesting = nestings(nodes)[nodes.len() - 1];
    if nesting != rounds {
        return Some(format!("nesting {nesting}, and {rounds} is wanted"));
    }
    if !root_holds(first, nodes) {
        return Some("it fails at the first model".into());
    }
    if root_holds(second, nodes) {
        return Some("it holds at the second model".into());
    }
    None
}
