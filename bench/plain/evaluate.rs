//! At which states of a model the formula of each node of a table holds.

use crate::model::Model;
use crate::node::{Node, Operator};

/// Of each state, whether it is marked.
pub type Row = Vec<bool>;

/// The rows of all nodes of a table that is in order.
pub fn evaluate(model: &Model, nodes: &[Node]) -> Vec<Row> {
    let mut rows = Vec::with_capacity(nodes.len());
    for node in nodes {
        let row = row(model, *node, &rows);
        rows.push(row);
    }
    rows
}

fn row(model: &Model, node: Node, rows: &[Row]) -> Row {
    let n = model.states.len();
    let Node { operator, a, b } = node;
    match operator {
        Operator::True => vec![true; n],
        Operator::Question => model.states.iter().map(|s| s.label >> a & 1 == 1).collect(),
        Operator::Not => rows[a].iter().map(|x| !x).collect(),
        Operator::And => rows[a].iter().zip(&rows[b]).map(|(x, y)| *x && *y).collect(),
        Operator::Or => rows[a].iter().zip(&rows[b]).map(|(x, y)| *x || *y).collect(),
        Operator::EX => (0..n).map(|s| some_next(model, s, &rows[a])).collect(),
        Operator::AX => (0..n).map(|s| each_next(model, s, &rows[a])).collect(),
        Operator::EF => least(model, &vec![true; n], &rows[a], some_next),
        Operator::AF => least(model, &vec![true; n], &rows[a], each_next),
        Operator::EG => greatest(model, &rows[a], some_next),
        Operator::AG => greatest(model, &rows[a], each_next),
        Operator::EU => least(model, &rows[a], &rows[b], some_next),
        Operator::AU => least(model, &rows[a], &rows[b], each_next),
    }
}

fn some_next(model: &Model, s: usize, row: &[bool]) -> bool {
    model.states[s].next.iter().any(|t| row[*t as usize])
}

fn each_next(model: &Model, s: usize, row: &[bool]) -> bool {
    model.states[s].next.iter().all(|t| row[*t as usize])
}

/// From the states of g on, marks states of f that step to marked states, until a sweep marks none.
fn least<F>(model: &Model, f: &[bool], g: &[bool], steps: F) -> Row
where
    F: Fn(&Model, usize, &[bool]) -> bool,
{
    let mut row = g.to_vec();
    let mut changed = true;
    while changed {
        changed = false;
        for s in (0..row.len()).rev() {
            if !row[s] && f[s] && steps(model, s, &row) {
                row[s] = true;
                changed = true;
            }
        }
    }
    row
}

/// From the states of f on, drops states that do not step to marked states, until a sweep drops none.
fn greatest<F>(model: &Model, f: &[bool], steps: F) -> Row
where
    F: Fn(&Model, usize, &[bool]) -> bool,
{
    let mut row = f.to_vec();
    let mut changed = true;
    while changed {
        changed = false;
        for s in (0..row.len()).rev() {
            if row[s] && !steps(model, s, &row) {
                row[s] = false;
                changed = true;
            }
        }
    }
    row
}
