//! Every small case: all texts of a few bytes, and all pairs of small models.

use super::graphs::Graph;
use super::images::{of_graph, Palette};
use crate::protocol::{put_two, Job};
use crate::rng::Rng;

const BYTES: &[u8; 18] = b"T!&|()[]UEAXFq01 x";

/// All texts of at most so many bytes, for one question.
pub fn texts(most: u32) -> impl Iterator<Item = Job> {
    (0..=most).flat_map(|length| (0..BYTES.len().pow(length)).map(move |code| text(length, code)))
}

fn text(length: u32, mut code: usize) -> Job {
    let mut payload = Vec::new();
    put_two(&mut payload, 1);
    put_two(&mut payload, 9);
    payload.extend((0..length).map(|_| BYTES[digit(&mut code, BYTES.len())]));
    Job { tag: b'F', payload }
}

/// The lowest digit of a number, which is taken off.
fn digit(code: &mut usize, base: usize) -> usize {
    let digit = *code % base;
    *code /= base;
    digit
}

/// The number of graphs of so many states, with two labels.
fn graphs(states: usize) -> usize {
    let labels = 1 << states;
    let sets = (1 << states) - 1;
    labels * usize::pow(sets, states as u32) * states
}

fn graph(states: usize, mut code: usize) -> Graph {
    let sets = (1 << states) - 1;
    let labels = (0..states).map(|_| digit(&mut code, 2)).collect();
    let successors = (0..states)
        .map(|_| {
            let set = 1 + digit(&mut code, sets);
            (0..states).filter(|state| set >> state & 1 == 1).collect()
        })
        .collect();
    Graph {
        labels,
        successors,
        initial: digit(&mut code, states),
    }
}

/// All pairs of models of at most 2 states and at most 3, in either order.
pub fn pairs() -> impl Iterator<Item = Job> {
    let sizes = (1..=3).flat_map(|p| (1..=3).map(move |q| (p, q)));
    let small = sizes.filter(|&(p, q)| p < 3 || q < 3);
    small.flat_map(|(p, q)| {
        let codes = (0..graphs(p)).flat_map(move |i| (0..graphs(q)).map(move |j| (i, j)));
        codes.map(move |(i, j)| pair(&graph(p, i), &graph(q, j), (i + j) as u64))
    })
}

fn pair(first: &Graph, second: &Graph, seed: u64) -> Job {
    let mut rng = Rng::new(0, seed);
    let palette = Palette::any(&mut rng);
    let payload = [first, second]
        .map(|graph| of_graph(&mut rng, graph, &palette))
        .concat();
    Job { tag: b'J', payload }
}
