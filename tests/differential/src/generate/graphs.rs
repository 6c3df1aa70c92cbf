//! Labelled graphs, from which images are made, and pairs of them.

use crate::rng::Rng;

const MOST_STATES: usize = 256;
const MOST_SUCCESSORS: usize = 16;

/// States have labels by number; each image says what the numbers mean.
#[derive(Clone, Debug)]
pub struct Graph {
    pub labels: Vec<usize>,
    pub successors: Vec<Vec<usize>>,
    pub initial: usize,
}

impl Graph {
    pub fn len(&self) -> usize {
        self.labels.len()
    }

    /// A graph of so many states that all have label 0 and one successor.
    fn functional(successors: Vec<usize>) -> Graph {
        Graph {
            labels: vec![0; successors.len()],
            successors: successors.into_iter().map(|t| vec![t]).collect(),
            initial: 0,
        }
    }
}

/// Mostly a small number of states, seldom a large one.
fn size(rng: &mut Rng) -> usize {
    match rng.below(100) {
        0..=69 => rng.between(1, 10),
        70..=90 => rng.between(5, 40),
        91..=94 => rng.between(40, 120),
        // Beside the borders of a row's words.
        95 | 96 => rng.pick(&[63, 64, 65, 127, 128, 129, 191, 192, 193, 255]),
        97 => 256,
        _ => rng.between(200, 256),
    }
}

pub fn random(rng: &mut Rng) -> Graph {
    let states = size(rng);
    random_of(rng, states)
}

pub fn random_of(rng: &mut Rng, states: usize) -> Graph {
    let labels = rng.pick(&[1, 2, 2, 2, 3, 4, 8]);
    // Few states with a label of their own make for many rounds.
    let rare = rng.chance(50);
    let most = if rng.chance(10) {
        MOST_SUCCESSORS
    } else {
        rng.pick(&[1, 1, 2, 2, 3, 4])
    };
    let label = |rng: &mut Rng| {
        if rare && rng.chance(85) {
            0
        } else {
            rng.below(labels)
        }
    };
    Graph {
        labels: (0..states).map(|_| label(rng)).collect(),
        successors: (0..states)
            .map(|_| {
                let count = rng.between(1, most);
                (0..count).map(|_| rng.below(states)).collect()
            })
            .collect(),
        initial: rng.below(states),
    }
}

/// As many states and links as there may be.
pub fn largest(rng: &mut Rng) -> Graph {
    let mut graph = random_of(rng, MOST_STATES);
    let full = rng.between(MOST_SUCCESSORS - 1, MOST_SUCCESSORS);
    for successors in &mut graph.successors {
        *successors = (0..full).map(|_| rng.below(MOST_STATES)).collect();
    }
    graph
}

/// Each state leads onward, and perhaps back to the beginning.
pub fn panel(rng: &mut Rng) -> Graph {
    let states = size(rng);
    let mut graph = Graph::functional((0..states).map(|s| (s + 1).min(states - 1)).collect());
    graph.labels[states - 1] = 1;
    if rng.chance(70) {
        for successors in &mut graph.successors {
            successors.push(0);
        }
    }
    graph
}

fn ring(states: usize) -> Graph {
    Graph::functional((0..states).map(|s| (s + 1) % states).collect())
}

/// The same with its states numbered in another order.
pub fn renumbered(rng: &mut Rng, graph: &Graph) -> Graph {
    let mut number: Vec<usize> = (0..graph.len()).collect();
    rng.shuffle(&mut number);
    let mut copy = graph.clone();
    for state in 0..graph.len() {
        copy.labels[number[state]] = graph.labels[state];
        copy.successors[number[state]] =
            graph.successors[state].iter().map(|&t| number[t]).collect();
        if rng.chance(50) {
            rng.shuffle(&mut copy.successors[number[state]]);
        }
    }
    copy.initial = number[graph.initial];
    copy
}

/// An alike graph: each state stands several times, and a step leads to any
/// copy of its target.
pub fn unfolded(rng: &mut Rng, graph: &Graph) -> Graph {
    let most = (MOST_STATES / graph.len()).clamp(1, 4);
    let mut origins = Vec::new();
    let mut copies: Vec<Vec<usize>> = Vec::new();
    for state in 0..graph.len() {
        let count = rng.between(1, most);
        copies.push((origins.len()..origins.len() + count).collect());
        origins.extend(std::iter::repeat_n(state, count));
    }
    let mut unfolded = Graph {
        labels: Vec::new(),
        successors: Vec::new(),
        initial: 0,
    };
    for &origin in &origins {
        let targets = &graph.successors[origin];
        let mut successors: Vec<usize> = targets.iter().map(|&t| rng.pick(&copies[t])).collect();
        while successors.len() < MOST_SUCCESSORS && rng.chance(25) {
            let again = rng.pick(targets);
            successors.push(rng.pick(&copies[again]));
        }
        unfolded.labels.push(graph.labels[origin]);
        unfolded.successors.push(successors);
    }
    unfolded.initial = rng.pick(&copies[graph.initial]);
    unfolded
}

/// A copy with one label, step or initial state changed.
pub fn changed(rng: &mut Rng, graph: &Graph) -> Graph {
    let mut copy = graph.clone();
    let state = rng.below(graph.len());
    match rng.below(6) {
        0 | 1 => copy.labels[state] = rng.below(3),
        2 | 3 => {
            let step = rng.below(copy.successors[state].len());
            copy.successors[state][step] = rng.below(graph.len());
        }
        4 if copy.successors[state].len() < MOST_SUCCESSORS => {
            copy.successors[state].push(rng.below(graph.len()));
        }
        _ => copy.initial = rng.below(graph.len()),
    }
    copy
}

/// The graph behind a chain that leads to its initial state.
fn behind(graph: &Graph, length: usize) -> Graph {
    let mut longer = graph.clone();
    let old = graph.len();
    for i in 0..length {
        longer.labels.push(0);
        longer.successors.push(vec![if i + 1 < length {
            old + i + 1
        } else {
            graph.initial
        }]);
    }
    if length > 0 {
        longer.initial = old;
    }
    longer
}

/// Two rings of p and q states that show the same for as long as two rings
/// can that do not show the same forever.
fn rings(p: usize, q: usize) -> (Graph, Graph) {
    let length = p + q - divisor(p, q) - 1;
    let mut word: Vec<usize> = (0..length.max(p).max(q)).collect();
    // Places p or q apart have one letter, within the common part.
    let mut settled = false;
    while !settled {
        settled = true;
        for (step, i) in [p, q]
            .into_iter()
            .flat_map(|step| (step..length).map(move |i| (step, i)))
        {
            let least = word[i].min(word[i - step]);
            settled &= word[i] == least && word[i - step] == least;
            word[i] = least;
            word[i - step] = least;
        }
    }
    let labelled = |states: usize| {
        let mut ring = ring(states);
        ring.labels = word[..states]
            .iter()
            .map(|&letter| usize::from(letter != 0))
            .collect();
        ring
    };
    (labelled(p), labelled(q))
}

fn divisor(a: usize, b: usize) -> usize {
    if b == 0 {
        a
    } else {
        divisor(b, a % b)
    }
}

fn any_rings(rng: &mut Rng) -> (Graph, Graph) {
    match rng.below(40) {
        0 => rings(256, 255),
        1..=3 => rings(rng.between(40, 120), rng.between(40, 120)),
        _ => rings(rng.between(1, 20), rng.between(1, 20)),
    }
}

/// Two graphs to be compared: alike by their making, different only deep, or
/// at random.
pub fn pair(rng: &mut Rng) -> (Graph, Graph) {
    let (first, second) = match rng.below(20) {
        0..=2 => (random(rng), random(rng)),
        3..=5 => {
            let graph = random(rng);
            let copy = renumbered(rng, &graph);
            (graph, copy)
        }
        6..=8 => {
            let graph = if rng.chance(30) {
                panel(rng)
            } else {
                random(rng)
            };
            let copy = unfolded(rng, &graph);
            (graph, copy)
        }
        9..=11 => {
            let graph = random(rng);
            let copy = changed(rng, &graph);
            (graph, renumbered(rng, &copy))
        }
        12..=14 => {
            let graph = panel(rng);
            let copy = changed(rng, &graph);
            (graph, copy)
        }
        15 | 16 => any_rings(rng),
        17 => {
            let (first, second) = (random(rng), random(rng));
            let room = MOST_STATES - first.len().max(second.len());
            let length = if rng.chance(20) {
                rng.below(room + 1)
            } else {
                rng.below(room.min(12) + 1)
            };
            (behind(&first, length), behind(&second, length))
        }
        18 => {
            let graph = random(rng);
            let copy = unfolded(rng, &graph);
            let copy = changed(rng, &copy);
            (graph, copy)
        }
        _ if rng.chance(15) => {
            let graph = largest(rng);
            let copy = if rng.chance(50) {
                renumbered(rng, &graph)
            } else {
                changed(rng, &graph)
            };
            (graph, copy)
        }
        _ => {
            let states = rng.between(1, 5);
            (random_of(rng, states), random_of(rng, states))
        }
    };
    if rng.chance(50) {
        (first, second)
    } else {
        (second, first)
    }
}
