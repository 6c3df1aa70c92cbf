//! Images of graphs, with their links laid out in many ways, and damages.

use super::graphs::{self, Graph};
use crate::model::Kind;
use crate::rng::Rng;
use std::collections::HashMap;

/// What the label numbers of a graph are in an image.
pub enum Palette {
    Words(Vec<u32>),
    Readings,
}

impl Palette {
    fn words(rng: &mut Rng) -> Palette {
        let words = match rng.below(4) {
            0 => (0..8).collect(),
            1 => (0..8).map(|i| 1 << (31 - i)).collect(),
            // Words that differ in one bit from the first.
            2 => {
                let first = rng.next() as u32;
                (0..8)
                    .map(|i| {
                        if i == 0 {
                            first
                        } else {
                            first ^ 1 << (4 * i - 1)
                        }
                    })
                    .collect()
            }
            _ => (0..8).map(|_| rng.next() as u32).collect(),
        };
        Palette::Words(words)
    }

    pub fn any(rng: &mut Rng) -> Palette {
        if rng.chance(50) {
            Palette::words(rng)
        } else {
            Palette::Readings
        }
    }

    pub fn kind(&self) -> Kind {
        match self {
            Palette::Words(_) => Kind::Words,
            Palette::Readings => Kind::Readings,
        }
    }

    fn label(&self, rng: &mut Rng, number: usize) -> [u8; 4] {
        match self {
            Palette::Words(words) => words[number % words.len()].to_le_bytes(),
            Palette::Readings => reading(rng, number % 4),
        }
    }
}

/// A reading: quiet, at the fault limit or below, from the pre-alarm limit on,
/// or from the alarm limit on.
fn reading(rng: &mut Rng, band: usize) -> [u8; 4] {
    let mut limits = [0; 3];
    // Quiet needs a level between the first two limits.
    while limits[0] + 1 >= limits[1] || limits[1] >= limits[2] {
        limits = [rng.below(256), rng.below(256), rng.below(256)];
        if rng.chance(30) {
            limits = rng.pick(&[[0, 2, 3], [0, 254, 255], [252, 254, 255], [0, 2, 255]]);
        }
        limits.sort_unstable();
    }
    let [fault, pre_alarm, alarm] = limits;
    let (least, most) = match band {
        0 => (fault + 1, pre_alarm - 1),
        1 => (0, fault),
        2 => (pre_alarm, alarm - 1),
        _ => (alarm, 255),
    };
    let level = match rng.below(3) {
        0 => least,
        1 => most,
        _ => rng.between(least, most),
    };
    [level as u8, fault as u8, pre_alarm as u8, alarm as u8]
}

/// The links of an image, from number 1 on, as targets and next links; and
/// the first link of each state.
struct Links {
    records: Vec<(usize, usize)>,
    first: Vec<usize>,
}

impl Links {
    /// A chain of its own for each state, one after the other.
    fn apart(graph: &Graph) -> Links {
        let mut links = Links {
            records: Vec::new(),
            first: Vec::new(),
        };
        for successors in &graph.successors {
            links.first.push(links.records.len() + 1);
            for (i, &target) in successors.iter().enumerate() {
                let last = i + 1 == successors.len();
                let next = if last { 0 } else { links.records.len() + 2 };
                links.records.push((target, next));
            }
        }
        links
    }

    /// Chains with the same end share it.
    fn shared(graph: &Graph) -> Links {
        let mut links = Links {
            records: Vec::new(),
            first: Vec::new(),
        };
        let mut known = HashMap::new();
        for successors in &graph.successors {
            let mut next = 0;
            for &target in successors.iter().rev() {
                next = *known.entry((target, next)).or_insert_with(|| {
                    links.records.push((target, next));
                    links.records.len()
                });
            }
            links.first.push(next);
        }
        links
    }

    /// Gives the links other numbers.
    fn shuffle(&mut self, rng: &mut Rng) {
        let mut number: Vec<usize> = (0..=self.records.len()).collect();
        rng.shuffle(&mut number[1..]);
        let mut records = self.records.clone();
        for (i, &(target, next)) in self.records.iter().enumerate() {
            records[number[i + 1] - 1] = (target, number[next]);
        }
        self.records = records;
        for first in &mut self.first {
            *first = number[*first];
        }
    }

    /// Adds links that no state uses; their chains may go round.
    fn add_unused(&mut self, rng: &mut Rng, states: usize, count: usize) {
        let links = self.records.len() + count;
        for _ in 0..count {
            self.records.push((rng.below(states), rng.below(links + 1)));
        }
    }

    fn of(rng: &mut Rng, graph: &Graph) -> Links {
        let mut links = if rng.chance(50) {
            Links::apart(graph)
        } else {
            Links::shared(graph)
        };
        if rng.chance(25) {
            let room = 4096_usize.saturating_sub(links.records.len());
            let count = if rng.chance(4) {
                room
            } else {
                rng.below(room.min(6) + 1)
            };
            links.add_unused(rng, graph.len(), count);
        }
        if rng.chance(50) {
            links.shuffle(rng);
        }
        links
    }

    /// Links at random; the chains of many states are then too long or end in
    /// one another.
    fn pool(rng: &mut Rng, states: usize) -> Links {
        let count = rng.between(1, 3 * states + 2);
        let round = rng.chance(30);
        let record = |rng: &mut Rng, link: usize| {
            let next = match rng.below(10) {
                0..=2 => 0,
                3..=7 => (link + 1) % (count + 1),
                _ if round => rng.below(count + 1),
                _ => rng.between(link, count + 1) % (count + 1),
            };
            (
                rng.below(states),
                if next == link && !round { 0 } else { next },
            )
        };
        let records = (1..=count).map(|link| record(rng, link)).collect();
        let first = (0..states).map(|_| rng.between(1, count)).collect();
        Links { records, first }
    }
}

fn put_two(bytes: &mut Vec<u8>, number: usize) {
    bytes.extend((number as u16).to_le_bytes());
}

fn encode(rng: &mut Rng, graph: &Graph, links: &Links, palette: &Palette) -> Vec<u8> {
    let mut bytes = vec![palette.kind().byte(), 0];
    put_two(&mut bytes, graph.len());
    put_two(&mut bytes, links.records.len());
    put_two(&mut bytes, graph.initial);
    for (state, &label) in graph.labels.iter().enumerate() {
        bytes.extend(palette.label(rng, label));
        put_two(&mut bytes, links.first[state]);
        put_two(&mut bytes, 0);
    }
    for &(target, next) in &links.records {
        put_two(&mut bytes, target);
        put_two(&mut bytes, next);
    }
    bytes
}

pub fn of_graph(rng: &mut Rng, graph: &Graph, palette: &Palette) -> Vec<u8> {
    let links = Links::of(rng, graph);
    encode(rng, graph, &links, palette)
}

/// Makes an input shorter or longer.
pub fn change_length(rng: &mut Rng, bytes: &mut Vec<u8>) {
    let length = match rng.below(6) {
        0 => rng.below(bytes.len() + 1),
        1 => rng.below(bytes.len().min(12) + 1),
        2 => bytes.len() + rng.between(1, 9),
        3 => bytes.len() + 1,
        4 => bytes.len().saturating_sub(1),
        _ => bytes.len().saturating_sub(rng.between(1, 9)),
    };
    bytes.resize(length, rng.pick(&[0, 1, 255]));
}

fn set(bytes: &mut [u8], at: usize, number: usize) {
    for (i, byte) in (number as u16).to_le_bytes().into_iter().enumerate() {
        if let Some(place) = bytes.get_mut(at + i) {
            *place = byte;
        }
    }
}

/// Damages one field of an image of so many states and links.
fn damage(rng: &mut Rng, bytes: &mut Vec<u8>, states: usize, links: usize) {
    let state = 8 + 8 * if rng.chance(40) {
        states - 1
    } else {
        rng.below(states)
    };
    let link = if rng.chance(40) {
        links
    } else {
        rng.between(1, links)
    };
    let record = 8 + 8 * states + 4 * (link - 1);
    match rng.below(15) {
        0 => set(bytes, 0, rng.pick(&[0, 1, 2, 3, 255])),
        1 => bytes[1] = rng.pick(&[1, 128, 255]),
        2 => set(
            bytes,
            2,
            rng.pick(&[0, 1, states - 1, states + 1, 255, 256, 257, 512, 65535]),
        ),
        3 => set(
            bytes,
            4,
            rng.pick(&[0, 1, links - 1, links + 1, 4096, 4097, 65535]),
        ),
        4 => set(
            bytes,
            6,
            rng.pick(&[states - 1, states, states + 1, 255, 256, 65535]),
        ),
        5 | 6 => change_length(rng, bytes),
        7 | 8 => {
            // Of the label of a reading two limits, the first not below the second.
            let at = state + rng.between(1, 2);
            match rng.below(4) {
                0 => bytes[at] = bytes[at + 1],
                1 => bytes[at + 1] = bytes[at],
                2 => bytes.swap(at, at + 1),
                _ => bytes[at] = rng.pick(&[254, 255]),
            }
        }
        9 => set(bytes, state + 4, rng.pick(&[0, 1, links, links + 1, 65535])),
        10 => set(bytes, state + 6, rng.pick(&[1, 256, 65535])),
        11 => set(bytes, record, rng.pick(&[states - 1, states, 256, 65535])),
        12 => set(
            bytes,
            record + 2,
            rng.pick(&[links, links + 1, 0, link, link - 1, 65535]),
        ),
        _ => {
            let at = rng.below(bytes.len());
            bytes[at] = if rng.chance(50) {
                rng.byte()
            } else {
                bytes[at] ^ (1 << rng.below(8))
            };
        }
    }
}

/// Damages an image in so many of a hundred cases, by one field or a few.
fn damage_some(rng: &mut Rng, bytes: &mut Vec<u8>, percent: usize) {
    if !rng.chance(percent) {
        return;
    }
    let field = |at: usize| usize::from(u16::from_le_bytes([bytes[at], bytes[at + 1]]));
    let (states, links) = (field(2), field(4));
    let whole = 8 + 8 * states + 4 * links;
    for _ in 0..rng.pick(&[1, 1, 1, 2, 3]) {
        if bytes.len() < whole || states == 0 || links == 0 {
            return;
        }
        damage(rng, bytes, states, links);
    }
}

/// A graph with one state of a chain at the longest, or one link more.
fn long_chain(rng: &mut Rng) -> Graph {
    let states = rng.between(1, 6);
    let mut graph = graphs::random_of(rng, states);
    let length = rng.between(15, 18);
    graph.successors[rng.below(states)] = (0..length).map(|_| rng.below(states)).collect();
    graph
}

/// An image that is right but for too many or no states or links.
fn beyond(rng: &mut Rng, palette: &Palette) -> Vec<u8> {
    let states = rng.pick(&[0, 1, 2, 256, 257, 300]);
    let links = rng.pick(&[0, 1, 4096, 4097, 5000]);
    let graph = Graph {
        labels: vec![0; states],
        successors: vec![vec![0]; states],
        initial: rng.pick(&[0, states / 2, states]),
    };
    let records = (0..links).map(|_| (rng.below(states.max(1)), 0)).collect();
    let first = (0..states).map(|_| rng.between(1, links.max(1))).collect();
    encode(rng, &graph, &Links { records, first }, palette)
}

/// An image with its kind byte as it should be, and damaged in so many of a
/// hundred cases; and the kind of its holder.
pub fn image(rng: &mut Rng, damaged: usize) -> (u8, Vec<u8>) {
    let palette = Palette::any(rng);
    let mut bytes = match rng.below(40) {
        0 if damaged > 10 => beyond(rng, &palette),
        1 if damaged > 10 => {
            let length = rng.below(60);
            (0..length).map(|_| rng.byte() % 3).collect()
        }
        2 => {
            let graph = graphs::largest(rng);
            of_graph(rng, &graph, &palette)
        }
        3..=5 => {
            let graph = graphs::panel(rng);
            let graph = if rng.chance(50) {
                graphs::renumbered(rng, &graph)
            } else {
                graph
            };
            of_graph(rng, &graph, &palette)
        }
        6..=8 if damaged > 10 => {
            let graph = long_chain(rng);
            of_graph(rng, &graph, &palette)
        }
        9..=13 if damaged > 10 => {
            let graph = graphs::random(rng);
            let links = Links::pool(rng, graph.len());
            encode(rng, &graph, &links, &palette)
        }
        _ => {
            let graph = graphs::random(rng);
            of_graph(rng, &graph, &palette)
        }
    };
    if bytes.len() >= 8 {
        damage_some(rng, &mut bytes, damaged);
    }
    (palette.kind().byte(), bytes)
}

/// A lawful image of few states.
pub fn small(rng: &mut Rng) -> (u8, Vec<u8>) {
    let palette = Palette::any(rng);
    let states = rng.between(1, 12);
    let graph = graphs::random_of(rng, states);
    (palette.kind().byte(), of_graph(rng, &graph, &palette))
}

/// Two images for a pair job.
pub fn pair(rng: &mut Rng) -> (Vec<u8>, Vec<u8>) {
    let palette = Palette::any(rng);
    let (first, second) = graphs::pair(rng);
    let mut first = of_graph(rng, &first, &palette);
    let other = if rng.chance(4) {
        Palette::any(rng)
    } else {
        palette
    };
    let mut second = of_graph(rng, &second, &other);
    damage_some(rng, &mut first, 12);
    damage_some(rng, &mut second, 12);
    (first, second)
}
