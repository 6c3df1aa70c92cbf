//! Models, and how a stored image is checked and read.

use std::fmt;

pub const SIGNAL_WORDS: u8 = 1;
pub const READINGS: u8 = 2;

const HEADER: usize = 8;
const STATE_RECORD: usize = 8;
const LINK_RECORD: usize = 4;

const MOST_STATES: usize = 256;
const MOST_LINKS: usize = 4096;
const MOST_SUCCESSORS: usize = 16;

/// A state: its answers, question i as bit i, and its successors.
pub struct State {
    pub label: u32,
    pub next: Vec<u16>,
}

pub struct Model {
    pub initial: usize,
    pub states: Vec<State>,
}

/// Why an image is refused: the number of the cause, the layer, and the place.
#[derive(Debug)]
pub struct Refusal {
    pub number: u8,
    pub layer: u8,
    pub place: usize,
}

impl fmt::Display for Refusal {
    fn fmt(&self, f: &mut fmt::Formatter) -> fmt::Result {
        writeln!(f, "refused {} {} {}", self.number, self.layer, self.place)
    }
}

/// The number of two bytes at an offset, low byte first.
fn number(image: &[u8], at: usize) -> usize {
    u16::from_le_bytes([image[at], image[at + 1]]) as usize
}

/// The first header field that is outside its limits.
fn bad_field(image: &[u8], kind: u8) -> Option<usize> {
    let states = number(image, 2);
    if image[0] != kind {
        Some(0)
    } else if image[1] != 0 {
        Some(1)
    } else if !(1..=MOST_STATES).contains(&states) {
        Some(2)
    } else if !(1..=MOST_LINKS).contains(&number(image, 4)) {
        Some(4)
    } else if number(image, 6) >= states {
        Some(6)
    } else {
        None
    }
}

/// The answers that four label bytes code, if they code a label.
fn label(kind: u8, bytes: [u8; 4]) -> Option<u32> {
    if kind == SIGNAL_WORDS {
        return Some(u32::from_le_bytes(bytes));
    }
    let [level, fault, pre_alarm, alarm] = bytes;
    if fault >= pre_alarm || pre_alarm >= alarm {
        return None;
    }
    let answers = [level <= fault, level >= pre_alarm, level >= alarm];
    Some((0..3).map(|i| u32::from(answers[i]) << i).sum())
}

/// The targets of the chain that begins with a link; none if it has too many links.
fn chain(links: &[(u16, usize)], first: usize) -> Option<Vec<u16>> {
    let mut next = Vec::new();
    let mut link = first;
    while link != 0 {
        if next.len() == MOST_SUCCESSORS {
            return None;
        }
        let (target, after) = links[link - 1];
        next.push(target);
        link = after;
    }
    Some(next)
}

/// Reads an image of a kind. Of its breaches the one of the lowest number is told, and of these the first.
pub fn load(image: &[u8], kind: u8, layer: u8) -> Result<Model, Refusal> {
    let refusal = |number, place| Refusal { number, layer, place };
    if image.len() < HEADER {
        return Err(refusal(1, image.len()));
    }
    if let Some(place) = bad_field(image, kind) {
        return Err(refusal(2, place));
    }
    let state_count = number(image, 2);
    let link_count = number(image, 4);
    let links_at = HEADER + STATE_RECORD * state_count;
    let length = links_at + LINK_RECORD * link_count;
    if image.len() != length {
        return Err(refusal(3, length));
    }

    let mut heads = Vec::with_capacity(state_count);
    for at in (HEADER..links_at).step_by(STATE_RECORD) {
        let record = &image[at..at + STATE_RECORD];
        let first = number(record, 4);
        match label(kind, [record[0], record[1], record[2], record[3]]) {
            Some(label) if (1..=link_count).contains(&first) && record[6..] == [0, 0] => {
                heads.push((label, first));
            }
            _ => return Err(refusal(4, at)),
        }
    }

    let mut links = Vec::with_capacity(link_count);
    for at in (links_at..length).step_by(LINK_RECORD) {
        let (target, after) = (number(image, at), number(image, at + 2));
        if target >= state_count || after > link_count {
            return Err(refusal(5, at));
        }
        links.push((target as u16, after));
    }

    let mut states = Vec::with_capacity(state_count);
    for (s, (label, first)) in heads.into_iter().enumerate() {
        let next = chain(&links, first).ok_or(refusal(6, HEADER + STATE_RECORD * s))?;
        states.push(State { label, next });
    }
    Ok(Model { initial: number(image, 6), states })
}
