//! The pair job: the bytes of two images, one after the other, to the text of the report.

use crate::compare::{Outcome, compare};
use crate::model::{READINGS, Refusal, SIGNAL_WORDS, load};
use std::fmt::Write;

/// Where the first image ends, by its header or the end of the input.
fn first_length(input: &[u8]) -> usize {
    if input.len() < 8 {
        return input.len();
    }
    let states = u16::from_le_bytes([input[2], input[3]]) as usize;
    let links = u16::from_le_bytes([input[4], input[5]]) as usize;
    (8 + 8 * states + 4 * links).min(input.len())
}

/// The kind of both images is that of the first one's header; a byte that names none is refused by the loader.
fn outcome(input: &[u8]) -> Result<Outcome, Refusal> {
    let (first, second) = input.split_at(first_length(input));
    let kind = match input.first() {
        Some(&READINGS) => READINGS,
        _ => SIGNAL_WORDS,
    };
    let first = load(first, kind, 1)?;
    let second = load(second, kind, 2)?;
    Ok(compare(first, second))
}

pub fn compare_images(input: &[u8]) -> String {
    let mut text = String::new();
    match outcome(input) {
        Ok(Outcome::Alike { rounds }) => writeln!(text, "alike {rounds}").unwrap(),
        Ok(Outcome::Different { rounds, nodes }) => {
            writeln!(text, "differ {rounds} {}", nodes.len()).unwrap();
            for (i, node) in nodes.iter().enumerate() {
                writeln!(text, "{i} {} {} {}", node.operator as u8, node.a, node.b).unwrap();
            }
        }
        Err(refusal) => write!(text, "{refusal}").unwrap(),
    }
    text
}
