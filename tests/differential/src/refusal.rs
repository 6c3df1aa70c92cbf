//! Refusals and the order in which they are told.

use std::fmt;

pub const FIRST_IMAGE: u8 = 1;
pub const SECOND_IMAGE: u8 = 2;
pub const RULES: u8 = 3;
pub const TEXT: u8 = 4;
pub const EVALUATION: u8 = 5;
pub const COMPARISON: u8 = 6;
pub const REPORT: u8 = 7;

#[derive(Clone, Copy, Debug, PartialEq, Eq)]
pub struct Refusal {
    pub number: u8,
    pub layer: u8,
    pub place: usize,
}

impl fmt::Display for Refusal {
    fn fmt(&self, out: &mut fmt::Formatter<'_>) -> fmt::Result {
        write!(out, "refused {} {} {}", self.number, self.layer, self.place)
    }
}

/// A rule that an input breaks: the number of the cause and the place.
pub type Breach = (u8, usize);

/// Of all breaches of an input the one that is told: the lowest number, then
/// the lowest place.
pub fn refuse_first(breaches: Vec<Breach>, layer: u8) -> Result<(), Refusal> {
    match breaches.into_iter().min() {
        None => Ok(()),
        Some((number, place)) => Err(Refusal {
            number,
            layer,
            place,
        }),
    }
}
