//! Lists of requests to a comparison.

use super::comparisons::Size;
use crate::law::Request;
use crate::rng::Rng;

/// A list for a comparison of such a size.
pub fn list(rng: &mut Rng, size: Size) -> Vec<Request> {
    match rng.below(20) {
        0 | 1 => {
            let count = rng.below(12);
            several(rng, size, count)
        }
        2 | 3 => many(rng, size),
        4..=6 => formulas_again(rng, size),
        7 | 8 => after_closing(rng, size),
        9 | 10 => without_round(rng, size),
        _ => with_rounds(rng, size),
    }
}

/// Over 100 requests; in few lists as many as there can be places, or more.
fn many(rng: &mut Rng, size: Size) -> Vec<Request> {
    if rng.chance(2) {
        let count = rng.between(65530, 65540);
        (0..count).map(|_| without_formula(rng, size)).collect()
    } else {
        let count = rng.between(101, 500);
        several(rng, size, count)
    }
}

/// The formula several times, with other requests between.
fn formulas_again(rng: &mut Rng, size: Size) -> Vec<Request> {
    let mut requests = vec![Request::Round; size.rounds];
    for _ in 0..rng.between(2, 6) {
        let enough = enough(size);
        requests.push(Request::Formula(rng.pick(&[enough, enough + 1, 65535])));
        let count = rng.below(5);
        requests.extend(several(rng, size, count));
    }
    requests
}

/// All rounds, and then a good many requests, rounds among them.
fn after_closing(rng: &mut Rng, size: Size) -> Vec<Request> {
    let mut requests = vec![Request::Round; size.rounds];
    let count = rng.between(5, 60);
    requests.extend(several(rng, size, count));
    requests
}

/// Requests that leave the comparison as it is opened: rounds stand among
/// them only where it is closed from the beginning.
fn without_round(rng: &mut Rng, size: Size) -> Vec<Request> {
    let count = rng.below(30);
    if size.rounds == 0 {
        several(rng, size, count)
    } else {
        (0..count).map(|_| reading(rng, size)).collect()
    }
}

/// Some rounds, all of them in most lists, with readings between and behind.
fn with_rounds(rng: &mut Rng, size: Size) -> Vec<Request> {
    let mut requests = Vec::new();
    let made = match rng.below(6) {
        0 => rng.below(size.rounds + 1),
        1 => size.rounds.saturating_sub(1),
        2 => size.rounds + rng.between(1, 3),
        _ => size.rounds,
    };
    let between = if size.rounds > 20 { 10 } else { 50 };
    for _ in 0..made {
        readings(rng, &mut requests, size, between, 3);
        requests.push(Request::Round);
    }
    readings(rng, &mut requests, size, 95, 8);
    if rng.chance(20) {
        requests.extend((0..size.states).map(Request::Class));
    }
    requests
}

/// In so many of a hundred cases 1 to `most` readings.
fn readings(rng: &mut Rng, requests: &mut Vec<Request>, size: Size, percent: usize, most: usize) {
    if rng.chance(percent) {
        let count = rng.between(1, most);
        requests.extend((0..count).map(|_| reading(rng, size)));
    }
}

fn several(rng: &mut Rng, size: Size, count: usize) -> Vec<Request> {
    (0..count).map(|_| any(rng, size)).collect()
}

fn any(rng: &mut Rng, size: Size) -> Request {
    if rng.chance(40) {
        Request::Round
    } else {
        reading(rng, size)
    }
}

fn without_formula(rng: &mut Rng, size: Size) -> Request {
    match rng.below(10) {
        0 => Request::Round,
        1 | 2 => Request::Verdict,
        _ => class(rng, size),
    }
}

fn reading(rng: &mut Rng, size: Size) -> Request {
    match rng.below(10) {
        0..=5 => class(rng, size),
        6 | 7 => Request::Verdict,
        _ => formula(rng, size),
    }
}

fn class(rng: &mut Rng, Size { states, .. }: Size) -> Request {
    Request::Class(match rng.below(8) {
        0 => states,
        1 => rng.pick(&[states + 1, 256, 512, 65535]),
        2 => states - 1,
        _ => rng.below(states),
    })
}

fn formula(rng: &mut Rng, size: Size) -> Request {
    let enough = enough(size);
    Request::Formula(rng.pick(&[enough, enough, enough + 1, 65535, enough - 1, 0]))
}

/// As many node places as a formula may need.
fn enough(size: Size) -> usize {
    4 * size.states - 3
}
