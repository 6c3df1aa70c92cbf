//! Random jobs: valid inputs, inputs near a limit, and damaged ones.

mod comparisons;
pub mod every;
mod graphs;
mod images;
mod requests;
mod rulelists;
mod tables;
mod texts;

use crate::protocol::{put_model, put_nodes, put_requests, put_two, Job, Payload};
use crate::rng::Rng;
use comparisons::Size;
use tables::Asked;

/// A job of a random kind.
pub fn job(rng: &mut Rng) -> Job {
    match rng.below(100) {
        0..=15 => image(rng),
        16..=33 => evaluation(rng),
        34..=53 => reading(rng),
        54..=65 => printing(rng),
        66..=81 => comparison(rng),
        82..=88 => writing(rng),
        _ => Job {
            tag: b'J',
            payload: pair_input(rng),
        },
    }
}

/// The input of a pair job.
pub fn pair_input(rng: &mut Rng) -> Vec<u8> {
    let (first, second) = images::pair(rng);
    let mut input = [first, second].concat();
    if rng.chance(10) {
        images::change_length(rng, &mut input);
    }
    input
}

/// Appends a model, damaged in some cases.
fn put_any_model(rng: &mut Rng, payload: &mut Vec<u8>, damaged: usize) {
    if rng.chance(35) {
        let rules = rulelists::rule_list(rng, damaged);
        put_model(payload, 3, &rules);
    } else {
        let (kind, image) = images::image(rng, damaged);
        put_model(payload, kind, &image);
    }
}

fn image(rng: &mut Rng) -> Job {
    let mut payload = vec![rng.pick(&[1, 2, 2, 0])];
    put_any_model(rng, &mut payload, 50);
    Job { tag: b'I', payload }
}

fn evaluation(rng: &mut Rng) -> Job {
    let mut payload = Vec::new();
    // A long table is evaluated on a small model, so that a run has many cases.
    let long = rng.chance(4);
    if long {
        let (kind, image) = images::small(rng);
        put_model(&mut payload, kind, &image);
    } else {
        put_any_model(rng, &mut payload, 4);
    }
    let asked = Asked::of(&Payload::new(&payload).model().expect("a model was put"));
    let nodes = if long {
        tables::long(rng, &asked)
    } else {
        tables::table(rng, &asked, 35)
    };
    let enough = 4 * nodes.len();
    let words = match rng.below(10) {
        0 => enough.saturating_sub(1),
        1 => rng.below(enough + 1),
        2 => enough + rng.between(1, 9),
        3 if rng.chance(10) => 65535,
        _ => enough,
    };
    put_two(&mut payload, words);
    put_nodes(&mut payload, &nodes);
    Job { tag: b'E', payload }
}

fn question_count(rng: &mut Rng) -> usize {
    match rng.below(20) {
        0 => rng.pick(&[0, 33, 256, 257, 288, 65535]),
        1..=12 => rng.pick(&[1, 2, 3, 31, 32, 32]),
        _ => rng.between(1, 32),
    }
}

fn reading(rng: &mut Rng) -> Job {
    let questions = question_count(rng);
    let text = texts::text(rng, questions);
    let nodes = crate::text::read(&text, questions, 65535).map_or(0, |nodes| nodes.len());
    let places = match rng.below(12) {
        0 => nodes.saturating_sub(1),
        1 => rng.below(nodes + 1),
        2 => 0,
        3 => nodes + rng.between(1, 5),
        4 if rng.chance(5) => 65535,
        5 => rng.pick(&[2044, 2045, 2046]),
        _ => nodes.max(rng.below(12)),
    };
    let mut payload = Vec::new();
    put_two(&mut payload, questions);
    put_two(&mut payload, places);
    payload.extend(text);
    Job { tag: b'F', payload }
}

fn printing(rng: &mut Rng) -> Job {
    let questions = question_count(rng);
    let nodes = match rng.below(20) {
        0..=4 => tables::near_longest_text(rng),
        5..=6 => tables::near_deepest(rng),
        7 => tables::long(rng, &Asked::any(questions)),
        8..=11 => tables::of_text(rng, questions),
        _ => tables::table(rng, &Asked::any(questions), 25),
    };
    let mut payload = Vec::new();
    put_two(&mut payload, questions);
    put_nodes(&mut payload, &nodes);
    Job { tag: b'P', payload }
}

fn comparison(rng: &mut Rng) -> Job {
    let mut payload = Vec::new();
    comparisons::put_models(rng, &mut payload);
    let requests = requests::list(rng, Size::of(&payload));
    put_two(&mut payload, answer_places(rng, requests.len()));
    put_requests(&mut payload, &requests);
    Job { tag: b'C', payload }
}

/// The number of answer places that so many requests are given.
fn answer_places(rng: &mut Rng, requests: usize) -> usize {
    let places = match rng.below(20) {
        0 => 0,
        1 => requests.saturating_sub(1),
        2 | 3 => rng.below(requests + 1),
        4 => requests + 1,
        5 | 6 => requests + rng.between(1, 300),
        7 if rng.chance(10) => 65535,
        _ => requests,
    };
    places.min(65535)
}

fn writing(rng: &mut Rng) -> Job {
    let different = rng.chance(80);
    let rounds = rng.pick(&[
        0, 1, 9, 10, 99, 100, 255, 511, 999, 1000, 9999, 10000, 65535,
    ]);
    let nodes = match rng.below(12) {
        _ if !different => Vec::new(),
        0 => tables::arbitrary(rng, 2045),
        1 => tables::arbitrary(rng, 2046),
        2 => {
            let count = rng.between(2040, 2100);
            tables::arbitrary(rng, count)
        }
        _ => {
            let count = rng.below(30);
            tables::arbitrary(rng, count)
        }
    };
    let report = if different {
        crate::report::Report::Different {
            rounds,
            nodes: nodes.clone(),
        }
    } else {
        crate::report::Report::Alike { rounds }
    };
    let enough = crate::report::write(&report, &mut vec![0; 65535]).unwrap_or(0);
    let bytes = match rng.below(10) {
        0..=2 => enough.saturating_sub(1),
        3 => rng.below(enough + 1),
        4 => enough + rng.between(1, 9),
        5 => 0,
        6 if rng.chance(20) => 65535,
        _ => enough,
    };
    let mut payload = vec![u8::from(different)];
    put_two(&mut payload, rounds);
    put_two(&mut payload, bytes);
    put_nodes(&mut payload, &nodes);
    Job { tag: b'W', payload }
}
