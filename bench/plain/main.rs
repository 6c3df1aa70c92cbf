//! The pair job and the evaluator written plainly, without proofs, and timed as `crates/bench` times ours.

mod compare;
mod evaluate;
mod inputs;
mod job;
mod model;
mod node;

use evaluate::{Row, evaluate};
use inputs::{Shape, image, long_table};
use std::hint::black_box;
use std::io::{self, Read, Write};
use std::time::{Duration, Instant};

/// The least time of so many runs, and what the last one answered.
fn least<T>(runs: u32, mut run: impl FnMut() -> T) -> (Duration, Option<T>) {
    let (mut least, mut answer) = (Duration::MAX, None);
    for _ in 0..runs {
        let start = Instant::now();
        let new = run();
        least = least.min(start.elapsed());
        answer = Some(new);
    }
    (least, answer)
}

fn time_evaluation(name: &str, shape: Shape) {
    let model = model::load(&image(shape, Some(0)), model::SIGNAL_WORDS, 1).unwrap();
    let nodes = long_table();
    let (time, rows) = least(50, || evaluate(black_box(&model), black_box(&nodes)));
    let rows = rows.unwrap();
    let marks = |rows: &[Row]| rows.iter().flatten().filter(|x| **x).count();
    let (root, all) = (marks(&rows[nodes.len() - 1..]), marks(&rows));
    let time = time.as_nanos();
    println!("{name}");
    println!(
        "  2045 nodes, all operators in turn: {time} ns, {root} at the root, {all} in all rows"
    );
}

fn time_pair(name: &str, shape: Shape, first: Option<u8>, second: Option<u8>) {
    let input = [image(shape, first), image(shape, second)].concat();
    let (time, text) = least(20, || job::compare_images(black_box(&input)));
    let text = text.unwrap();
    let (time, verdict) = (time.as_micros(), text.lines().next().unwrap());
    println!("  {name}: {time} us, {verdict}");
}

fn time_all() {
    time_evaluation("256 states, 16 successors each", Shape::Dense);
    time_evaluation("ring with the sweep", Shape::Ring);
    time_evaluation("ring against the sweep", Shape::RingBackward);
    println!("two images compared");
    time_pair("chains of 256 states that part at the last step", Shape::Chain, Some(255), None);
    time_pair("two alike rings of 256 states", Shape::Ring, Some(0), Some(0));
    time_pair("256 states with 16 successors each, alike", Shape::Dense, Some(0), Some(0));
}

/// The pair job on standard input.
fn run_pair() -> io::Result<()> {
    let mut input = Vec::new();
    io::stdin().read_to_end(&mut input)?;
    io::stdout().write_all(job::compare_images(&input).as_bytes())
}

fn main() -> io::Result<()> {
    match std::env::args().nth(1).as_deref() {
        Some("run") => time_all(),
        Some("pair") => run_pair()?,
        _ => println!("usage: plain run, or plain pair with two images on standard input"),
    }
    Ok(())
}
