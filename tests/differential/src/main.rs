//! Compares the product with an implementation of its own, written from
//! docs/ alone.
//!
//!     differential PROBE PAIR SECONDS SEED    runs the two programs for so long
//!     differential PROBE                      runs every small case
//!     differential SEED CASE                  prints a case and its own answer

mod counts;
mod driver;
mod evaluate;
#[cfg(test)]
mod fake;
mod formula;
mod generate;
mod image;
mod judge;
mod law;
mod lists;
mod model;
mod pair;
mod print;
mod protocol;
mod refusal;
mod report;
mod rng;
mod rounds;
mod rules;
mod table;
mod text;

use counts::Counts;
use driver::{Case, Driver};
use std::io;
use std::process::ExitCode;

fn main() -> ExitCode {
    let arguments: Vec<String> = std::env::args().skip(1).collect();
    let words: Vec<&str> = arguments.iter().map(String::as_str).collect();
    let number = |word: &str| word.parse::<u64>().ok();
    match words[..] {
        [probe, pair, seconds, seed] => match (number(seconds), number(seed)) {
            (Some(seconds), Some(seed)) => {
                println!("seed {seed}, {seconds} seconds");
                run(probe, pair, seed, |driver| driver.run(seconds))
            }
            _ => usage(),
        },
        [probe] => run(probe, "", 0, Driver::run_every),
        [seed, case] => match (number(seed), number(case)) {
            (Some(seed), Some(case)) => show(seed, case),
            _ => usage(),
        },
        _ => usage(),
    }
}

fn usage() -> ExitCode {
    eprintln!(
        "differential PROBE PAIR SECONDS SEED, differential PROBE, or differential SEED CASE"
    );
    ExitCode::from(2)
}

fn run(
    probe: &str,
    pair: &str,
    seed: u64,
    cases: impl FnOnce(&mut Driver) -> io::Result<()>,
) -> ExitCode {
    let mut driver = Driver {
        probe: probe.into(),
        pair: pair.into(),
        seed,
        counts: Counts::default(),
    };
    if let Err(error) = cases(&mut driver) {
        eprintln!("differential: {error}");
        return ExitCode::from(2);
    }
    println!("{}", driver.counts);
    ExitCode::from(u8::from(driver.counts.differences > 0))
}

fn show(seed: u64, number: u64) -> ExitCode {
    let case = Case::new(seed, number);
    println!("{}", case.hex());
    for line in judge::judge(&case.job, &[]).own {
        println!("{line}");
    }
    ExitCode::SUCCESS
}
