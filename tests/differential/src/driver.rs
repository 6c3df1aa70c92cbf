//! Runs the product on generated cases and compares the answers.

use crate::counts::Counts;
use crate::generate;
use crate::judge::{judge, Judged};
use crate::protocol::Job;
use crate::rng::Rng;
use std::io::{self, Write};
use std::process::{Command, Stdio};
use std::thread;
use std::time::{Duration, Instant};

/// Cases that are given to one run of `probe`.
const BATCH: u64 = 200;
const SMALL_BATCH: usize = 5000;
/// All texts of so many bytes are read.
const TEXT_BYTES: u32 = 4;
/// Differences that are printed; all are counted.
const PRINTED: usize = 20;
/// Of an answer so many lines are printed, each of so many characters at most.
const LINES: usize = 40;
const COLUMNS: usize = 1000;

/// A numbered job, and whether it is given to `pair` as well.
pub struct Case {
    number: u64,
    pub job: Job,
    bare: bool,
}

impl Case {
    pub fn new(seed: u64, number: u64) -> Case {
        let mut rng = Rng::new(seed, number);
        let job = generate::job(&mut rng);
        let bare = job.tag == b'J' && rng.chance(25);
        Case { number, job, bare }
    }

    pub fn hex(&self) -> String {
        self.job
            .bytes()
            .iter()
            .map(|byte| format!("{byte:02x}"))
            .collect()
    }
}

pub struct Driver {
    pub probe: String,
    pub pair: String,
    pub seed: u64,
    pub counts: Counts,
}

impl Driver {
    /// Runs batch after batch until the time is over.
    pub fn run(&mut self, seconds: u64) -> io::Result<()> {
        let end = Instant::now() + Duration::from_secs(seconds);
        let mut number = 0;
        while Instant::now() < end {
            let cases = (number..number + BATCH)
                .map(|number| Case::new(self.seed, number))
                .collect();
            self.batch(cases)?;
            number += BATCH;
        }
        Ok(())
    }

    /// Runs every small case.
    pub fn run_every(&mut self) -> io::Result<()> {
        let jobs = generate::every::texts(TEXT_BYTES).chain(generate::every::pairs());
        let mut cases = jobs.enumerate().map(|(number, job)| Case {
            number: number as u64,
            job,
            bare: false,
        });
        loop {
            let batch: Vec<Case> = cases.by_ref().take(SMALL_BATCH).collect();
            if batch.is_empty() {
                return Ok(());
            }
            self.batch(batch)?;
        }
    }

    /// Gives cases to `probe`; where it ends before its time, the case that it
    /// did not answer counts as a difference, and the rest is given again.
    fn batch(&mut self, cases: Vec<Case>) -> io::Result<()> {
        let mut cases = &cases[..];
        while !cases.is_empty() {
            let input = cases.iter().flat_map(|case| case.job.bytes()).collect();
            let (output, status) = run_on(&self.probe, input)?;
            let answers = answers(&output);
            for (case, answer) in cases.iter().zip(&answers) {
                self.compare(case, answer)?;
            }
            cases = &cases[answers.len().min(cases.len())..];
            if let Some((unanswered, rest)) = cases.split_first() {
                let judged = judge(&unanswered.job, &[]);
                self.differ(unanswered, &format!("no answer ({status})"), &judged, &[]);
                cases = rest;
            }
        }
        Ok(())
    }

    fn compare(&mut self, case: &Case, answer: &[&str]) -> io::Result<()> {
        let judged = judge(&case.job, answer);
        self.counts.case(case.job.tag, &judged);
        if let Some(objection) = &judged.objection {
            self.differ(case, objection, &judged, answer);
        }
        if case.bare {
            self.counts.bare += 1;
            let (output, status) = run_on(&self.pair, case.job.payload.clone())?;
            let told: Vec<&str> = output.lines().collect();
            if told != answer || !output.ends_with('\n') || status != "exit status: 0" {
                self.differ(
                    case,
                    &format!("`pair` answers otherwise ({status})"),
                    &judged,
                    &told,
                );
            }
        }
        Ok(())
    }

    fn differ(&mut self, case: &Case, objection: &str, judged: &Judged, answer: &[&str]) {
        self.counts.differences += 1;
        if self.counts.differences > PRINTED {
            return;
        }
        println!(
            "difference: seed {} case {}: {objection}",
            self.seed, case.number
        );
        println!("job {}", case.hex());
        let same = judged
            .own
            .iter()
            .zip(answer)
            .take_while(|(own, given)| own == *given)
            .count();
        let own: Vec<&str> = judged.own.iter().map(String::as_str).collect();
        print_answer("own answer", &own, same);
        print_answer("the product's", answer, same);
    }
}

fn print_answer(whose: &str, lines: &[&str], from: usize) {
    println!("{whose}, from line {from} of {}:", lines.len());
    for line in lines.iter().skip(from).take(LINES) {
        println!("    {}", line.chars().take(COLUMNS).collect::<String>());
    }
}

/// Splits an output at the lines that end an answer.
fn answers(output: &str) -> Vec<Vec<&str>> {
    let mut answers = Vec::new();
    let mut answer = Vec::new();
    for line in output.lines() {
        if line == "." {
            answers.push(std::mem::take(&mut answer));
        } else {
            answer.push(line);
        }
    }
    answers
}

/// The output of a program on an input, and how it ended.
fn run_on(program: &str, input: Vec<u8>) -> io::Result<(String, String)> {
    let mut child = Command::new(program)
        .stdin(Stdio::piped())
        .stdout(Stdio::piped())
        .spawn()?;
    let mut stdin = child.stdin.take().expect("the input is piped");
    // A program that ends early closes its input, and that is seen by its answers.
    let writer = thread::spawn(move || stdin.write_all(&input).is_ok());
    let output = child.wait_with_output()?;
    writer.join().expect("the writer does not panic");
    Ok((
        String::from_utf8_lossy(&output.stdout).into_owned(),
        output.status.to_string(),
    ))
}
