//! What a job must be answered, and whether an answer is that.

use crate::evaluate::evaluate;
use crate::formula;
use crate::law::{self, Answer, Request};
use crate::lists;
use crate::model::Model;
use crate::pair;
use crate::print::print;
use crate::protocol::{Job, Payload};
use crate::refusal::Refusal;
use crate::report::{self, Report};
use crate::rounds::{Rounds, Verdict};
use crate::table::Node;
use crate::text::read;

/// What was met in a case, for the counts of a run.
#[derive(Default)]
pub struct Met {
    pub refused: Vec<u8>,
    /// Of a list of requests, what is counted and whether it is so.
    pub lists: Vec<(&'static str, bool)>,
    pub verdict: Option<(Verdict, usize)>,
    pub formulas: usize,
    pub largest_formula: usize,
}

impl Met {
    fn refusal(&mut self, refusal: Refusal) -> String {
        self.refused.push(refusal.number);
        refusal.to_string()
    }

    fn verdict(&mut self, verdict: Verdict, rounds: usize) {
        self.verdict = Some((verdict, rounds));
    }

    fn formula(&mut self, nodes: usize) {
        self.formulas += 1;
        self.largest_formula = self.largest_formula.max(nodes);
    }
}

/// The answer to a job by this implementation, and what is wrong with the
/// given one. Where some formula is asked for, the own answer says which.
pub struct Judged {
    pub own: Vec<String>,
    pub objection: Option<String>,
    pub met: Met,
}

pub fn judge(job: &Job, given: &[&str]) -> Judged {
    let mut met = Met::default();
    let payload = Payload::new(&job.payload);
    let exact = match job.tag {
        b'I' => image(payload, &mut met),
        b'E' => evaluation(payload, &mut met),
        b'F' => reading(payload, &mut met),
        b'P' => printing(payload),
        b'W' => writing(payload, &mut met),
        b'C' => return comparison(payload, given, met),
        b'J' => return pair_job(&job.payload, given, met),
        _ => None,
    };
    judge_exact(exact.unwrap_or_else(bad), given, met)
}

fn bad() -> Vec<String> {
    vec!["bad".into()]
}

fn judge_exact(own: Vec<String>, given: &[&str], met: Met) -> Judged {
    let objection = if own == given {
        None
    } else {
        Some("the answers differ".into())
    };
    Judged {
        own,
        objection,
        met,
    }
}

fn image(mut payload: Payload, met: &mut Met) -> Option<Vec<String>> {
    let second = payload.byte()? == 2;
    let model = payload.model()?;
    if !payload.rest().is_empty() {
        return None;
    }
    Some(match model.load(second) {
        Err(refusal) => vec![met.refusal(refusal)],
        Ok(model) => show(&model),
    })
}

fn show(model: &Model) -> Vec<String> {
    let head = format!(
        "model {} {} {}",
        model.questions(),
        model.states.len(),
        model.initial
    );
    let states = model.states.iter().enumerate().map(|(number, state)| {
        let answers: String = state
            .answers
            .iter()
            .map(|&yes| if yes { '1' } else { '0' })
            .collect();
        let successors: String = state.successors.iter().map(|t| format!(" {t}")).collect();
        format!("{number} {answers}{successors}")
    });
    std::iter::once(head).chain(states).collect()
}

fn evaluation(mut payload: Payload, met: &mut Met) -> Option<Vec<String>> {
    let model = payload.model()?;
    let words = payload.two()?;
    let nodes = payload.nodes()?;
    let model = match model.load(false) {
        Err(refusal) => return Some(vec![format!("model {}", met.refusal(refusal))]),
        Ok(model) => model,
    };
    let mut words: Vec<u64> = (0..words as u64)
        .map(|i| i.wrapping_mul(0x0123_4567_89ab_cdef))
        .collect();
    let told = match evaluate(&model, &nodes, &mut words) {
        Err(refusal) => met.refusal(refusal),
        Ok(holding) => {
            let told = if holding.at_initial { "yes" } else { "no" };
            format!("holds {told} {}", holding.count)
        }
    };
    let words: String = words.iter().map(|word| format!(" {word:016x}")).collect();
    Some(vec![told, format!("words{words}")])
}

fn reading(mut payload: Payload, met: &mut Met) -> Option<Vec<String>> {
    let questions = payload.two()?;
    let count = payload.two()?;
    let mut places: Vec<Node> = (0..count).map(|i| Node::new(255, i, i)).collect();
    let told = match read(payload.rest(), questions, count) {
        Err(refusal) => met.refusal(refusal),
        Ok(nodes) => {
            places[..nodes.len()].copy_from_slice(&nodes);
            format!("read {}", nodes.len())
        }
    };
    Some(
        std::iter::once(told)
            .chain(places.iter().map(Node::to_string))
            .collect(),
    )
}

fn printing(mut payload: Payload) -> Option<Vec<String>> {
    let questions = payload.two()?;
    let nodes = payload.nodes()?;
    Some(vec![match print(&nodes, questions) {
        None => "none".into(),
        Some(text) => format!("text {text}"),
    }])
}

fn writing(mut payload: Payload, met: &mut Met) -> Option<Vec<String>> {
    let outcome = payload.byte()?;
    let rounds = payload.two()?;
    let mut bytes = vec![0x7e; payload.two()?];
    let nodes = payload.nodes()?;
    let report = match outcome {
        0 => Report::Alike { rounds },
        1 => Report::Different { rounds, nodes },
        _ => return None,
    };
    let told = match report::write(&report, &mut bytes) {
        Err(refusal) => met.refusal(refusal),
        Ok(length) => format!("wrote {length}"),
    };
    let hex: String = bytes.iter().map(|byte| format!("{byte:02x}")).collect();
    Some(vec![told, format!("bytes {hex}")])
}

/// Reads "code a b".
fn parse_node(line: &str) -> Option<Node> {
    let mut words = line.split(' ');
    let node = Node {
        code: words.next()?.parse().ok()?,
        a: words.next()?.parse().ok()?,
        b: words.next()?.parse().ok()?,
    };
    // So no other spelling of the numbers passes either.
    (node.to_string() == line).then_some(node)
}

/// Reads "formula count".
fn parse_count(line: &str) -> Option<usize> {
    let count = line.strip_prefix("formula ")?.parse::<usize>().ok()?;
    (format!("formula {count}") == line).then_some(count)
}

fn comparison(payload: Payload, given: &[&str], mut met: Met) -> Judged {
    let asked = match parse_comparison(payload) {
        None => return judge_exact(bad(), given, met),
        Some(Err(refusal)) => {
            let own = vec![format!("model {}", met.refusal(refusal))];
            return judge_exact(own, given, met);
        }
        Some(Ok(asked)) => asked,
    };
    let mut places: Vec<Answer> = (0..asked.places).map(untouched).collect();
    law::run(&asked.first, &asked.second, &asked.requests, &mut places);
    met.lists = lists::likenesses(&asked.requests, &places).into();
    let mut walk = Walk {
        first: &asked.first,
        second: &asked.second,
        given,
        at: 0,
        formula: None,
    };
    let mut own = Vec::new();
    let mut objection = None;
    for answer in places {
        let (line, wrong) = walk.answer(answer, &mut met);
        objection = objection.or(wrong.map(|wrong| format!("answer {}: {wrong}", own.len())));
        own.push(line);
    }
    if objection.is_none() && walk.at < given.len() {
        objection = Some("there are more lines than the answer places have".into());
    }
    Judged {
        own,
        objection,
        met,
    }
}

/// What stands in an answer place before a run.
fn untouched(place: usize) -> Answer {
    Answer::Class(65535 - place)
}

/// What the payload of a comparison says.
struct Comparison {
    first: Model,
    second: Model,
    places: usize,
    requests: Vec<Request>,
}

/// A comparison, or the refusal of a model; `None` also for two models of
/// different label kinds.
fn parse_comparison(mut payload: Payload) -> Option<Result<Comparison, Refusal>> {
    let first = payload.model()?;
    let second = payload.model()?;
    let places = payload.two()?;
    let requests = payload.requests()?;
    let load = || Ok((first.load(false)?, second.load(true)?));
    match load() {
        Err(refusal) => Some(Err(refusal)),
        Ok((first, second)) if first.kind == second.kind => Some(Ok(Comparison {
            first,
            second,
            places,
            requests,
        })),
        Ok(_) => None,
    }
}

/// Goes over the lines of the answer places.
struct Walk<'a> {
    first: &'a Model,
    second: &'a Model,
    given: &'a [&'a str],
    at: usize,
    formula: Option<Vec<Node>>,
}

impl Walk<'_> {
    fn line(&mut self) -> &str {
        let line = self.given.get(self.at).copied().unwrap_or("(nothing)");
        self.at += 1;
        line
    }

    /// An answer in words, and what is wrong with the given lines.
    fn answer(&mut self, answer: Answer, met: &mut Met) -> (String, Option<String>) {
        let own = match answer {
            Answer::Round(count) => format!("round {count}"),
            Answer::Class(class) => format!("class {class}"),
            Answer::Verdict(verdict, rounds) => {
                met.verdict(verdict, rounds);
                let told = match verdict {
                    Verdict::Alike => "alike",
                    Verdict::Different => "different",
                };
                format!("verdict {told} {rounds}")
            }
            Answer::Refused(refusal) => met.refusal(refusal),
            Answer::Formula(rounds) => {
                let own = format!("formula (one that separates and has nesting {rounds})");
                let wrong = self.formula(rounds, met);
                return (own, wrong);
            }
        };
        let line = self.line();
        let wrong = (line != own).then(|| format!("`{line}` given, `{own}` is right"));
        (own, wrong)
    }

    fn formula(&mut self, rounds: usize, met: &mut Met) -> Option<String> {
        let head = self.line();
        let Some(count) = parse_count(head) else {
            return Some(format!("`{head}` given, a formula is right"));
        };
        let lines = self.given.get(self.at..).unwrap_or(&[]);
        let nodes: Option<Vec<Node>> = lines
            .iter()
            .take(count)
            .map(|line| parse_node(line))
            .collect();
        let Some(nodes) = nodes.filter(|nodes| nodes.len() == count) else {
            return Some("the nodes of the formula cannot be read".into());
        };
        self.at += count;
        met.formula(count);
        if let Some(earlier) = &self.formula {
            return (*earlier != nodes).then(|| "another formula than before".into());
        }
        let objection = formula::objection(self.first, self.second, rounds, &nodes);
        self.formula = Some(nodes);
        objection
    }
}

fn pair_job(input: &[u8], given: &[&str], mut met: Met) -> Judged {
    let (first, second) = match pair::models(input) {
        Err(refusal) => {
            let own = vec![met.refusal(refusal)];
            return judge_exact(own, given, met);
        }
        Ok(models) => models,
    };
    let mut comparison = Rounds::open(&first, &second);
    let verdict = comparison.close();
    let rounds = comparison.count();
    met.verdict(verdict, rounds);
    if verdict == Verdict::Alike {
        return judge_exact(vec![format!("alike {rounds}")], given, met);
    }
    let own = vec![format!(
        "differ {rounds} (and a formula that separates, of nesting {rounds})"
    )];
    let objection = match parse_report(given, rounds) {
        None => Some("it is no report of so many rounds".into()),
        Some(nodes) => {
            met.formula(nodes.len());
            formula::objection(&first, &second, rounds, &nodes)
        }
    };
    Judged {
        own,
        objection,
        met,
    }
}

/// The nodes of a report of a difference after so many rounds.
fn parse_report(given: &[&str], rounds: usize) -> Option<Vec<Node>> {
    let (head, lines) = given.split_first()?;
    if *head != format!("differ {rounds} {}", lines.len()) {
        return None;
    }
    let node = |(number, line): (usize, &&str)| {
        let node = line.strip_prefix(&format!("{number} "))?;
        parse_node(node)
    };
    lines.iter().enumerate().map(node).collect()
}

#[cfg(test)]
mod tests {
    use super::*;
    use crate::driver::Case;
    use crate::fake;

    fn demo(name: &str) -> Vec<u8> {
        std::fs::read(format!("../../demo/{name}.img")).unwrap()
    }

    const LATE_AND_EARLY: [&str; 17] = [
        "differ 2 16",
        "0 1 0 0",
        "1 2 0 0",
        "2 1 1 0",
        "3 2 2 0",
        "4 3 1 3",
        "5 3 1 2",
        "6 5 4 0",
        "7 2 6 0",
        "8 3 4 6",
        "9 3 4 7",
        "10 5 0 0",
        "11 3 9 10",
        "12 5 5 0",
        "13 3 11 12",
        "14 5 13 0",
        "15 3 8 14",
    ];

    #[test]
    fn the_report_of_the_front_page() {
        let job = Job {
            tag: b'J',
            payload: [demo("late"), demo("early")].concat(),
        };
        assert_eq!(judge(&job, &LATE_AND_EARLY).objection, None);
        let mut other = LATE_AND_EARLY;
        other[16] = "15 3 8 10";
        assert!(judge(&job, &other).objection.is_some());
    }

    #[test]
    fn the_panels_of_the_guide() {
        let job = Job {
            tag: b'J',
            payload: [demo("school-tested"), demo("school-tested")].concat(),
        };
        assert_eq!(judge(&job, &["alike 5"]).objection, None);
        let job = Job {
            tag: b'J',
            payload: [demo("school-tested"), demo("school-loaded")].concat(),
        };
        assert!(judge(&job, &["alike 5"]).own[0].starts_with("differ 5 "));
    }
    /// One state of a word below 256 that leads to itself, as a payload has it.
    fn one_state(word: u8) -> Vec<u8> {
        let mut model = vec![1, 20, 0, 0, 0];
        model.extend([1, 0, 1, 0, 1, 0, 0, 0]);
        model.extend([word, 0, 0, 0, 1, 0, 0, 0, 0, 0, 0, 0]);
        model
    }

    fn requests_job(words: [u8; 2], places: [u8; 2], requests: &[[u8; 3]]) -> Job {
        let models = words.map(one_state).concat();
        Job {
            tag: b'C',
            payload: [&models[..], &places, &requests.concat()].concat(),
        }
    }

    fn objects(job: &Job, given: &[&str]) -> bool {
        judge(job, given).objection.is_some()
    }

    const ALIKE: [[u8; 3]; 7] = [
        [2, 0, 0],
        [3, 5, 0],
        [0, 0, 0],
        [0, 0, 0],
        [1, 1, 0],
        [1, 2, 0],
        [2, 0, 0],
    ];

    const ALIKE_TOLD: [&str; 9] = [
        "refused 19 6 0",
        "refused 20 6 0",
        "round 1",
        "refused 17 6 1",
        "class 0",
        "refused 18 6 2",
        "verdict alike 1",
        "class 65528",
        "class 65527",
    ];

    #[test]
    fn a_line_an_answer_place() {
        for places in 0..=9 {
            let job = requests_job([0, 0], [places, 0], &ALIKE);
            for lines in 0..=9 {
                assert_eq!(
                    objects(&job, &ALIKE_TOLD[..lines]),
                    lines != usize::from(places)
                );
            }
        }
        let mut other = ALIKE_TOLD;
        other[8] = "class 65528";
        assert!(objects(&requests_job([0, 0], [9, 0], &ALIKE), &other));
    }

    #[test]
    fn as_many_places_as_there_can_be() {
        let own = judge(&requests_job([0, 0], [255, 255], &ALIKE), &[]).own;
        assert_eq!(own.len(), 65535);
        assert_eq!(own[..9], ALIKE_TOLD);
        assert_eq!(own[65534], "class 1");
    }

    #[test]
    fn the_formula_is_the_same_again() {
        let requests = [[3, 5, 0], [0, 0, 0], [3, 4, 0], [3, 255, 255], [3, 5, 0]];
        let job = requests_job([1, 0], [4, 0], &requests);
        let told = ["formula 1", "1 0 0"];
        let between = ["refused 17 6 0", "refused 21 6 4"];
        let given = |last: &[&str]| objects(&job, &[&told[..], &between, last].concat());
        assert!(!given(&told));
        assert!(given(&["formula 1", "1 1 0"]));
        // It separates as well.
        assert!(given(&["formula 3", "1 0 0", "2 0 0", "2 1 0"]));
        assert!(given(&["formula 01", "1 0 0"]));
        assert!(given(&["formula 2", "1 0 0"]));
        assert!(given(&["formula 1"]));
        // The fifth request is past the places.
        assert!(given(&[told, told].concat()));
    }

    #[test]
    fn a_comparison_that_is_bad_or_has_a_refused_model() {
        let told = |payload: Vec<u8>| judge(&Job { tag: b'C', payload }, &[]).own;
        let models = [one_state(0), one_state(1)].concat();
        assert_eq!(told(models.clone()), ["bad"]);
        assert_eq!(told([&models[..], &[0]].concat()), ["bad"]);
        assert_eq!(told([&models[..], &[0, 0, 0, 0]].concat()), ["bad"]);
        assert!(told([&models[..], &[0, 0]].concat()).is_empty());
        let mut refused = one_state(0);
        refused[6] = 1;
        let second = [one_state(0), refused, vec![3, 0, 0, 0, 0]].concat();
        assert_eq!(told(second), ["model refused 2 2 1"]);
    }

    #[test]
    fn right_answers_are_accepted_and_lines_more_or_less_are_not() {
        for number in 0..4000 {
            let job = Case::new(2, number).job;
            let answer = fake::answer(&job);
            let mut given: Vec<&str> = answer.iter().map(String::as_str).collect();
            assert_eq!(judge(&job, &given).objection, None, "case {number}");
            given.push("class 0");
            assert!(objects(&job, &given), "case {number}");
            given.pop();
            if given.pop().is_some() {
                assert!(objects(&job, &given), "case {number}");
            }
        }
    }
}
