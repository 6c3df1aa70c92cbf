//! The answers to a list of requests to a comparison.

use crate::model::Model;
use crate::refusal::{Refusal, COMPARISON};
use crate::rounds::{Rounds, Verdict};

#[derive(Clone, Copy, Debug, PartialEq, Eq)]
pub enum Request {
    Round,
    Class(usize),
    Verdict,
    Formula(usize),
}

#[derive(Clone, Copy, Debug, PartialEq, Eq)]
pub enum Answer {
    Round(usize),
    Class(usize),
    Verdict(Verdict, usize),
    /// Some formula that separates the models and nests so deep.
    Formula(usize),
    Refused(Refusal),
}

fn refused(number: u8, place: usize) -> Answer {
    Answer::Refused(Refusal {
        number,
        layer: COMPARISON,
        place,
    })
}

fn answer(rounds: &mut Rounds, request: Request) -> Answer {
    let states = rounds.classes().len();
    match (request, rounds.verdict()) {
        (Request::Round, Some(_)) => refused(17, rounds.count()),
        (Request::Round, None) => {
            rounds.round();
            Answer::Round(rounds.number_of_classes())
        }
        (Request::Class(number), _) if number >= states => refused(18, number),
        (Request::Class(number), _) => Answer::Class(rounds.classes()[number]),
        (Request::Verdict, None) => refused(19, rounds.count()),
        (Request::Verdict, Some(verdict)) => Answer::Verdict(verdict, rounds.count()),
        (Request::Formula(places), Some(Verdict::Different)) => {
            if places < 4 * states - 3 {
                refused(21, places)
            } else {
                Answer::Formula(rounds.count())
            }
        }
        (Request::Formula(_), _) => refused(20, rounds.count()),
    }
}

/// Answers a list of requests into places, from the first on, one a place.
/// Places past the requests stay as they were, and requests past the places
/// are not looked at.
pub fn run(first: &Model, second: &Model, requests: &[Request], places: &mut [Answer]) {
    let mut rounds = Rounds::open(first, second);
    for (&request, place) in requests.iter().zip(places) {
        *place = answer(&mut rounds, request);
    }
}

#[cfg(test)]
mod tests {
    use super::*;
    use crate::model::{Kind, State};

    /// One state with one answer, its own successor.
    fn model(yes: bool) -> Model {
        Model {
            kind: Kind::Words,
            initial: 0,
            states: vec![State {
                answers: vec![yes],
                successors: vec![0],
            }],
        }
    }

    fn told(requests: &[Request], places: usize) -> Vec<Answer> {
        let mut answers = vec![Answer::Class(999); places];
        run(&model(true), &model(true), requests, &mut answers);
        answers
    }

    #[test]
    fn as_many_requests_as_there_are_places() {
        let requests = [Request::Verdict, Request::Round, Request::Verdict];
        let all = [
            refused(19, 0),
            Answer::Round(1),
            Answer::Verdict(Verdict::Alike, 1),
        ];
        for places in 0..=3 {
            assert_eq!(told(&requests, places), all[..places]);
        }
        let rest = [Answer::Class(999); 2];
        assert_eq!(told(&requests, 5), [&all[..], &rest].concat());
        assert_eq!(told(&[], 2), rest);
    }

    #[test]
    fn a_comparison_that_is_closed_at_the_opening() {
        let requests = [
            Request::Verdict,
            Request::Round,
            Request::Formula(5),
            Request::Formula(4),
            Request::Class(2),
            Request::Formula(5),
        ];
        let mut answers = vec![Answer::Class(999); requests.len()];
        run(&model(true), &model(false), &requests, &mut answers);
        let right = [
            Answer::Verdict(Verdict::Different, 0),
            refused(17, 0),
            Answer::Formula(0),
            refused(21, 4),
            refused(18, 2),
            Answer::Formula(0),
        ];
        assert_eq!(answers, right);
    }
}
