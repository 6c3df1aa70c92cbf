//! What lists of requests are like, for the counts of a run.

use crate::law::{Answer, Request};

/// What is counted of lists, in words, and whether it is so of a list whose
/// answer places stand as they do after its run.
pub fn likenesses(requests: &[Request], places: &[Answer]) -> [(&'static str, bool); 6] {
    let answers = &places[..requests.len().min(places.len())];
    [
        ("past the places", requests.len() > places.len()),
        ("places left", requests.len() < places.len()),
        ("over 100 answers", answers.len() > 100),
        ("no accepted round", has_no_round(answers)),
        ("on after the closing", goes_on(answers)),
        ("the formula again", tells_again(answers)),
    ]
}

fn has_no_round(answers: &[Answer]) -> bool {
    !answers.is_empty() && !answers.iter().any(|a| matches!(a, Answer::Round(_)))
}

/// Whether a round is asked of the closed comparison.
fn goes_on(answers: &[Answer]) -> bool {
    answers
        .iter()
        .any(|answer| matches!(answer, Answer::Refused(refusal) if refusal.number == 17))
}

/// Whether the formula is told, then something else, then the formula.
fn tells_again(answers: &[Answer]) -> bool {
    let mut told = answers.iter().map(|a| matches!(a, Answer::Formula(_)));
    told.any(|formula| formula) && told.any(|formula| !formula) && told.any(|formula| formula)
}
