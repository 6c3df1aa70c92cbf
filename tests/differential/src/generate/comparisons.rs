//! The two models of a comparison, and its size.

use super::graphs::{self, Graph};
use super::images::{self, Palette};
use super::{put_any_model, rulelists};
use crate::model::Model;
use crate::protocol::{put_model, Payload};
use crate::rng::Rng;
use crate::rounds::Rounds;

/// Appends two models, mostly lawful ones of one label kind.
pub fn put_models(rng: &mut Rng, payload: &mut Vec<u8>) {
    match rng.below(40) {
        0..=2 => {
            put_any_model(rng, payload, 25);
            put_any_model(rng, payload, 25);
        }
        3..=6 => {
            let (first, second) = rulelists::pair(rng);
            put_model(payload, 3, &first);
            put_model(payload, 3, &second);
        }
        7..=10 => put_rules_and_image(rng, payload),
        _ => {
            let palette = Palette::any(rng);
            let (first, second) = graphs::pair(rng);
            for graph in [first, second] {
                let image = images::of_graph(rng, &graph, &palette);
                put_model(payload, palette.kind().byte(), &image);
            }
        }
    }
}

/// Appends a rule model and an image of its states, which is perhaps changed.
fn put_rules_and_image(rng: &mut Rng, payload: &mut Vec<u8>) {
    let rules = rulelists::rule_list(rng, 0);
    let mut given = Vec::new();
    put_model(&mut given, 3, &rules);
    let model = load(&mut Payload::new(&given), false).expect("the list is lawful");
    let mut graph = Graph {
        labels: (0..model.states.len()).collect(),
        successors: model
            .states
            .into_iter()
            .map(|state| state.successors)
            .collect(),
        initial: model.initial,
    };
    let palette = Palette::Words((0..graph.len() as u32).collect());
    if rng.chance(50) {
        graph = graphs::changed(rng, &graph);
    }
    graph = if rng.chance(50) {
        graphs::renumbered(rng, &graph)
    } else {
        graphs::unfolded(rng, &graph)
    };
    let image = images::of_graph(rng, &graph, &palette);
    if rng.chance(50) {
        payload.extend(given);
        put_model(payload, 1, &image);
    } else {
        put_model(payload, 1, &image);
        payload.extend(given);
    }
}

fn load(payload: &mut Payload, second: bool) -> Option<Model> {
    payload.model()?.load(second).ok()
}

/// The states of both models of a comparison, and the rounds until it closes.
#[derive(Clone, Copy)]
pub struct Size {
    pub states: usize,
    pub rounds: usize,
}

impl Size {
    /// The size for the two models of a payload; a small one where a model is
    /// refused.
    pub fn of(payload: &[u8]) -> Size {
        Size::lawful(payload).unwrap_or(Size {
            states: 2,
            rounds: 1,
        })
    }

    fn lawful(payload: &[u8]) -> Option<Size> {
        let mut payload = Payload::new(payload);
        let first = load(&mut payload, false)?;
        let second = load(&mut payload, true)?;
        let mut rounds = Rounds::open(&first, &second);
        rounds.close();
        Some(Size {
            states: first.states.len() + second.states.len(),
            rounds: rounds.count(),
        })
    }
}
