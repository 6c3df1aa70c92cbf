//! Rule models, expanded state by state.

use crate::model::{Kind, Model, State};
use crate::refusal::{refuse_first, Breach, Refusal, RULES};

#[derive(Clone, Copy, Debug)]
pub struct Rule {
    pub care: u8,
    pub need: u8,
    pub set: u8,
    pub clear: u8,
}

impl Rule {
    pub fn from_bytes([care, need, set, clear]: [u8; 4]) -> Rule {
        Rule {
            care,
            need,
            set,
            clear,
        }
    }

    fn is_lawful(&self, bits: usize) -> bool {
        let has = |byte: u8, bit: usize| byte >> bit & 1 == 1;
        (0..8).all(|bit| {
            let within = !has(self.need, bit) || has(self.care, bit);
            let apart = !(has(self.set, bit) && has(self.clear, bit));
            let any = [self.care, self.need, self.set, self.clear]
                .iter()
                .any(|&x| has(x, bit));
            within && apart && (bit < bits || !any)
        })
    }

    /// The successor that the rule gives in a state, if it applies there.
    fn step(&self, state: usize) -> Option<usize> {
        let state = u8::try_from(state).expect("a state has at most 8 bits");
        (state & self.care == self.need).then(|| usize::from(state & !self.clear | self.set))
    }
}

fn breaches(bits: usize, initial: usize, rules: &[Rule]) -> Vec<Breach> {
    let mut breaches = Vec::new();
    let limits = (1..=8).contains(&bits) && initial < 1 << bits && rules.len() <= 16;
    if !limits {
        breaches.push((7, 0));
    }
    for (number, rule) in rules.iter().enumerate() {
        if !rule.is_lawful(bits) {
            breaches.push((8, number));
        }
    }
    breaches
}

fn state(number: usize, rules: &[Rule]) -> State {
    let mut successors: Vec<usize> = rules.iter().filter_map(|rule| rule.step(number)).collect();
    if successors.is_empty() {
        successors.push(number);
    }
    State {
        answers: (0..32).map(|i| number >> i & 1 == 1).collect(),
        successors,
    }
}

pub fn load(bits: usize, initial: usize, rules: &[Rule]) -> Result<Model, Refusal> {
    refuse_first(breaches(bits, initial, rules), RULES)?;
    let states = (0..1 << bits).map(|number| state(number, rules)).collect();
    Ok(Model {
        kind: Kind::Words,
        initial,
        states,
    })
}

#[cfg(test)]
mod tests {
    use super::*;

    #[test]
    fn the_example_of_the_guide() {
        let rules = [[3, 0, 1, 0], [1, 1, 2, 1]].map(Rule::from_bytes);
        let model = load(2, 0, &rules).unwrap();
        let successors: Vec<_> = model.states.iter().map(|s| s.successors.clone()).collect();
        assert_eq!(successors, [[1], [2], [2], [2]]);
    }
}
