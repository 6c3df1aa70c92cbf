//! Stored images: every breach is listed, and the first in order is told.

use crate::model::{Kind, Model, State};
use crate::refusal::{refuse_first, Breach, Refusal};

const HEADER: usize = 8;
const STATE_RECORD: usize = 8;
const LINK_RECORD: usize = 4;
const LONGEST_CHAIN: usize = 16;

/// The bytes of an image; past their end they read as 0.
struct Image<'a> {
    bytes: &'a [u8],
}

impl Image<'_> {
    fn byte(&self, at: usize) -> u8 {
        self.bytes.get(at).copied().unwrap_or(0)
    }

    fn two(&self, at: usize) -> usize {
        usize::from(u16::from_le_bytes([self.byte(at), self.byte(at + 1)]))
    }

    fn label(&self, at: usize) -> [u8; 4] {
        [
            self.byte(at),
            self.byte(at + 1),
            self.byte(at + 2),
            self.byte(at + 3),
        ]
    }

    fn states(&self) -> usize {
        self.two(2)
    }

    fn links(&self) -> usize {
        self.two(4)
    }

    fn initial(&self) -> usize {
        self.two(6)
    }

    fn length_asked(&self) -> usize {
        HEADER + STATE_RECORD * self.states() + LINK_RECORD * self.links()
    }

    fn state_record(&self, state: usize) -> usize {
        HEADER + STATE_RECORD * state
    }

    fn link_record(&self, link: usize) -> usize {
        HEADER + STATE_RECORD * self.states() + LINK_RECORD * (link - 1)
    }

    fn first_link(&self, state: usize) -> usize {
        self.two(self.state_record(state) + 4)
    }

    fn target(&self, link: usize) -> usize {
        self.two(self.link_record(link))
    }

    fn next(&self, link: usize) -> usize {
        self.two(self.link_record(link) + 2)
    }

    /// The links of a state's chain; of a chain that is too long one link
    /// more than are allowed.
    fn chain(&self, state: usize) -> Vec<usize> {
        let mut links = Vec::new();
        let mut link = self.first_link(state);
        while link != 0 && links.len() <= LONGEST_CHAIN {
            links.push(link);
            link = self.next(link);
        }
        links
    }

    fn header_breaches(&self, kind: Kind) -> Vec<Breach> {
        let mut breaches = Vec::new();
        if self.bytes.len() < HEADER {
            breaches.push((1, self.bytes.len()));
        }
        if self.byte(0) != kind.byte() {
            breaches.push((2, 0));
        }
        if self.byte(1) != 0 {
            breaches.push((2, 1));
        }
        if !(1..=256).contains(&self.states()) {
            breaches.push((2, 2));
        }
        if !(1..=4096).contains(&self.links()) {
            breaches.push((2, 4));
        }
        if self.initial() >= self.states() {
            breaches.push((2, 6));
        }
        if self.bytes.len() != self.length_asked() {
            breaches.push((3, self.length_asked()));
        }
        breaches
    }

    fn state_breaches(&self, kind: Kind, state: usize) -> Vec<Breach> {
        let at = self.state_record(state);
        let mut breaches = Vec::new();
        let first = self.first_link(state);
        if kind.answers(self.label(at)).is_none()
            || first == 0
            || first > self.links()
            || self.two(at + 6) != 0
        {
            breaches.push((4, at));
        }
        if self.chain(state).len() > LONGEST_CHAIN {
            breaches.push((6, at));
        }
        breaches
    }

    fn link_breaches(&self, link: usize) -> Vec<Breach> {
        let wrong = self.target(link) >= self.states() || self.next(link) > self.links();
        if wrong {
            vec![(5, self.link_record(link))]
        } else {
            Vec::new()
        }
    }

    fn breaches(&self, kind: Kind) -> Vec<Breach> {
        let mut breaches = self.header_breaches(kind);
        breaches.extend((0..self.states()).flat_map(|s| self.state_breaches(kind, s)));
        breaches.extend((1..=self.links()).flat_map(|l| self.link_breaches(l)));
        breaches
    }

    fn state(&self, kind: Kind, state: usize) -> State {
        let label = self.label(self.state_record(state));
        State {
            answers: kind.answers(label).expect("the label is in order"),
            successors: self
                .chain(state)
                .into_iter()
                .map(|l| self.target(l))
                .collect(),
        }
    }
}

/// The model of an image held as labels of `kind`, or its first breach.
pub fn load(bytes: &[u8], kind: Kind, layer: u8) -> Result<Model, Refusal> {
    let image = Image { bytes };
    refuse_first(image.breaches(kind), layer)?;
    let states = (0..image.states()).map(|s| image.state(kind, s)).collect();
    Ok(Model {
        kind,
        initial: image.initial(),
        states,
    })
}

/// The length that the header at the front of an input asks for.
pub fn length_asked(bytes: &[u8]) -> usize {
    Image { bytes }.length_asked()
}

#[cfg(test)]
mod tests {
    use super::*;
    use crate::refusal::{FIRST_IMAGE, SECOND_IMAGE};

    const SMALLEST: [u8; 20] = [1, 0, 1, 0, 1, 0, 0, 0, 0, 0, 0, 0, 1, 0, 0, 0, 0, 0, 0, 0];

    #[test]
    fn the_smallest_image() {
        let model = load(&SMALLEST, Kind::Words, FIRST_IMAGE).unwrap();
        assert_eq!(model.initial, 0);
        assert_eq!(
            model.states,
            [State {
                answers: vec![false; 32],
                successors: vec![0]
            }]
        );
    }

    #[test]
    fn the_first_breach_is_told() {
        let told = |bytes: &[u8]| {
            load(bytes, Kind::Words, SECOND_IMAGE)
                .unwrap_err()
                .to_string()
        };
        assert_eq!(told(&[]), "refused 1 2 0");
        assert_eq!(told(&SMALLEST[..19]), "refused 3 2 20");
        let mut cyclic = SMALLEST;
        cyclic[18] = 1;
        assert_eq!(told(&cyclic), "refused 6 2 8");
        cyclic[16] = 1;
        assert_eq!(told(&cyclic), "refused 5 2 16");
        cyclic[15] = 1;
        assert_eq!(told(&cyclic), "refused 4 2 8");
        cyclic[0] = 2;
        assert_eq!(told(&cyclic), "refused 2 2 0");
    }
}
