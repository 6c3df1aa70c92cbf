//! What a model means: its states, their answers and successors.

/// A label kind, by the number that it has in an image.
#[derive(Clone, Copy, Debug, PartialEq, Eq)]
pub enum Kind {
    Words,
    Readings,
}

impl Kind {
    pub fn from_byte(byte: u8) -> Option<Kind> {
        match byte {
            1 => Some(Kind::Words),
            2 => Some(Kind::Readings),
            _ => None,
        }
    }

    pub fn byte(self) -> u8 {
        match self {
            Kind::Words => 1,
            Kind::Readings => 2,
        }
    }

    pub fn questions(self) -> usize {
        match self {
            Kind::Words => 32,
            Kind::Readings => 3,
        }
    }

    /// The answers of a label, if the four bytes code one.
    pub fn answers(self, label: [u8; 4]) -> Option<Vec<bool>> {
        match self {
            Kind::Words => {
                let word = u32::from_le_bytes(label);
                Some((0..32).map(|i| word >> i & 1 == 1).collect())
            }
            Kind::Readings => {
                let [level, fault, pre_alarm, alarm] = label;
                let rising = fault < pre_alarm && pre_alarm < alarm;
                rising.then(|| vec![level <= fault, level >= pre_alarm, level >= alarm])
            }
        }
    }
}

#[derive(Clone, Debug, PartialEq, Eq)]
pub struct State {
    pub answers: Vec<bool>,
    pub successors: Vec<usize>,
}

#[derive(Clone, Debug, PartialEq, Eq)]
pub struct Model {
    pub kind: Kind,
    pub initial: usize,
    pub states: Vec<State>,
}

impl Model {
    pub fn questions(&self) -> usize {
        self.kind.questions()
    }
}
