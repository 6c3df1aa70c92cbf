//! Formula texts, lawful and damaged.

use crate::rng::Rng;

const LONGEST: usize = 4096;

struct Writer<'a> {
    rng: &'a mut Rng,
    questions: usize,
    /// How many of a hundred places between tokens have spaces.
    spaces: usize,
    text: Vec<u8>,
}

impl Writer<'_> {
    fn space(&mut self) {
        while self.rng.chance(self.spaces) {
            self.text.push(b' ');
        }
    }

    fn token(&mut self, token: &str) {
        self.space();
        self.text.extend(token.as_bytes());
        self.space();
    }

    fn leaf(&mut self) {
        if self.rng.chance(20) {
            self.token("T");
        } else {
            let number = self.rng.below(self.questions);
            self.token(&format!("q{number}"));
        }
    }

    fn unary(&mut self) {
        let operator = self
            .rng
            .pick(&["!", "!", "EX", "AX", "EF", "AF", "EG", "AG"]);
        self.token(operator);
    }

    /// A formula of exactly so many nodes, as flat as it can be.
    fn formula(&mut self, nodes: usize) {
        match nodes {
            0 | 1 => self.leaf(),
            2 => {
                self.unary();
                self.formula(1);
            }
            _ if self.rng.chance(25) => {
                self.unary();
                self.formula(nodes - 1);
            }
            _ => {
                let left = self.split(nodes - 1);
                self.binary(left, nodes - 1 - left);
            }
        }
    }

    fn split(&mut self, nodes: usize) -> usize {
        if nodes > 60 {
            nodes / 2
        } else {
            self.rng.between(1, nodes - 1)
        }
    }

    fn binary(&mut self, left: usize, right: usize) {
        let pieces = self.rng.pick(&[
            ["", "(", "&", ")"],
            ["", "(", "|", ")"],
            ["E", "[", "U", "]"],
            ["A", "[", "U", "]"],
        ]);
        for token in &pieces[..2] {
            self.token(token);
        }
        self.formula(left);
        self.token(pieces[2]);
        self.formula(right);
        self.token(pieces[3]);
    }
}

fn writer(rng: &mut Rng, questions: usize) -> Writer<'_> {
    let spaces = rng.pick(&[0, 0, 10, 40]);
    Writer {
        rng,
        questions: questions.clamp(1, 32),
        spaces,
        text: Vec::new(),
    }
}

/// The text of a formula of some nodes.
pub fn formula(rng: &mut Rng, questions: usize) -> Vec<u8> {
    let nodes = if rng.chance(10) {
        rng.between(20, 120)
    } else {
        rng.between(1, 15)
    };
    let mut writer = writer(rng, questions);
    writer.formula(nodes);
    writer.text
}

/// A formula of so many nodes within the longest text.
fn many_nodes(rng: &mut Rng, nodes: usize) -> Vec<u8> {
    let mut text = Vec::new();
    flat(rng, nodes, &mut text);
    text
}

fn flat(rng: &mut Rng, nodes: usize, text: &mut Vec<u8>) {
    if nodes <= 1 {
        text.push(b'T');
    } else if nodes == 2 || rng.chance(3) {
        text.push(b'!');
        flat(rng, nodes - 1, text);
    } else {
        text.push(b'(');
        flat(rng, (nodes - 1) / 2, text);
        text.push(rng.pick(b"&|"));
        flat(rng, nodes - 1 - (nodes - 1) / 2, text);
        text.push(b')');
    }
}

/// Something at a level near the deepest.
fn near_deepest(rng: &mut Rng, questions: usize) -> Vec<u8> {
    let mut text = Vec::new();
    let mut tail = Vec::new();
    let unary = rng.chance(50);
    for _ in 0..rng.between(61, 66) {
        match if unary { 0 } else { rng.below(5) } {
            0..=2 => {
                let operator = rng.pick(&["!", "EX ", "AG", "EF"]);
                text.extend(operator.as_bytes());
            }
            3 => {
                text.extend(rng.pick(&["(", "(T&", "(q0|"]).as_bytes());
                let open = text.ends_with(b"(");
                tail.push(if open { "&T)" } else { ")" });
            }
            _ => {
                text.extend(b"E[");
                tail.push(" U T]");
            }
        }
    }
    let q = |number: usize| format!("q{number}").into_bytes();
    let inner = match rng.below(8) {
        0 => Vec::new(),
        1 => b")".to_vec(),
        2 => q(questions.min(99)),
        3 => q(questions.clamp(1, 32) - 1),
        4 => b"(T&T)".to_vec(),
        5 => b"A[T U q0]".to_vec(),
        _ => b"T".to_vec(),
    };
    text.extend(inner);
    if rng.chance(90) {
        text.extend(tail.iter().rev().flat_map(|piece| piece.bytes()));
    }
    text
}

/// Fills a text up to a length near the longest, by spaces where they do not
/// part a token.
fn filled(rng: &mut Rng, text: &[u8]) -> Vec<u8> {
    let length = rng.between(LONGEST - 1, LONGEST + 1);
    if text.len() > length {
        return text.to_vec();
    }
    let missing = length - text.len();
    let front = rng.pick(&[0, missing, missing / 2]);
    [
        vec![b' '; front],
        text.to_vec(),
        vec![b' '; missing - front],
    ]
    .concat()
}

const PIECES: [&str; 34] = [
    "T", "!", "&", "|", "(", ")", "[", "]", "U", "EX", "AX", "EF", "AF", "EG", "AG", "E", "A", "X",
    "F", "G", "q", "q0", "q1", "q9", "q31", "q32", "q99", "q100", "q05", "0", " ", "\t", "\n", "x",
];

fn soup(rng: &mut Rng) -> Vec<u8> {
    let count = rng.below(12);
    (0..count).flat_map(|_| rng.pick(&PIECES).bytes()).collect()
}

fn damage(rng: &mut Rng, text: &mut Vec<u8>) {
    let at = rng.below(text.len() + 1);
    let within = at.min(text.len().saturating_sub(1));
    match rng.below(7) {
        _ if text.is_empty() => text.push(rng.byte()),
        0 => text.truncate(at),
        1 | 2 => {
            text.remove(within);
        }
        3 => text[within] = rng.pick(b"T!&|()[]UEAXFGq0123456789 \0\t\n\r\xffxtue"),
        4 => text[within] = rng.byte(),
        _ => {
            let piece = rng.pick(&PIECES);
            text.splice(at..at, piece.bytes());
        }
    }
}

/// A text for the reader, lawful in about half of the cases.
pub fn text(rng: &mut Rng, questions: usize) -> Vec<u8> {
    let mut text = match rng.below(40) {
        0..=2 => soup(rng),
        3..=8 => near_deepest(rng, questions),
        9 | 10 => {
            let text = formula(rng, questions);
            filled(rng, &text)
        }
        11 => {
            let nodes = rng.between(2043, 2047);
            many_nodes(rng, nodes)
        }
        12 if rng.chance(50) => {
            let nodes = rng.between(1800, 2047);
            let text = many_nodes(rng, nodes);
            filled(rng, &text)
        }
        13..=15 => formula(rng, 32),
        _ => formula(rng, questions),
    };
    if rng.chance(30) {
        for _ in 0..rng.pick(&[1, 1, 2, 3]) {
            damage(rng, &mut text);
        }
    }
    text
}
