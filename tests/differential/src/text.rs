//! The reader of formula texts.

use crate::refusal::{Breach, Refusal, TEXT};
use crate::table::{Node, MOST_NODES};

const LONGEST_TEXT: usize = 4096;
pub const DEEPEST_LEVEL: usize = 64;

#[derive(Clone, Copy, Debug, PartialEq, Eq)]
enum Token {
    /// One of the nine signs of one byte.
    Sign(u8),
    /// An operator of two signs.
    Path(u8, u8),
    /// `E` or `A` alone.
    Quantifier(u8),
    Question(usize),
    Other,
    End,
}

#[derive(Clone, Copy, Debug)]
struct Placed {
    token: Token,
    offset: usize,
}

/// The token at the front of a text, which is not a space, and its length.
fn front(text: &[u8]) -> (Token, usize) {
    let digit = |at: usize| {
        text.get(at)
            .filter(|b| b.is_ascii_digit())
            .map(|b| usize::from(b - b'0'))
    };
    match text[0] {
        sign @ (b'T' | b'!' | b'&' | b'|' | b'(' | b')' | b'[' | b']' | b'U') => {
            (Token::Sign(sign), 1)
        }
        quantifier @ (b'E' | b'A') => match text.get(1) {
            Some(&way @ (b'X' | b'F' | b'G')) => (Token::Path(quantifier, way), 2),
            _ => (Token::Quantifier(quantifier), 1),
        },
        b'q' => match (digit(1), digit(2)) {
            (None, _) => (Token::Other, 1),
            (Some(0), _) => (Token::Question(0), 2),
            (Some(tens), Some(ones)) => (Token::Question(10 * tens + ones), 3),
            (Some(ones), None) => (Token::Question(ones), 2),
        },
        _ => (Token::Other, 1),
    }
}

fn tokens(text: &[u8]) -> Vec<Placed> {
    let mut tokens = Vec::new();
    let mut offset = 0;
    while offset < text.len() {
        if text[offset] == b' ' {
            offset += 1;
        } else {
            let (token, length) = front(&text[offset..]);
            tokens.push(Placed { token, offset });
            offset += length;
        }
    }
    tokens.push(Placed {
        token: Token::End,
        offset,
    });
    tokens
}

/// Reads the tokens from the left, one level of recursion a level of the
/// formula, and stops at the first breach.
struct Parser {
    tokens: Vec<Placed>,
    at: usize,
    questions: usize,
    nodes: Vec<Node>,
}

impl Parser {
    fn take(&mut self) -> Placed {
        let placed = self.tokens[self.at];
        self.at += 1;
        placed
    }

    fn expect(&mut self, wanted: Token) -> Result<(), Breach> {
        let placed = self.take();
        if placed.token == wanted {
            Ok(())
        } else {
            Err((10, placed.offset))
        }
    }

    fn push(&mut self, code: u8, a: usize, b: usize) -> usize {
        self.nodes.push(Node::new(code, a, b));
        self.nodes.len() - 1
    }

    fn formula(&mut self, level: usize) -> Result<usize, Breach> {
        let Placed { token, offset } = self.take();
        match token {
            Token::Sign(b'T' | b'!' | b'(') | Token::Path(..) | Token::Quantifier(_) => {}
            Token::Question(number) => {
                if number >= self.questions {
                    return Err((11, offset));
                }
            }
            Token::Sign(_) | Token::Other | Token::End => return Err((10, offset)),
        }
        if level > DEEPEST_LEVEL {
            return Err((12, offset));
        }
        match token {
            Token::Sign(b'T') => Ok(self.push(0, 0, 0)),
            Token::Question(number) => Ok(self.push(1, number, 0)),
            Token::Sign(b'!') => self.unary(2, level),
            Token::Path(quantifier, way) => self.unary(path_code(quantifier, way), level),
            Token::Quantifier(quantifier) => self.until(quantifier, level),
            _ => self.bracketed(level),
        }
    }

    fn unary(&mut self, code: u8, level: usize) -> Result<usize, Breach> {
        let a = self.formula(level + 1)?;
        Ok(self.push(code, a, 0))
    }

    fn until(&mut self, quantifier: u8, level: usize) -> Result<usize, Breach> {
        self.expect(Token::Sign(b'['))?;
        let a = self.formula(level + 1)?;
        self.expect(Token::Sign(b'U'))?;
        let b = self.formula(level + 1)?;
        self.expect(Token::Sign(b']'))?;
        Ok(self.push(if quantifier == b'E' { 11 } else { 12 }, a, b))
    }

    fn bracketed(&mut self, level: usize) -> Result<usize, Breach> {
        let a = self.formula(level + 1)?;
        let sign = self.take();
        let code = match sign.token {
            Token::Sign(b'&') => 3,
            Token::Sign(b'|') => 4,
            _ => return Err((10, sign.offset)),
        };
        let b = self.formula(level + 1)?;
        self.expect(Token::Sign(b')'))?;
        Ok(self.push(code, a, b))
    }
}

fn path_code(quantifier: u8, way: u8) -> u8 {
    match (quantifier, way) {
        (b'E', b'X') => 5,
        (_, b'X') => 6,
        (b'E', b'F') => 7,
        (_, b'F') => 8,
        (b'E', _) => 9,
        _ => 10,
    }
}

fn parse(text: &[u8], questions: usize, places: usize) -> Result<Vec<Node>, Breach> {
    if text.len() > LONGEST_TEXT || !(1..=32).contains(&questions) {
        return Err((9, 0));
    }
    let mut parser = Parser {
        tokens: tokens(text),
        at: 0,
        questions,
        nodes: Vec::new(),
    };
    parser.formula(1)?;
    parser.expect(Token::End)?;
    let count = parser.nodes.len();
    if count > places || count > MOST_NODES {
        return Err((13, count));
    }
    Ok(parser.nodes)
}

/// The table of a formula text, for so many places.
pub fn read(text: &[u8], questions: usize, places: usize) -> Result<Vec<Node>, Refusal> {
    parse(text, questions, places).map_err(|(number, place)| Refusal {
        number,
        layer: TEXT,
        place,
    })
}

#[cfg(test)]
mod tests {
    use super::*;

    fn told(text: &str, questions: usize) -> String {
        match read(text.as_bytes(), questions, 100) {
            Ok(nodes) => format!("{} nodes", nodes.len()),
            Err(refusal) => format!("{} at {}", refusal.number, refusal.place),
        }
    }

    #[test]
    fn the_examples_of_the_grammar() {
        assert_eq!(told("AG (q0|EF q2)", 3), "5 nodes");
        assert_eq!(told("E [T U T]", 1), "3 nodes");
        assert_eq!(told("( T & T )", 1), "3 nodes");
        assert_eq!(told("EXT", 1), "2 nodes");
        assert_eq!(told("E X T", 1), "10 at 2");
        assert_eq!(told("q05", 32), "10 at 2");
        assert_eq!(told("q123", 32), "10 at 3");
        assert_eq!(told("q", 32), "10 at 0");
        assert_eq!(told("q32", 32), "11 at 0");
        assert_eq!(told("q31", 32), "1 nodes");
        assert_eq!(told("", 1), "10 at 0");
        assert_eq!(told("   ", 1), "10 at 3");
        assert_eq!(told("T x", 1), "10 at 2");
    }

    #[test]
    fn the_deepest_level() {
        let deep = |signs: usize, tail: &str| "!".repeat(signs) + tail;
        assert_eq!(told(&deep(63, "T"), 1), "64 nodes");
        assert_eq!(told(&deep(64, "T"), 1), "12 at 64");
        assert_eq!(told(&deep(64, ")"), 1), "10 at 64");
        assert_eq!(told(&deep(64, ""), 1), "10 at 64");
        assert_eq!(told(&deep(64, "q7"), 7), "11 at 64");
        assert_eq!(told(&deep(64, "q7"), 8), "12 at 64");
    }

    #[test]
    fn the_table_is_in_reading_order() {
        let table = read(b"AG (q0|EF q2)", 3, 5).unwrap();
        let lines: Vec<String> = table.iter().map(Node::to_string).collect();
        assert_eq!(lines, ["1 0 0", "1 2 0", "7 1 0", "4 0 2", "10 3 0"]);
    }
}
