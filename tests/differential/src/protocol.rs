//! The jobs of the program `probe`, in bytes.

use crate::image;
use crate::law::Request;
use crate::model::{Kind, Model};
use crate::refusal::{Refusal, FIRST_IMAGE, SECOND_IMAGE};
use crate::rules::{self, Rule};
use crate::table::Node;

#[derive(Clone, Debug)]
pub struct Job {
    pub tag: u8,
    pub payload: Vec<u8>,
}

impl Job {
    pub fn bytes(&self) -> Vec<u8> {
        let mut bytes = vec![self.tag];
        bytes.extend((self.payload.len() as u32).to_le_bytes());
        bytes.extend(&self.payload);
        bytes
    }
}

/// A model as a payload has it.
pub enum Given<'a> {
    Image(Kind, &'a [u8]),
    Rules {
        bits: usize,
        initial: usize,
        rules: Vec<Rule>,
    },
}

impl Given<'_> {
    pub fn kind(&self) -> Kind {
        match self {
            Given::Image(kind, _) => *kind,
            Given::Rules { .. } => Kind::Words,
        }
    }

    pub fn load(&self, second: bool) -> Result<Model, Refusal> {
        match self {
            Given::Image(kind, bytes) => image::load(
                bytes,
                *kind,
                if second { SECOND_IMAGE } else { FIRST_IMAGE },
            ),
            Given::Rules {
                bits,
                initial,
                rules,
            } => rules::load(*bits, *initial, rules),
        }
    }
}

/// Reads a payload from its front; `None` where it does not parse.
pub struct Payload<'a> {
    rest: &'a [u8],
}

impl<'a> Payload<'a> {
    pub fn new(rest: &'a [u8]) -> Payload<'a> {
        Payload { rest }
    }

    fn take(&mut self, length: usize) -> Option<&'a [u8]> {
        if length > self.rest.len() {
            return None;
        }
        let (front, rest) = self.rest.split_at(length);
        self.rest = rest;
        Some(front)
    }

    pub fn rest(self) -> &'a [u8] {
        self.rest
    }

    pub fn byte(&mut self) -> Option<u8> {
        self.take(1).map(|bytes| bytes[0])
    }

    pub fn two(&mut self) -> Option<usize> {
        self.take(2).map(two)
    }

    pub fn model(&mut self) -> Option<Given<'a>> {
        let kind = self.byte()?;
        let length = self.take(4)?;
        let length = u32::from_le_bytes(length.try_into().ok()?);
        let bytes = self.take(length as usize)?;
        if kind == 3 {
            let mut given = Payload::new(bytes);
            let (bits, initial) = (given.two()?, given.two()?);
            let rules = records::<4>(given.rest())?.map(Rule::from_bytes).collect();
            return Some(Given::Rules {
                bits,
                initial,
                rules,
            });
        }
        Kind::from_byte(kind).map(|kind| Given::Image(kind, bytes))
    }

    pub fn nodes(self) -> Option<Vec<Node>> {
        let node = |[code, a, b, c, d]: [u8; 5]| Node {
            code,
            a: u16::from_le_bytes([a, b]),
            b: u16::from_le_bytes([c, d]),
        };
        Some(records::<5>(self.rest)?.map(node).collect())
    }

    pub fn requests(self) -> Option<Vec<Request>> {
        let request = |[tag, low, high]: [u8; 3]| {
            let number = two(&[low, high]);
            match tag {
                0 => Some(Request::Round),
                1 => Some(Request::Class(number)),
                2 => Some(Request::Verdict),
                3 => Some(Request::Formula(number)),
                _ => None,
            }
        };
        records::<3>(self.rest)?.map(request).collect()
    }
}

fn two(bytes: &[u8]) -> usize {
    usize::from(u16::from_le_bytes([bytes[0], bytes[1]]))
}

fn records<const N: usize>(bytes: &[u8]) -> Option<impl Iterator<Item = [u8; N]> + '_> {
    let whole = bytes.len().is_multiple_of(N);
    whole.then(|| {
        bytes
            .chunks_exact(N)
            .map(|record| record.try_into().expect("N bytes"))
    })
}

/// Writes a number of at most two bytes.
pub fn put_two(payload: &mut Vec<u8>, number: usize) {
    payload.extend(
        u16::try_from(number)
            .expect("a number of two bytes")
            .to_le_bytes(),
    );
}

pub fn put_model(payload: &mut Vec<u8>, kind: u8, bytes: &[u8]) {
    payload.push(kind);
    payload.extend((bytes.len() as u32).to_le_bytes());
    payload.extend(bytes);
}

pub fn put_nodes(payload: &mut Vec<u8>, nodes: &[Node]) {
    for node in nodes {
        payload.push(node.code);
        payload.extend(node.a.to_le_bytes());
        payload.extend(node.b.to_le_bytes());
    }
}

pub fn put_requests(payload: &mut Vec<u8>, requests: &[Request]) {
    for request in requests {
        let (tag, number) = match *request {
            Request::Round => (0, 0),
            Request::Class(number) => (1, number),
            Request::Verdict => (2, 0),
            Request::Formula(places) => (3, places),
        };
        payload.push(tag);
        put_two(payload, number);
    }
}
