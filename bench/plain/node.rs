//! Formulas as tables of nodes, subformulas before what is made of them, the root last.

/// The operators, each at the place of its code.
#[derive(Clone, Copy, PartialEq)]
pub enum Operator {
    True,
    Question,
    Not,
    And,
    Or,
    EX,
    AX,
    EF,
    AF,
    EG,
    AG,
    EU,
    AU,
}

/// An operator and the question or the nodes that it is applied to.
#[derive(Clone, Copy)]
pub struct Node {
    pub operator: Operator,
    pub a: usize,
    pub b: usize,
}

impl Node {
    pub fn new(operator: Operator, a: usize, b: usize) -> Node {
        Node { operator, a, b }
    }
}
