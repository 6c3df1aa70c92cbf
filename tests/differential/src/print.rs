//! The printer of node tables.

use crate::table::{are_in_order, Node};
use crate::text::DEEPEST_LEVEL;

const LONGEST_TEXT: u64 = 4096;

/// What stands before, between and behind the arguments of a node.
fn spelling(node: &Node) -> Vec<String> {
    let pieces: &[&str] = match node.code {
        0 => &["T"],
        1 => return vec![format!("q{}", node.a)],
        2 => &["!", ""],
        3 => &["(", "&", ")"],
        4 => &["(", "|", ")"],
        5 => &["EX ", ""],
        6 => &["AX ", ""],
        7 => &["EF ", ""],
        8 => &["AF ", ""],
        9 => &["EG ", ""],
        10 => &["AG ", ""],
        11 => &["E[", " U ", "]"],
        _ => &["A[", " U ", "]"],
    };
    pieces.iter().map(|piece| piece.to_string()).collect()
}

/// The length of a node's text and the levels of its formula, as far as they
/// can be counted.
#[derive(Clone, Copy)]
struct Size {
    length: u64,
    levels: usize,
}

fn sizes(nodes: &[Node]) -> Vec<Size> {
    let mut sizes: Vec<Size> = Vec::new();
    for node in nodes {
        let own: usize = spelling(node).iter().map(String::len).sum();
        let mut size = Size {
            length: own as u64,
            levels: 1,
        };
        for part in node.parts() {
            size.length = size.length.saturating_add(sizes[part].length);
            size.levels = size.levels.max(1 + sizes[part].levels);
        }
        sizes.push(size);
    }
    sizes
}

fn write(nodes: &[Node], number: usize, text: &mut String) {
    let node = &nodes[number];
    let pieces = spelling(node);
    text.push_str(&pieces[0]);
    for (part, piece) in node.parts().into_iter().zip(&pieces[1..]) {
        write(nodes, part, text);
        text.push_str(piece);
    }
}

/// The text of a table's root, if there is one within the limits.
pub fn print(nodes: &[Node], questions: usize) -> Option<String> {
    if !(1..=32).contains(&questions) || !are_in_order(nodes, questions) {
        return None;
    }
    let size = *sizes(nodes).last()?;
    if size.levels > DEEPEST_LEVEL || size.length > LONGEST_TEXT {
        return None;
    }
    let mut text = String::new();
    write(nodes, nodes.len() - 1, &mut text);
    Some(text)
}

#[cfg(test)]
mod tests {
    use super::*;
    use crate::text::read;

    #[test]
    fn the_examples_are_printed_as_they_stand() {
        for text in ["EX (q0&!q1)", "E[q0 U (q1&!q2)]", "AG (q0|EF q2)"] {
            let table = read(text.as_bytes(), 3, 20).unwrap();
            assert_eq!(print(&table, 3).as_deref(), Some(text));
        }
    }
}
