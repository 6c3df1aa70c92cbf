//! The text of a report.

use crate::refusal::{Refusal, REPORT};
use crate::table::{Node, MOST_NODES};

pub enum Report {
    Alike { rounds: usize },
    Different { rounds: usize, nodes: Vec<Node> },
}

fn text(report: &Report) -> String {
    match report {
        Report::Alike { rounds } => format!("alike {rounds}\n"),
        Report::Different { rounds, nodes } => {
            let lines = nodes
                .iter()
                .enumerate()
                .map(|(i, node)| format!("{i} {node}\n"));
            format!("differ {rounds} {}\n", nodes.len()) + &lines.collect::<String>()
        }
    }
}

/// Writes a report into the front of some bytes.
pub fn write(report: &Report, bytes: &mut [u8]) -> Result<usize, Refusal> {
    let nodes = match report {
        Report::Alike { .. } => 0,
        Report::Different { nodes, .. } => nodes.len(),
    };
    let text = text(report);
    if nodes > MOST_NODES || bytes.len() < text.len() {
        return Err(Refusal {
            number: 22,
            layer: REPORT,
            place: 0,
        });
    }
    bytes[..text.len()].copy_from_slice(text.as_bytes());
    Ok(text.len())
}
