//! From log to tree: base cases, flower, and a cut whose parts' logs are copied out and mined in turn.

use crate::cuts::first_cut;
use crate::graph::{Codes, Graph, Log};
use crate::log::Episode;
use crate::tree::{Operator, Tree};

/// The tree of a log with at least one episode.
pub fn mine(log: &Log) -> Tree {
    if let Some(base) = base_case(log) {
        return base;
    }
    let graph = Graph::of(log);
    if log.contains(&Episode::new()) {
        return Tree::flower(&graph.codes);
    }
    match first_cut(&graph) {
        None => Tree::flower(&graph.codes),
        Some((operator, parts)) => {
            let children = parts.iter().map(|part| mine(&split(operator, part, log)));
            Tree::Node(operator, children.collect())
        }
    }
}

fn base_case(log: &Log) -> Option<Tree> {
    if log.len() != 1 {
        return None;
    }
    match log.first()?.as_slice() {
        [] => Some(Tree::Silent),
        [code] => Some(Tree::Activity(*code)),
        _ => None,
    }
}

/// The log of one part.
pub fn split(operator: Operator, part: &Codes, log: &Log) -> Log {
    match operator {
        Operator::Choice => log.iter().filter(|e| e.iter().all(|code| part.contains(code))).cloned().collect(),
        Operator::Sequence | Operator::Parallel => log.iter().map(|episode| projection(part, episode)).collect(),
        Operator::Loop => log.iter().flat_map(|episode| runs(part, episode)).collect(),
    }
}

fn projection(part: &Codes, episode: &Episode) -> Episode {
    episode.iter().copied().filter(|code| part.contains(code)).collect()
}

/// The longest unbroken runs of the part's codes; a run has at least one event.
fn runs(part: &Codes, episode: &Episode) -> Vec<Episode> {
    let pieces = episode.split(|code| !part.contains(code));
    pieces.filter(|run| !run.is_empty()).map(<[u8]>::to_vec).collect()
}
