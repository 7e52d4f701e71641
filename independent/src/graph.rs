//! The graph of a log, and components by walking from code to code.

use crate::log::Episode;
use std::collections::BTreeSet;

/// A log is the set of its episodes: how often one occurs does not matter to the tree.
pub type Log = BTreeSet<Episode>;
pub type Codes = BTreeSet<u8>;

#[derive(Clone, Debug, Default, PartialEq, Eq)]
pub struct Graph {
    pub codes: Codes,
    pub edges: BTreeSet<(u8, u8)>,
    pub starts: Codes,
    pub ends: Codes,
}

impl Graph {
    pub fn of(log: &Log) -> Graph {
        let mut graph = Graph::default();
        for episode in log {
            graph.codes.extend(episode);
            graph.starts.extend(episode.first());
            graph.ends.extend(episode.last());
            graph.edges.extend(episode.windows(2).map(|pair| (pair[0], pair[1])));
        }
        graph
    }

    pub fn has(&self, a: u8, b: u8) -> bool {
        self.edges.contains(&(a, b))
    }

    pub fn either_way(&self, a: u8, b: u8) -> bool {
        self.has(a, b) || self.has(b, a)
    }

    /// The codes at the end of a chain of one edge or more from `a`.
    pub fn reached_from(&self, a: u8) -> Codes {
        let mut reached = Codes::new();
        let mut waiting = vec![a];
        while let Some(from) = waiting.pop() {
            for &to in &self.codes {
                if self.has(from, to) && reached.insert(to) {
                    waiting.push(to);
                }
            }
        }
        reached
    }
}

/// The components of `codes` under a symmetric relation, by their smallest code.
pub fn components(codes: &Codes, joined: impl Fn(u8, u8) -> bool) -> Vec<Codes> {
    let mut left = codes.clone();
    let mut parts = Vec::new();
    while let Some(first) = left.pop_first() {
        let mut part = Codes::from([first]);
        let mut waiting = vec![first];
        while let Some(from) = waiting.pop() {
            let next: Vec<u8> = left.iter().copied().filter(|&to| joined(from, to)).collect();
            for to in next {
                left.remove(&to);
                part.insert(to);
                waiting.push(to);
            }
        }
        parts.push(part);
    }
    parts
}
