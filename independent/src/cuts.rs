//! The four cuts of a graph, in the order in which they are tried.

use crate::graph::{components, Codes, Graph};
use crate::tree::Operator;
use std::collections::BTreeMap;

pub type Parts = Vec<Codes>;

const ORDER: [Operator; 4] = [Operator::Choice, Operator::Sequence, Operator::Parallel, Operator::Loop];

/// The first cut of two parts or more.
pub fn first_cut(graph: &Graph) -> Option<(Operator, Parts)> {
    ORDER.into_iter().map(|operator| (operator, parts_for(operator, graph))).find(|(_, parts)| parts.len() >= 2)
}

/// The operator's parts; no cut where these are fewer than two.
pub fn parts_for(operator: Operator, graph: &Graph) -> Parts {
    match operator {
        Operator::Choice => choice(graph),
        Operator::Sequence => sequence(graph),
        Operator::Parallel => parallel(graph),
        Operator::Loop => redo(graph),
    }
}

fn choice(graph: &Graph) -> Parts {
    components(&graph.codes, |a, b| graph.either_way(a, b))
}

fn sequence(graph: &Graph) -> Parts {
    let reached: BTreeMap<u8, Codes> = graph.codes.iter().map(|&a| (a, graph.reached_from(a))).collect();
    let reaches = |a: u8, b: u8| reached[&a].contains(&b);
    let groups = components(&graph.codes, |a, b| reaches(a, b) == reaches(b, a));
    // Between two groups reach goes one way only, so a group's place is the number of groups that reach it.
    let reaches_group = |from: &Codes, to: &Codes| from.iter().any(|&a| to.iter().any(|&b| reaches(a, b)));
    let place = |group: &Codes| groups.iter().filter(|&other| other != group && reaches_group(other, group)).count();
    let mut parts = groups.clone();
    parts.sort_by_key(place);
    parts
}

/// The components of the parallel rule: two different codes are joined unless both edges between them exist.
pub fn parallel_components(graph: &Graph) -> Parts {
    components(&graph.codes, |a, b| !(graph.has(a, b) && graph.has(b, a)))
}

/// The parallel cut. A component with a start and an end is a part of its own, the i-th with only starts is one with the i-th
/// with only ends, and all that remain join the part with the smallest code.
fn parallel(graph: &Graph) -> Parts {
    let found = parallel_components(graph);
    let with = |start: bool, end: bool| {
        let has = |part: &&Codes| part.is_disjoint(&graph.starts) != start && part.is_disjoint(&graph.ends) != end;
        found.iter().filter(has).cloned().collect::<Parts>()
    };
    let pairs = with(true, false).into_iter().zip(with(false, true)).map(|(starts, ends)| &starts | &ends);
    let mut parts: Parts = with(true, true).into_iter().chain(pairs).collect();
    parts.sort_by_key(|part| part.first().copied());
    let placed: Codes = parts.iter().flatten().copied().collect();
    // What joins the first part can only make its smallest code smaller, so it stays the first.
    if let Some(first) = parts.first_mut() {
        first.extend(&graph.codes - &placed);
    }
    parts
}

/// The loop cut: the body first, then the redo parts by their smallest code.
fn redo(graph: &Graph) -> Parts {
    let outer: Codes = graph.starts.union(&graph.ends).copied().collect();
    let inner: Codes = graph.codes.difference(&outer).copied().collect();
    let mut body = outer.clone();
    let mut redos = vec![];
    for part in components(&inner, |a, b| graph.either_way(a, b)) {
        if is_redo(graph, &outer, &part) {
            redos.push(part);
        } else {
            body.extend(part);
        }
    }
    std::iter::once(body).chain(redos).collect()
}

/// `outer` are the starts and ends together.
fn is_redo(graph: &Graph, outer: &Codes, part: &Codes) -> bool {
    part.iter().all(|&code| {
        let leaves_an_end = outer.iter().all(|&o| !graph.has(o, code) || graph.ends.contains(&o));
        let reaches_a_start = outer.iter().all(|&o| !graph.has(code, o) || graph.starts.contains(&o));
        let goes_back = outer.iter().any(|&o| graph.has(code, o));
        let goes_back_to_all = graph.starts.iter().all(|&start| graph.has(code, start));
        let comes_in = outer.iter().any(|&o| graph.has(o, code));
        let comes_in_from_all = graph.ends.iter().all(|&end| graph.has(end, code));
        leaves_an_end && reaches_a_start && (!goes_back || goes_back_to_all) && (!comes_in || comes_in_from_all)
    })
}
