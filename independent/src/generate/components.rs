//! Logs whose graph has the parallel components that were asked for, each with starts, ends, both or neither.

use super::random::Random;
use crate::cuts::parallel_components;
use crate::graph::{Codes, Graph};
use crate::log::Episode;

type Edges = Vec<(u8, u8)>;

/// What a component has.
#[derive(Clone, Copy, Debug, PartialEq, Eq)]
pub enum Has {
    Both,
    Starts,
    Ends,
    Neither,
}

pub const KINDS: [Has; 4] = [Has::Both, Has::Starts, Has::Ends, Has::Neither];

impl Has {
    fn starts(self) -> bool {
        matches!(self, Has::Both | Has::Starts)
    }

    fn ends(self) -> bool {
        matches!(self, Has::Both | Has::Ends)
    }
}

#[derive(Clone, Debug)]
pub struct Component {
    pub has: Has,
    pub codes: Vec<u8>,
}

/// Some log has such components: every log with an event has a start and an end.
pub fn possible(kinds: &[Has]) -> bool {
    kinds.iter().any(|kind| kind.starts()) && kinds.iter().any(|kind| kind.ends())
}

/// Every list of so many kinds that is possible.
pub fn every_list(count: usize) -> Vec<Vec<Has>> {
    let mut lists = vec![vec![]];
    for _ in 0..count {
        lists = lists.iter().flat_map(|list| KINDS.map(|kind| [&list[..], &[kind]].concat())).collect();
    }
    lists.retain(|list| possible(list));
    lists
}

/// Components of these kinds: each has one of the first codes, in their order; the other codes go to any of them.
pub fn dealt(random: &mut Random, kinds: &[Has], codes: &[u8]) -> Vec<Component> {
    let (firsts, others) = codes.split_at(kinds.len());
    let with = |(&has, &code)| Component { has, codes: vec![code] };
    let mut components: Vec<Component> = kinds.iter().zip(firsts).map(with).collect();
    for &code in others {
        let number = random.below(components.len());
        components[number].codes.push(code);
    }
    components
}

/// How episodes go over a graph.
#[derive(Clone, Copy)]
pub struct Way {
    /// An episode of this length goes to an end; it has four events more at most then.
    pub longest: usize,
    /// Every episode begins by going through all codes, so that no part misses it.
    pub through_all: bool,
}

/// Episodes whose graph has exactly these components, two or more of them.
pub fn episodes_with(random: &mut Random, components: &[Component], way: Way) -> Vec<Episode> {
    let graph = graph_with(random, components);
    let episodes = episodes_over(random, &graph, way);
    assert_eq!(Graph::of(&episodes.iter().cloned().collect()), graph, "{components:?}");
    assert_components(&graph, components);
    episodes
}

fn assert_components(graph: &Graph, asked: &[Component]) {
    let mut sets: Vec<Codes> = asked.iter().map(|component| component.codes.iter().copied().collect()).collect();
    sets.sort_by_key(|codes| codes.first().copied());
    assert_eq!(parallel_components(graph), sets);
    for component in asked {
        let meets = |some: &Codes| component.codes.iter().any(|code| some.contains(code));
        let has = (meets(&graph.starts), meets(&graph.ends));
        assert_eq!(has, (component.has.starts(), component.has.ends()), "{component:?}");
    }
}

/// A graph with these components: between two of them it has every edge.
fn graph_with(random: &mut Random, components: &[Component]) -> Graph {
    let mut graph = Graph::default();
    for Component { has, codes } in components {
        graph.edges.extend(edges_within(random, codes));
        graph.edges.extend(graph.codes.iter().flat_map(|&a| codes.iter().flat_map(move |&b| [(a, b), (b, a)])));
        graph.codes.extend(codes);
        if has.starts() {
            graph.starts.extend(some_of(random, codes));
        }
        if has.ends() {
            graph.ends.extend(some_of(random, codes));
        }
    }
    graph
}

/// Each code lacks an edge to or from the one before it, which makes them one component; the other edges do not matter.
fn edges_within(random: &mut Random, codes: &[u8]) -> Edges {
    let mut edges = Edges::new();
    for (later, &a) in codes.iter().enumerate() {
        if random.once_in(3) {
            edges.push((a, a));
        }
        for (earlier, &b) in codes[..later].iter().enumerate() {
            let ways: [&[(u8, u8)]; 4] = [&[], &[(a, b)], &[(b, a)], &[(a, b), (b, a)]];
            let neighbours = earlier + 1 == later;
            edges.extend(ways[random.below(if neighbours { 3 } else { 4 })]);
        }
    }
    edges
}

/// At least one of them.
fn some_of(random: &mut Random, codes: &[u8]) -> Vec<u8> {
    let first = *random.pick(codes);
    codes.iter().copied().filter(|&code| code == first || random.once_in(2)).collect()
}

/// Episodes that go over every edge of a graph and over no other, from every start and to every end.
fn episodes_over(random: &mut Random, graph: &Graph, way: Way) -> Vec<Episode> {
    let mut left: Edges = graph.edges.iter().copied().collect();
    random.shuffle(&mut left);
    let [starts, ends] = [&graph.starts, &graph.ends].map(|codes| codes.iter().copied().collect::<Vec<u8>>());
    let mut episodes = Vec::new();
    while !left.is_empty() || episodes.len() < starts.len().max(ends.len()) {
        let mut episode = vec![starts[episodes.len() % starts.len()]];
        if way.through_all {
            go_through_all(random, graph, &mut episode);
        }
        go_over_some(random, graph, &mut episode, &mut left, way.longest);
        go_to(random, graph, &mut episode, ends[episodes.len() % ends.len()]);
        episodes.push(episode);
    }
    episodes
}

fn go_through_all(random: &mut Random, graph: &Graph, episode: &mut Episode) {
    let mut codes: Vec<u8> = graph.codes.iter().copied().collect();
    random.shuffle(&mut codes);
    for code in codes {
        go_to(random, graph, episode, code);
    }
}

/// Goes over edges that are left, at least one if there is one, wherever it can over one that leads on from here.
fn go_over_some(random: &mut Random, graph: &Graph, episode: &mut Episode, left: &mut Edges, longest: usize) {
    while !left.is_empty() {
        let onward = left.iter().position(|edge| episode.last() == Some(&edge.0));
        let (a, b) = left.swap_remove(onward.unwrap_or(0));
        go_to(random, graph, episode, a);
        episode.push(b);
        if episode.len() >= longest {
            return;
        }
    }
}

/// Goes on to a code, if it is not there already. Where no edge leads there, some code between does: every one of another
/// component.
fn go_to(random: &mut Random, graph: &Graph, episode: &mut Episode, code: u8) {
    let here = *episode.last().expect("it began at a start");
    if here == code {
        return;
    }
    if !graph.has(here, code) {
        let leads = |between: &u8| graph.has(here, *between) && graph.has(*between, code);
        let between: Vec<u8> = graph.codes.iter().copied().filter(leads).collect();
        episode.push(*random.pick(&between));
    }
    episode.push(code);
}
