//! What the papers and the page promise of mined trees, tried on many logs.

mod papers;

use independent::cuts::{first_cut, parts_for};
use independent::generate::logs::{any_episodes, tree_episodes};
use independent::generate::random::Random;
use independent::generate::trees::{some_codes, some_tree, OPERATORS};
use independent::graph::{Codes, Graph, Log};
use independent::judge::fits;
use independent::log::Episode;
use independent::mine::{mine, split};
use independent::tree::well_formed;
use papers::{divisions, is_cut};
use std::collections::BTreeMap;

fn logs(seed: u64, count: usize) -> Vec<Log> {
    let mut random = Random::seeded(seed);
    let mut logs = Vec::new();
    for round in 0..count {
        let codes = random.between(1, [3, 5, 8][round % 3]);
        let (episodes, longest) = (random.between(1, 9), random.between(1, 9));
        logs.push(any_episodes(&mut random, episodes, codes, longest).into_iter().collect());
        let codes = some_codes(&mut random, codes);
        let tree = some_tree(&mut random, &codes);
        logs.push(tree_episodes(&mut random, &tree, 20).into_iter().collect());
    }
    logs
}

#[test]
fn a_mined_tree_fits_its_log_and_keeps_the_bound() {
    for log in logs(81, 600) {
        let tree = mine(&log);
        let codes = Graph::of(&log).codes.len();
        assert!(codes == 0 || tree.size() < 4 * codes, "{log:?}");
        assert_eq!(well_formed(&tree.block()), Some(tree.clone()));
        assert!(log.iter().all(|episode| fits(&tree, episode)), "{log:?} {tree:?}");
    }
}

fn union(one: &Graph, other: &Graph) -> Graph {
    Graph {
        codes: &one.codes | &other.codes,
        edges: &one.edges | &other.edges,
        starts: &one.starts | &other.starts,
        ends: &one.ends | &other.ends,
    }
}

#[test]
fn the_graph_of_logs_joined_is_the_union_of_their_graphs() {
    for pair in logs(84, 300).windows(2) {
        let [one, other] = [Graph::of(&pair[0]), Graph::of(&pair[1])];
        assert_eq!(Graph::of(&(&pair[0] | &pair[1])), union(&one, &other), "{pair:?}");
    }
}

fn events(log: &Log) -> usize {
    log.iter().map(Vec::len).sum()
}

/// All orders of the parts.
fn orders(parts: &[Codes]) -> Vec<Vec<Codes>> {
    if parts.is_empty() {
        return vec![vec![]];
    }
    let first = |number: usize| {
        let mut rest = parts.to_vec();
        let part = rest.remove(number);
        orders(&rest).into_iter().map(move |order| [vec![part.clone()], order].concat())
    };
    (0..parts.len()).flat_map(first).collect()
}

/// No other division of the codes is a cut with more parts.
#[test]
fn no_cut_of_the_papers_has_more_parts() {
    for log in logs(83, 250) {
        let graph = Graph::of(&log);
        let codes: Vec<u8> = graph.codes.iter().copied().collect();
        if codes.is_empty() || codes.len() > 5 || log.contains(&Episode::new()) {
            continue;
        }
        let all: Vec<Vec<Codes>> = divisions(&codes).iter().flat_map(|division| orders(division)).collect();
        for operator in OPERATORS {
            let cuts = all.iter().filter(|parts| is_cut(&graph, operator, parts));
            let most = cuts.map(Vec::len).max().unwrap_or(1);
            assert_eq!(parts_for(operator, &graph).len(), most, "{operator:?} {log:?}");
        }
    }
}

/// Every cut is one of the papers', all four come up, and a split loses no event.
#[test]
fn cuts_are_the_papers_cuts_and_splits_lose_nothing() {
    let mut met: BTreeMap<u8, usize> = BTreeMap::new();
    for log in logs(82, 1500) {
        let graph = Graph::of(&log);
        if log.contains(&Episode::new()) {
            continue;
        }
        let Some((operator, parts)) = first_cut(&graph) else { continue };
        *met.entry(operator as u8).or_default() += 1;
        assert!(is_cut(&graph, operator, &parts), "{operator:?} {parts:?} {log:?}");
        let codes: usize = parts.iter().map(Codes::len).sum();
        assert_eq!(codes, graph.codes.len());
        for part in &parts {
            let sublog = split(operator, part, &log);
            assert_eq!(Graph::of(&sublog).codes, *part);
            assert!(events(&sublog) <= events(&log));
        }
    }
    assert!([3, 4, 5, 6].iter().all(|operator| met.get(operator).is_some_and(|&count| count > 50)), "{met:?}");
}
