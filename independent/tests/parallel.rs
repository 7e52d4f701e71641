//! Parallel cuts whose parts are several components: rows worked out by hand, and no cut of the paper has more parts.

mod papers;

use independent::block::BLOCK;
use independent::calls::{Gateway, Plain, MINING_WORK};
use independent::cuts::parts_for;
use independent::fast::Fast;
use independent::generate::components::{dealt, episodes_with, every_list, Has, Way};
use independent::generate::random::Random;
use independent::graph::{Codes, Graph};
use independent::log::{log_of, Episode};
use independent::tree::{well_formed, Operator::Parallel, Tree};
use papers::{divisions, is_cut};

const SIDES: [&dyn Gateway; 2] = [&Plain, &Fast];

/// The codes of the parts of the cut at the root, none where it is no parallel cut.
fn parallel_parts(side: &dyn Gateway, episodes: &[Episode]) -> Vec<Codes> {
    let log = log_of(episodes).expect("16 blocks hold it");
    let mut out = [0; BLOCK];
    side.mine(&log, &mut out, &mut [0; MINING_WORK]);
    match well_formed(&out).expect("a mined tree is well formed") {
        Tree::Node(Parallel, children) => {
            children.iter().map(|child| child.leaf_codes().into_iter().collect()).collect()
        }
        _ => vec![],
    }
}

/// What components of one code each have, from a on: b both, s starts, e ends, n neither. Then the parts, none for no cut.
const ROWS: [(&str, &str); 21] = [
    ("bse", "a bc"),
    ("seb", "ab c"),
    ("esb", "ab c"),
    ("bbb", "a b c"),
    ("ssee", "ac bd"),
    ("eess", "ac bd"),
    ("sese", "ab cd"),
    ("sees", "ab cd"),
    ("senb", "abc d"),
    ("nseb", "abc d"),
    ("nebs", "abd c"),
    ("bnb", "ab c"),
    ("bbn", "ac b"),
    ("nbb", "ab c"),
    ("sbb", "ab c"),
    ("bbe", "ac b"),
    ("ssseb", "abcd e"),
    ("besse", "a bc de"),
    ("se", ""),
    ("bn", ""),
    ("nse", ""),
];

fn kind(letter: char) -> Has {
    match letter {
        'b' => Has::Both,
        's' => Has::Starts,
        'e' => Has::Ends,
        _ => Has::Neither,
    }
}

#[test]
fn rows_worked_out_by_hand() {
    let mut random = Random::seeded(91);
    for (kinds, parts) in ROWS {
        let kinds: Vec<Has> = kinds.chars().map(kind).collect();
        let components = dealt(&mut random, &kinds, &[0, 1, 2, 3, 4][..kinds.len()]);
        let episodes = episodes_with(&mut random, &components, Way { longest: 9, through_all: false });
        let wanted: Vec<Codes> =
            parts.split_whitespace().map(|part| part.bytes().map(|letter| letter - b'a').collect()).collect();
        for side in SIDES {
            assert_eq!(parallel_parts(side, &episodes), wanted, "{} {episodes:?}", side.name());
        }
    }
}

fn most_parts(graph: &Graph, all: &[Vec<Codes>]) -> usize {
    all.iter().filter(|parts| is_cut(graph, Parallel, parts)).map(Vec::len).max().expect("a start and an end")
}

/// Codes 0 to `codes` - 1. The bits of `both` are the pairs with both edges; the others have one or none.
fn small_graph(random: &mut Random, codes: u8, both: usize, [starts, ends]: [usize; 2]) -> Graph {
    let set = |bits: usize| (0..codes).filter(|code| bits >> code & 1 != 0).collect::<Codes>();
    let mut graph = Graph { codes: set(31), starts: set(starts), ends: set(ends), ..Graph::default() };
    let pairs = (0..codes).flat_map(|a| (0..a).map(move |b| (a, b)));
    for (number, (a, b)) in pairs.enumerate() {
        let ways: [&[(u8, u8)]; 4] = [&[(a, b), (b, a)], &[(a, b)], &[(b, a)], &[]];
        let lacks = both >> number & 1 == 0;
        graph.edges.extend(ways[if lacks { random.between(1, 3) } else { 0 }]);
    }
    graph
}

/// The found parts are one of the paper's parallel cuts, by their smallest code, and none has more.
fn assert_most_parts(graph: &Graph, all: &[Vec<Codes>]) {
    let parts = parts_for(Parallel, graph);
    assert!(all.contains(&parts) && is_cut(graph, Parallel, &parts), "{parts:?} {graph:?}");
    assert_eq!(parts.len(), most_parts(graph, all), "{parts:?} {graph:?}");
}

/// Every choice of pairs with both edges, of starts and of ends.
#[test]
fn no_cut_of_the_paper_has_more_parts_on_every_graph_of_four_codes() {
    let mut random = Random::seeded(92);
    for codes in 1..=4 {
        let all = divisions(&(0..codes).collect::<Vec<u8>>());
        let (pairs, sets) = (codes * (codes - 1) / 2, 1..1 << codes);
        for both in 0..1 << pairs {
            for starts in sets.clone() {
                for ends in sets.clone() {
                    assert_most_parts(&small_graph(&mut random, codes, both, [starts, ends]), &all);
                }
            }
        }
    }
}

#[test]
fn no_cut_of_the_paper_has_more_parts_on_graphs_of_five_codes() {
    let mut random = Random::seeded(93);
    let all = divisions(&[0, 1, 2, 3, 4]);
    for round in 0..64 * 1024 {
        let outer = [random.between(1, 31), random.between(1, 31)];
        assert_most_parts(&small_graph(&mut random, 5, round % 1024, outer), &all);
    }
}

/// Both variants, by the logs of every list of kinds with five codes at most.
#[test]
fn mined_logs_have_the_most_parts() {
    let mut random = Random::seeded(94);
    for kinds in (2..=5).flat_map(every_list) {
        let mut codes: Vec<u8> = (0..random.between(kinds.len(), 5) as u8).collect();
        let all = divisions(&codes);
        random.shuffle(&mut codes);
        let components = dealt(&mut random, &kinds, &codes);
        let episodes = episodes_with(&mut random, &components, Way { longest: 20, through_all: false });
        let graph = Graph::of(&episodes.iter().cloned().collect());
        for side in SIDES {
            let parts = parallel_parts(side, &episodes);
            assert_eq!(parts.len().max(1), most_parts(&graph, &all), "{} {episodes:?}", side.name());
            assert!(parts.is_empty() || all.contains(&parts) && is_cut(&graph, Parallel, &parts), "{}", side.name());
        }
    }
}
