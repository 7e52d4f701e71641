//! Mining logs whose parallel components were asked for, so that every way to pair and to join them comes up.

use crate::tally::Tally;
use crate::trial::Case;
use independent::block::BLOCK;
use independent::calls::MINING_WORK;
use independent::generate::components::{dealt, episodes_with, every_list, possible, Component, Has, Way, KINDS};
use independent::generate::random::Random;
use independent::generate::trees::some_codes;
use independent::log::{log_of, Episode, EVENT_CODES};
use independent::tree::{Operator, Tree};
use std::collections::BTreeSet;

/// How the built episodes stand to one more code: before or behind it in a sequence, beside it in a choice, around it in
/// a loop.
#[derive(Clone, Copy)]
enum Place {
    Alone,
    Before(u8),
    Behind(u8),
    Beside(u8),
    Around(u8),
}

struct Plan {
    components: Vec<Component>,
    place: Place,
    way: Way,
}

/// Every list of two to five kinds: with one code each, in the order of the list; with several, in any order; and with
/// several below another operator.
pub fn every_kind(tally: &mut Tally) {
    let mut random = Random::seeded(36);
    let places = [Place::Before, Place::Behind, Place::Beside, Place::Around];
    for (number, kinds) in (2..=5).flat_map(every_list).enumerate() {
        let components = dealt(&mut random, &kinds, &[0, 1, 2, 3, 4][..kinds.len()]);
        let way = Way { longest: random.between(1, 58), through_all: false };
        mine(tally, &mut random, Plan { components, place: Place::Alone, way });
        let (components, _) = several_codes(&mut random, &kinds);
        let way = Way { longest: random.between(1, 58), through_all: true };
        mine(tally, &mut random, Plan { components, place: Place::Alone, way });
        let (components, other) = several_codes(&mut random, &kinds);
        // Two episodes and the code between them go into one record.
        let way = Way { longest: random.between(1, 27), through_all: false };
        mine(tally, &mut random, Plan { components, place: places[number % 4](other), way });
    }
}

/// Components with up to three times as many codes as there are of them, and a code that they do not have.
fn several_codes(random: &mut Random, kinds: &[Has]) -> (Vec<Component>, u8) {
    let count = random.between(kinds.len(), 3 * kinds.len());
    let codes = some_codes(random, count + 1);
    (dealt(random, kinds, &codes[1..]), codes[0])
}

/// Six components and more, up to one for each of the 31 codes, of all kinds or of some.
pub fn many_components(tally: &mut Tally) {
    let mut random = Random::seeded(37);
    for (count, round) in (6..=EVENT_CODES).flat_map(|count| (0..8).map(move |round| (count, round))) {
        let from = [&KINDS[..], &KINDS[..3], &KINDS[1..3], &KINDS[1..]][round % 4];
        let kinds = some_kinds(&mut random, from, count);
        let codes = random.between(count, EVENT_CODES);
        let codes = some_codes(&mut random, codes);
        let components = dealt(&mut random, &kinds, &codes);
        let way = Way { longest: random.between(20, 58), through_all: false };
        mine(tally, &mut random, Plan { components, place: Place::Alone, way });
    }
}

/// So many of these kinds, as some log can have them.
fn some_kinds(random: &mut Random, from: &[Has], count: usize) -> Vec<Has> {
    loop {
        let kinds: Vec<Has> = (0..count).map(|_| *random.pick(from)).collect();
        if possible(&kinds) {
            return kinds;
        }
    }
}

fn placed(place: Place, episodes: Vec<Episode>) -> Vec<Episode> {
    match place {
        Place::Alone => episodes,
        Place::Before(code) => episodes.iter().map(|episode| [&episode[..], &[code]].concat()).collect(),
        Place::Behind(code) => episodes.iter().map(|episode| [&[code], &episode[..]].concat()).collect(),
        Place::Beside(code) => [episodes, vec![vec![code]]].concat(),
        Place::Around(code) => {
            // Every end comes before the code and every start behind it.
            let next = episodes.iter().cycle().skip(1);
            let twice = episodes.iter().zip(next).map(|(one, other)| [&one[..], &[code], other].concat());
            twice.chain(episodes.iter().cloned()).collect()
        }
    }
}

/// Mines the log, and looks whether its tree has as many parallel parts as it should.
fn mine(tally: &mut Tally, random: &mut Random, plan: Plan) {
    let episodes = placed(plan.place, episodes_with(random, &plan.components, plan.way));
    let log = log_of(&episodes).expect("records and blocks hold it");
    let outcome = tally.case(Case::mine(log, BLOCK, MINING_WORK));
    let codes = plan.components.iter().flat_map(|component| component.codes.clone()).collect();
    let tree = outcome.tree();
    let built = tree.as_ref().and_then(|tree| node_with(tree, &codes));
    // Around a code the root may be parallel: then no node has the built codes alone.
    if built.is_some() || !matches!(plan.place, Place::Around(_)) {
        note(tally, &plan, parallel_parts(built));
    }
}

/// The topmost node whose leaves have exactly these codes.
fn node_with<'t>(tree: &'t Tree, codes: &BTreeSet<u8>) -> Option<&'t Tree> {
    if tree.leaf_codes().into_iter().collect::<BTreeSet<u8>>() == *codes {
        return Some(tree);
    }
    tree.children().iter().find_map(|child| node_with(child, codes))
}

/// The number of parts of the cut there, 1 where there is another cut or none, 0 without a node.
fn parallel_parts(built: Option<&Tree>) -> usize {
    match built {
        Some(Tree::Node(Operator::Parallel, children)) => children.len(),
        Some(_) => 1,
        None => 0,
    }
}

/// Counts what came up. A part needs a start and an end, so there are as many as the kinds allow.
fn note(tally: &mut Tally, plan: &Plan, parts: usize) {
    let count = |kind| plan.components.iter().filter(|component| component.has == kind).count();
    let pairs = count(Has::Starts).min(count(Has::Ends));
    tally.holds("a log has as many parallel parts as its components allow", parts == count(Has::Both) + pairs);
    if parts < 2 {
        return tally.meets("mining", "no parallel cut: one part alone");
    }
    let first = plan.components.iter().min_by_key(|component| component.codes.iter().min()).map(|first| first.has);
    let joined = parts < plan.components.len();
    let forms = [
        ("every component a part", !joined),
        ("a part of several components", joined),
        ("two components paired", pairs > 0),
        ("a component without a partner", count(Has::Starts) != count(Has::Ends)),
        ("a component with neither", count(Has::Neither) > 0),
        ("the smallest code in one without a partner", pairs == 0 && matches!(first, Some(Has::Starts | Has::Ends))),
        ("the smallest code in one with neither", first == Some(Has::Neither)),
        ("joined below a sequence", joined && matches!(plan.place, Place::Before(_) | Place::Behind(_))),
        ("joined below a choice", joined && matches!(plan.place, Place::Beside(_))),
        ("joined below a loop", joined && matches!(plan.place, Place::Around(_))),
    ];
    forms.into_iter().filter(|(_, met)| *met).for_each(|(form, _)| tally.meets("mining", form));
}
