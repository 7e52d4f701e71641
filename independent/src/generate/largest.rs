//! The largest inputs of several shapes: full logs, with all 31 codes of events or with many records, some with heartbeats, and
//! 63-event episodes on 127-node trees; and blocks that are no trees, nested as deep as they can be.

use super::distinct::{
    crowd, every_episode, first_fit, grouped_episodes, log_without_repeats, most_episodes, repeating_log,
};
use super::heartbeats::{put_between, put_one};
use super::logs::largest_log;
use super::random::Random;
use super::trees::short_episode;
use crate::block::{write_check, BLOCK};
use crate::fast::number_of;
use crate::log::{Episode, EVENT_CODES, LONGEST_EPISODE};
use crate::tree::{Operator, Tree};
use Operator::{Choice, Loop, Parallel, Sequence};

pub enum Task {
    Mine { log: Vec<u8> },
    Judge { block: [u8; BLOCK], episode: Episode },
}

type Shape = (&'static str, fn() -> Task);

/// The names of all shapes and how to make each.
pub const SHAPES: [Shape; 30] = [
    ("mine-balanced", || logs_of(balanced(Sequence, Choice, leaves()), Events::Doubled, 8)),
    ("mine-balanced-parallel", || logs_of(balanced(Choice, Parallel, leaves()), Events::Doubled, 8)),
    ("mine-sequence-loop-comb", || logs_of(sequence_loop_comb(), Events::Doubled, 10)),
    ("mine-choice-sequence-comb", || logs_of(choice_sequence_comb(), Events::Doubled, 8)),
    ("mine-flower", || logs_around(63)),
    ("mine-flower-of-pairs", || logs_around(2)),
    ("mine-sequence", || logs_of(flat(Sequence), Events::Once, 8)),
    ("mine-skipped-steps", || logs_of(flat(Sequence), Events::Skipped, 8)),
    ("mine-parallel", || logs_of(flat(Parallel), Events::Once, 8)),
    ("mine-few-long-episodes", || logs_of(long_body(), Events::Once, 2)),
    ("mine-one-event-episodes", || logs_of(flat(Choice), Events::Once, 8)),
    ("mine-forty-distinct", || mine(repeating_log(&grouped_episodes(40)))),
    ("mine-eight-distinct", || mine(repeating_log(&grouped_episodes(8)))),
    ("mine-all-distinct", || mine(log_without_repeats())),
    ("mine-empty-records", || mine(repeating_log(&[vec![]]))),
    ("mine-one-event-records", || mine(repeating_log(&every_episode(4, 1)))),
    ("mine-many-short", || mine(first_fit(&most_episodes()))),
    ("mine-crowded", || mine(first_fit(&crowd(every_episode(EVENT_CODES as u8, 3), 0, number_of)[..2_016]))),
    ("mine-heartbeats-between", || logs_with(balanced(Sequence, Choice, leaves()), |_, events| put_between(&events))),
    ("mine-few-heartbeats", || logs_with(balanced(Sequence, Choice, leaves()), some_heartbeat)),
    ("judge-balanced", || judge_fit(balanced(Sequence, Choice, blossoms()))),
    ("judge-balanced-parallel", || judge_fit(balanced(Sequence, Parallel, blossoms()))),
    ("judge-sequence-comb", || judge_fit(comb(Sequence))),
    ("judge-choice-comb", || judge_any(comb(Choice))),
    ("judge-parallel-comb", || judge_any(comb(Parallel))),
    ("judge-loop-comb", || judge_any(comb(Loop))),
    ("judge-loops-of-one-code", || judge_one_code(loops_of_one_code())),
    ("judge-flat-sequence", || judge_fit(among_silents(Sequence))),
    ("judge-flat-loop", || judge_any(among_silents(Loop))),
    ("judge-heartbeats", || judge_beating(balanced(Sequence, Parallel, blossoms()))),
];

/// The tree that takes most to judge: every entry has all places after every place.
pub const WORST: [Shape; 1] = [("judge-silent-loops", || judge_one_code(silent_loops()))];

/// Blocks of 127 operators, each the first child of the one before, which are refused: as many as leave room for their other
/// children, or all of them.
pub const BROKEN: [Shape; 2] =
    [("judge-broken-nest", || nested_operators(2)), ("judge-broken-chain", || nested_operators(1))];

pub fn task(name: &str) -> Option<Task> {
    SHAPES.iter().chain(&WORST).chain(&BROKEN).find(|(shape, _)| *shape == name).map(|(_, make)| make())
}

fn mine(log: Vec<u8>) -> Task {
    Task::Mine { log }
}

/// What becomes of the events that a tree gives.
#[derive(Clone, Copy)]
enum Events {
    Once,
    /// Now and then one comes twice, which makes its leaf a flower.
    Doubled,
    /// Now and then one is missing.
    Skipped,
}

fn logs_of(tree: Tree, events: Events, odds: usize) -> Task {
    mine(largest_log(&mut Random::seeded(73), |random| episode_of(random, &tree, events, odds, |_, episode| episode)))
}

/// Logs of a tree in which an event comes twice now and then, heartbeats put into each episode.
fn logs_with(tree: Tree, put: Put) -> Task {
    mine(largest_log(&mut Random::seeded(73), |random| episode_of(random, &tree, Events::Doubled, 8, put)))
}

type Put = fn(&mut Random, Episode) -> Episode;

fn episode_of(random: &mut Random, tree: &Tree, events: Events, odds: usize, put: Put) -> Episode {
    loop {
        let plain = short_episode(random, tree, odds);
        let episode = plain.iter().flat_map(|&code| vec![code; times(random, events)]).collect();
        let record = put(random, episode);
        if record.len() <= LONGEST_EPISODE {
            return record;
        }
    }
}

/// In every fourth episode a heartbeat somewhere.
fn some_heartbeat(random: &mut Random, events: Episode) -> Episode {
    if random.once_in(4) {
        put_one(&events, random.below(events.len() + 1))
    } else {
        events
    }
}

fn times(random: &mut Random, events: Events) -> usize {
    match events {
        Events::Once => 1,
        Events::Doubled => 1 + random.once_in(4) as usize,
        Events::Skipped => 1 - random.once_in(8) as usize,
    }
}

/// Logs in which each code is followed by one of the fifteen after it, round and round: no two codes follow each other
/// both ways and every code starts and ends an episode, so there is no cut.
fn logs_around(longest: usize) -> Task {
    let next = |random: &mut Random| {
        let mut code = random.below(EVENT_CODES);
        let mut episode = vec![code as u8];
        for _ in 1..random.between(1, longest) {
            code = (code + random.between(1, 15)) % EVENT_CODES;
            episode.push(code as u8);
        }
        episode
    };
    mine(largest_log(&mut Random::seeded(62), next))
}

fn leaves() -> Vec<Tree> {
    (0..EVENT_CODES as u8).map(Tree::Activity).collect()
}

/// A leaf that may come any number of times: three nodes for a code and for one more silent leaf, so 127 with 31 operators of
/// two children.
fn blossoms() -> Vec<Tree> {
    leaves().into_iter().chain([Tree::Silent]).map(|leaf| Tree::Node(Loop, vec![Tree::Silent, leaf])).collect()
}

/// Two children everywhere, the two operators in turn, the first at the root.
fn balanced(first: Operator, second: Operator, leaves: Vec<Tree>) -> Tree {
    match <[Tree; 1]>::try_from(leaves) {
        Ok([leaf]) => leaf,
        Err(mut leaves) => {
            let right = leaves.split_off(leaves.len() / 2);
            Tree::Node(first, vec![balanced(second, first, leaves), balanced(second, first, right)])
        }
    }
}

fn flat(operator: Operator) -> Tree {
    Tree::Node(operator, leaves())
}

/// One operator inside the other's first child, again and again.
fn comb(operator: Operator) -> Tree {
    blossoms().into_iter().reduce(|inner, leaf| Tree::Node(operator, vec![inner, leaf])).expect("32 blossoms")
}

fn sequence_loop_comb() -> Tree {
    let mut tree = Tree::Activity(30);
    for level in 0..15 {
        let again = Tree::Node(Loop, vec![tree, Tree::Activity(2 * level + 1)]);
        tree = Tree::Node(Sequence, vec![Tree::Activity(2 * level), again]);
    }
    tree
}

fn choice_sequence_comb() -> Tree {
    let mut tree = Tree::Activity(30);
    for level in 0..15 {
        let longer = Tree::Node(Sequence, vec![Tree::Activity(2 * level + 1), tree]);
        tree = Tree::Node(Choice, vec![Tree::Activity(2 * level), longer]);
    }
    tree
}

/// Thirty events for one body, so that two bodies and a redo nearly fill the longest record.
fn long_body() -> Tree {
    let pairs = (0..15).map(|pair| Tree::Node(Parallel, vec![Tree::Activity(2 * pair), Tree::Activity(2 * pair + 1)]));
    let body = Tree::Node(Sequence, pairs.collect());
    Tree::Node(Loop, vec![body, Tree::Activity(30)])
}

/// Sixty-three loops around each other and one code in the innermost: every place can follow every other.
fn loops_of_one_code() -> Tree {
    (0..63).fold(Tree::Activity(0), |inner, _| Tree::Node(Loop, vec![Tree::Silent, inner]))
}

/// Sixty-three loops, each the body of the next, with nothing but silent leaves.
fn silent_loops() -> Tree {
    (0..63).fold(Tree::Silent, |inner, _| Tree::Node(Loop, vec![inner, Tree::Silent]))
}

/// One operator with 62 children: the blossoms and silent leaves between most of them.
fn among_silents(operator: Operator) -> Tree {
    let mut children = Vec::new();
    for (number, blossom) in blossoms().into_iter().enumerate() {
        children.push(blossom);
        if number < 30 {
            children.push(Tree::Silent);
        }
    }
    Tree::Node(operator, children)
}

fn judge_fit(tree: Tree) -> Task {
    Task::Judge { block: tree.block(), episode: fitting(&tree, LONGEST_EPISODE) }
}

/// An episode of a tree of blossoms, its events repeated until there are so many.
fn fitting(tree: &Tree, length: usize) -> Episode {
    let mut random = Random::seeded(63);
    let mut episode = short_episode(&mut random, tree, 2);
    while episode.len() < length {
        let place = random.below(episode.len());
        episode.insert(place, episode[place]);
    }
    episode.truncate(length);
    episode
}

/// Thirty-two events and a heartbeat between every two of them.
fn judge_beating(tree: Tree) -> Task {
    Task::Judge { block: tree.block(), episode: put_between(&fitting(&tree, 32)) }
}

fn judge_any(tree: Tree) -> Task {
    let mut random = Random::seeded(64);
    let episode = (0..LONGEST_EPISODE).map(|_| random.below(EVENT_CODES) as u8).collect();
    Task::Judge { block: tree.block(), episode }
}

fn judge_one_code(tree: Tree) -> Task {
    Task::Judge { block: tree.block(), episode: vec![0; LONGEST_EPISODE] }
}

/// Each operator's size is so much less than that of the one before.
fn nested_operators(less: usize) -> Task {
    let mut block = [0; BLOCK];
    for at in 0..127 {
        let size = 127usize.saturating_sub(less * at).max(1) as u8;
        block[4 * at..4 * at + 4].copy_from_slice(&[4, 2, size, 0]);
    }
    write_check(&mut block);
    Task::Judge { block, episode: vec![0; LONGEST_EPISODE] }
}
