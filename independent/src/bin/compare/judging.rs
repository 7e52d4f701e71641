//! Judging an episode.

use crate::mining::every_word;
use crate::tally::Tally;
use crate::trial::Case;
use independent::block::BLOCK;
use independent::calls::JUDGING_WORK;
use independent::generate::damage::{damage_tree, TreeDamage, TREE_DAMAGES};
use independent::generate::largest::{Task, BROKEN, SHAPES, WORST};
use independent::generate::logs::any_episode;
use independent::generate::random::Random;
use independent::generate::trees::{short_episode, some_codes, some_tree};
use independent::log::EVENT_CODES;
use independent::tree::Tree;

fn judge(tally: &mut Tally, tree: &Tree, episode: &[u8]) {
    tally.case(Case::Judge { tree: tree.block().to_vec(), episode: episode.to_vec(), work: JUDGING_WORK });
}

/// Every episode of up to four events, a code beyond the tree's own among them.
pub fn small_trees(tally: &mut Tally) {
    let mut random = Random::seeded(51);
    let words = every_word(3, 4);
    for round in 0..160 {
        let mut codes = vec![0, 1, 2];
        codes.truncate([3, 3, 3, 2][round % 4]);
        random.shuffle(&mut codes);
        let tree = some_tree(&mut random, &codes);
        for word in &words {
            judge(tally, &tree, word);
        }
    }
}

pub fn large_trees(tally: &mut Tally) {
    let mut random = Random::seeded(52);
    for round in 0..600 {
        let count = [EVENT_CODES, 16, 8, 5][round % 4];
        let codes = some_codes(&mut random, count);
        let tree = some_tree(&mut random, &codes);
        let mut episode = short_episode(&mut random, &tree, 2);
        judge(tally, &tree, &episode);
        if !episode.is_empty() {
            let (one, other) = (random.below(episode.len()), random.below(episode.len()));
            episode.swap(one, other);
            judge(tally, &tree, &episode);
            episode.remove(one);
            judge(tally, &tree, &episode);
        }
    }
    for length in 0..=66 {
        for top in [0, 2, 30, 31, 32, 255] {
            let codes = some_codes(&mut random, EVENT_CODES);
            let tree = some_tree(&mut random, &codes);
            let episode: Vec<u8> = (0..length).map(|_| random.between(0, top) as u8).collect();
            judge(tally, &tree, &episode);
            judge(tally, &Tree::flower(&(0..EVENT_CODES as u8).collect()), &episode);
        }
    }
    let tree = Tree::Activity(3).block().to_vec();
    for work in [0, 1, 8_127, 8_128, 8_129, 9_000] {
        for episode in [vec![], vec![3], vec![4]] {
            tally.case(Case::Judge { tree: tree.clone(), episode, work });
        }
    }
    tally.case(Case::Judge { tree, episode: vec![3; 100_000], work: JUDGING_WORK });
}

/// The measured episodes, each also with its last event changed.
pub fn measured_episodes(tally: &mut Tally) {
    for (_, make) in SHAPES.iter().chain(&WORST).chain(&BROKEN) {
        if let Task::Judge { block, mut episode } = make() {
            let mut judge = |episode: &[u8]| {
                tally.case(Case::Judge { tree: block.to_vec(), episode: episode.to_vec(), work: JUDGING_WORK })
            };
            judge(&episode);
            if let Some(last) = episode.last_mut() {
                *last ^= 16;
            }
            judge(&episode);
        }
    }
}

#[derive(Clone, Copy, PartialEq, Eq)]
enum Fault {
    None,
    Length,
    Work,
    Check,
    Form(TreeDamage),
    LongEpisode,
    LargeCode,
}

fn faults() -> Vec<Fault> {
    let others = [Fault::None, Fault::Length, Fault::Work, Fault::Check, Fault::LongEpisode, Fault::LargeCode];
    others.into_iter().chain(TREE_DAMAGES.map(Fault::Form)).collect()
}

/// Every two kinds of fault in one call, so that the order among them shows.
pub fn two_faults(tally: &mut Tally) {
    let mut random = Random::seeded(53);
    for _ in 0..6 {
        for first in faults() {
            for second in faults() {
                let case = faulty(&mut random, [first, second]);
                tally.case(case);
            }
        }
    }
}

fn faulty(random: &mut Random, faults: [Fault; 2]) -> Case {
    let codes = some_codes(random, 6);
    let mut tree = some_tree(random, &codes).block().to_vec();
    let mut episode = any_episode(random, 32, 20);
    for fault in faults {
        match fault {
            Fault::Form(damage) if tree[2] > 0 => damage_tree(random, &mut tree, damage),
            Fault::LongEpisode => episode.extend([1; 64]),
            Fault::LargeCode => {
                let places = [0, episode.len() / 2, episode.len()];
                episode.insert(*random.pick(&places), random.byte_from(32));
                episode.push(32);
            }
            _ => {}
        }
    }
    if faults.contains(&Fault::Check) {
        tree[random.between(508, BLOCK - 1)] ^= 1 << random.below(8);
    }
    if faults.contains(&Fault::Length) {
        tree.resize(*random.pick(&[0, 1, 511, 513, 1024]), 0);
    }
    let work = if faults.contains(&Fault::Work) { *random.pick(&[0, 1, JUDGING_WORK - 1]) } else { JUDGING_WORK };
    Case::Judge { tree, episode, work }
}
