//! Judging episodes with heartbeats: the verdict is that of the events; what is refused counts heartbeats in.

use super::checking::with_leaf;
use super::{alone, at_place, beating, every_place, large_at};
use crate::forms::LEAF_31;
use crate::mining::every_word;
use crate::tally::Tally;
use crate::trial::{Case, Outcome};
use independent::answer::{packed, refuse};
use independent::calls::JUDGING_WORK;
use independent::generate::heartbeats::{every_way, put_in, put_some, PLACES};
use independent::generate::random::Random;
use independent::generate::trees::{short_episode, some_codes, some_tree};
use independent::log::{events_of, Episode, EVENT_CODES, HEARTBEAT};
use independent::tree::Tree;

fn judge(tally: &mut Tally, tree: &Tree, episode: &[u8]) -> Outcome {
    judge_with(tally, &tree.block(), episode, JUDGING_WORK)
}

fn judge_with(tally: &mut Tally, tree: &[u8], episode: &[u8], work: usize) -> Outcome {
    beating(tally, Case::Judge { tree: tree.to_vec(), episode: episode.to_vec(), work })
}

/// Judges episodes that must differ in heartbeats alone from the first of them.
fn judge_all(tally: &mut Tally, tree: &Tree, episodes: &[Episode]) {
    let without = judge(tally, tree, &events_of(&episodes[0]));
    for episode in episodes {
        let with = judge(tally, tree, episode);
        let same = with.answer == without.answer && with.numbers == without.numbers;
        tally.holds("heartbeats change nothing that judging leaves", same);
    }
}

/// Every episode of up to three events of three codes, heartbeats in every choice of gaps.
pub fn every_gap(tally: &mut Tally) {
    let mut random = Random::seeded(54);
    let ways: Vec<Vec<Episode>> = every_word(3, 3).iter().map(|word| every_way(word)).collect();
    for round in 0..30 {
        let mut codes = vec![0, 1, 2];
        random.shuffle(&mut codes);
        codes.truncate([3, 3, 2][round % 3]);
        let tree = if round == 0 { Tree::Silent } else { some_tree(&mut random, &codes) };
        ways.iter().for_each(|ways| judge_all(tally, &tree, &ways[1..]));
    }
}

/// Episodes of large trees, as they are and with two events that changed places, heartbeats at each kind of place.
pub fn large_trees(tally: &mut Tally) {
    let mut random = Random::seeded(55);
    for round in 0..300 {
        let codes = some_codes(&mut random, [EVENT_CODES, 16, 8, 5][round % 4]);
        let tree = some_tree(&mut random, &codes);
        let mut events = short_episode(&mut random, &tree, 2);
        if round % 3 == 0 && !events.is_empty() {
            let (one, other) = (random.below(events.len()), random.below(events.len()));
            events.swap(one, other);
        }
        judge_all(tally, &tree, &PLACES.map(|place| put_some(&mut random, &events, place)));
    }
}

/// Up to 66 codes, heartbeats among them, and a code above 31 behind heartbeats.
pub fn every_length(tally: &mut Tally) {
    let flower = Tree::flower(&(0..EVENT_CODES as u8).collect());
    for (length, place) in every_place(66) {
        // A long episode takes the plain variant long: below the limit some of the places do.
        for episode in at_place(length, place).into_iter().filter(|_| length > 62 || (length + place) % 7 == 0) {
            let answer = judge(tally, &flower, &episode).answer;
            let due = if length > 63 { packed(refuse(10, 0)) } else { 1 };
            tally.holds("a flower fits up to 63 codes, heartbeats counted", answer == due);
        }
        for episode in large_at(length, place) {
            let answer = judge(tally, &flower, &episode).answer;
            let due = if length > 63 { refuse(10, 0) } else { refuse(11, place) };
            tally.holds("judging gives 10, then 11 at its own place, heartbeats counted", answer == packed(due));
        }
    }
}

/// From no event to 63 of one code, with so many heartbeats that there are 63 codes, and with one more.
pub fn full_length(tally: &mut Tally) {
    let flower = Tree::flower(&[0].into());
    for (events, fits) in (0..=63).map(|events| (events, [events == 0, events == 1, true])) {
        for (tree, fits) in [Tree::Silent, Tree::Activity(0), flower.clone()].iter().zip(fits) {
            let with = |codes: usize| put_in(&vec![0; events], events / 2, codes - events);
            let answers = [63, 64].map(|codes| judge(tally, tree, &with(codes)).answer);
            let due = [fits as u64, packed(refuse(10, 0))];
            tally.holds("63 codes are judged by their events, 64 get 10", answers == due);
        }
    }
}

/// Trees with a leaf 31 and everything else that can be refused with them or not.
pub fn heartbeat_leaves(tally: &mut Tally) {
    let mut random = Random::seeded(56);
    let episodes = [vec![], alone(1), alone(63), alone(64), vec![0], vec![32], vec![HEARTBEAT, 32], vec![32; 64]];
    for round in 0..12 {
        let codes = some_codes(&mut random, round % 6 + 1);
        let tree = some_tree(&mut random, &codes);
        for mut block in with_leaf(&tree, HEARTBEAT) {
            tally.meets("judging", LEAF_31);
            for episode in &episodes {
                let answer = judge_with(tally, &block, episode, JUDGING_WORK).answer;
                tally.holds("a leaf 31 gets 9 before 10 and 11", answer == packed(refuse(9, 0)));
            }
            judge_with(tally, &block, &alone(64), JUDGING_WORK - 1);
            block[508] ^= 1;
            judge_with(tally, &block, &alone(1), JUDGING_WORK);
            judge_with(tally, &block[1..], &alone(1), JUDGING_WORK);
        }
    }
}
