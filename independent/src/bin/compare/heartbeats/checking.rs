//! Checking trees with a leaf 31, and with a leaf 30.

use crate::forms::{LEAF_30, LEAF_31};
use crate::tally::Tally;
use crate::trial::Case;
use independent::answer::{packed, refuse};
use independent::block::{write_check, BLOCK};
use independent::generate::random::Random;
use independent::generate::trees::{some_codes, some_tree};
use independent::log::{EVENT_CODES, HEARTBEAT};
use independent::tree::Tree;

/// The tree's blocks with one leaf's code changed, each leaf's in turn.
pub fn with_leaf(tree: &Tree, code: u8) -> Vec<[u8; BLOCK]> {
    let sound = tree.block();
    let leaves = (0..tree.size()).filter(|at| sound[4 * at] == 2);
    let changed = |at: usize| {
        let mut block = sound;
        block[4 * at + 1] = code;
        write_check(&mut block);
        block
    };
    leaves.map(changed).collect()
}

/// Trees of 1 to 31 codes, flowers among them, with a leaf 31 at the place of each leaf; and with a leaf 30 there.
pub fn every_leaf(tally: &mut Tally) {
    let mut random = Random::seeded(43);
    for round in 0..200 {
        let codes = some_codes(&mut random, round % EVENT_CODES + 1);
        let flower = Tree::flower(&codes.iter().copied().collect());
        let tree = if round % 5 == 0 { flower } else { some_tree(&mut random, &codes) };
        for mut block in with_leaf(&tree, HEARTBEAT) {
            tally.meets("checking", LEAF_31);
            let answer = tally.case(Case::Check { tree: block.to_vec() }).answer;
            tally.holds("a leaf 31 gets 9", answer == packed(refuse(9, 0)));
            block[508] ^= 1;
            tally.case(Case::Check { tree: block.to_vec() });
        }
        let twice = codes.contains(&30);
        for block in with_leaf(&tree, 30).into_iter().filter(|_| !twice) {
            tally.meets("checking", LEAF_30);
            let answer = tally.case(Case::Check { tree: block.to_vec() }).answer;
            tally.holds("a leaf 30 is accepted", answer == tree.size() as u64);
        }
    }
}
