//! Checking a tree.

use crate::tally::Tally;
use crate::trial::Case;
use independent::block::{write_check, BLOCK};
use independent::generate::damage::{damage_tree, TREE_DAMAGES};
use independent::generate::random::Random;
use independent::generate::trees::{some_codes, some_tree, OPERATORS};
use independent::log::EVENT_CODES;
use independent::tree::{Operator, Tree};

fn check(tally: &mut Tally, tree: &[u8]) {
    tally.case(Case::Check { tree: tree.to_vec() });
}

fn any_tree(random: &mut Random) -> Tree {
    let count = random.between(0, EVENT_CODES);
    let codes = some_codes(random, count);
    some_tree(random, &codes)
}

pub fn sound_and_damaged(tally: &mut Tally) {
    let mut random = Random::seeded(41);
    for tree in special_trees() {
        check(tally, &tree.block());
    }
    for _ in 0..400 {
        let sound = any_tree(&mut random).block();
        check(tally, &sound);
        for damage in TREE_DAMAGES {
            let mut block = sound;
            damage_tree(&mut random, &mut block, damage);
            check(tally, &block);
            let second = *random.pick(&TREE_DAMAGES);
            if block[2] > 0 {
                damage_tree(&mut random, &mut block, second);
                check(tally, &block);
            }
            block[random.between(508, 511)] ^= 1 << random.below(8);
            check(tally, &block);
        }
    }
    for _ in 0..200 {
        for block in nearly_sound(&mut random) {
            check(tally, &block);
        }
    }
    for length in [0, 1, 4, 508, 511, 513, 516, 1024] {
        check(tally, &vec![0; length]);
        check(tally, &vec![1; length]);
    }
}

/// Blocks in which all entries agree, but an operator has one child or none, or the tree goes on behind the last entry.
fn nearly_sound(random: &mut Random) -> Vec<Vec<u8>> {
    let operator = *random.pick(&OPERATORS);
    let codes = some_codes(random, 6);
    let (left, right) = (some_tree(random, &codes[..3]), some_tree(random, &codes[3..]));
    let one_child = Tree::Node(operator, vec![right.clone()]);
    let no_child = Tree::Node(operator, vec![]);
    let mut large = vec![one_child.clone(), Tree::Node(operator, vec![left.clone(), one_child])];
    large.extend([no_child.clone(), Tree::Node(operator, vec![no_child, left.clone()])]);
    let silents = random.between(100, 140);
    large.push(Tree::Node(operator, [vec![left, right], vec![Tree::Silent; silents]].concat()));
    large.iter().map(cut_off).collect()
}

/// The block with as many of the tree's entries as it holds.
fn cut_off(tree: &Tree) -> Vec<u8> {
    let mut block = tree.entries().concat();
    block.resize(BLOCK - 4, 0);
    block.resize(BLOCK, 0);
    write_check(&mut block);
    block
}

/// Trees at the edges of the format.
fn special_trees() -> Vec<Tree> {
    let silents = |count| vec![Tree::Silent; count];
    let flat = |operator, count| Tree::Node(operator, silents(count));
    let mut comb = Tree::Silent;
    for _ in 0..63 {
        comb = Tree::Node(Operator::Loop, vec![Tree::Silent, comb]);
    }
    let mut other_comb = Tree::Silent;
    for _ in 0..63 {
        other_comb = Tree::Node(Operator::Sequence, vec![other_comb, Tree::Silent]);
    }
    let mut trees = vec![Tree::Silent, Tree::Activity(0), Tree::Activity(30), comb, other_comb];
    trees.extend([2, 3, 125, 126].map(|count| flat(Operator::Parallel, count)));
    trees
}

/// Every byte of some trees changed, alone and with the check made right again.
pub fn every_byte(tally: &mut Tally) {
    let mut random = Random::seeded(42);
    let mut trees = special_trees();
    trees.extend((0..6).map(|_| any_tree(&mut random)));
    for tree in trees {
        let sound = tree.block();
        for place in 0..BLOCK {
            for change in [1, 2, 255, random.between(3, 254) as u8] {
                let mut block = sound;
                block[place] = block[place].wrapping_add(change);
                check(tally, &block);
                write_check(&mut block);
                check(tally, &block);
            }
        }
    }
}
