//! The rows of the bench sheet, for both variants.

use independent::answer::{packed, refuse};
use independent::block::BLOCK;
use independent::calls::{Gateway, Plain, JUDGING_WORK, MINING_WORK};
use independent::fast::Fast;
use independent::log::{log_of, Episode};
use independent::tree::{well_formed, Operator::*, Tree};

const SIDES: [&dyn Gateway; 2] = [&Plain, &Fast];

/// Episodes as letters, parted by spaces; e is the empty one.
fn episodes(text: &str) -> Vec<Episode> {
    text.split(' ').map(episode).collect()
}

fn episode(letters: &str) -> Episode {
    letters.bytes().filter(|&letter| letter != b'e').map(|letter| letter - b'a').collect()
}

fn a() -> Tree {
    Tree::Activity(0)
}

fn b() -> Tree {
    Tree::Activity(1)
}

fn c() -> Tree {
    Tree::Activity(2)
}

fn flower(children: Vec<Tree>) -> Tree {
    Tree::Node(Loop, std::iter::once(Tree::Silent).chain(children).collect())
}

fn mined(side: &dyn Gateway, text: &str) -> Tree {
    let log = log_of(&episodes(text)).expect("one block");
    let mut out = [7; BLOCK];
    let nodes = side.mine(&log, &mut out, &mut [9; MINING_WORK]);
    let tree = well_formed(&out).expect("a mined tree is well formed");
    assert_eq!(nodes, tree.size() as u64);
    assert_eq!(out, tree.block());
    tree
}

fn verdict(side: &dyn Gateway, tree: &Tree, episode: &[u8]) -> u64 {
    side.judge(&tree.block(), episode, &mut vec![5; JUDGING_WORK])
}

#[test]
fn mining_rows() {
    let rows = [
        ("e", Tree::Silent),
        ("a a", a()),
        ("a e", flower(vec![a()])),
        ("aa", flower(vec![a()])),
        ("ab", Tree::Node(Sequence, vec![a(), b()])),
        ("a b", Tree::Node(Choice, vec![a(), b()])),
        ("ab ba", Tree::Node(Parallel, vec![a(), b()])),
        ("abc acb", Tree::Node(Sequence, vec![a(), Tree::Node(Parallel, vec![b(), c()])])),
        ("a aba", Tree::Node(Loop, vec![a(), b()])),
        ("ab a", Tree::Node(Sequence, vec![a(), flower(vec![b()])])),
        ("ab abcab", Tree::Node(Loop, vec![Tree::Node(Sequence, vec![a(), b()]), c()])),
        ("ab bc ca", flower(vec![a(), b(), c()])),
    ];
    for side in SIDES {
        for (text, tree) in &rows {
            assert_eq!(mined(side, text), *tree, "{} mining {text}", side.name());
        }
    }
}

#[test]
fn j1_redo_between_two_bodies() {
    for side in SIDES {
        let tree = mined(side, "ab abcab");
        for text in ["ab", "abcabcab"] {
            assert_eq!(verdict(side, &tree, &episode(text)), 1, "{text}");
        }
        for text in ["abab", "abc", "e"] {
            assert_eq!(verdict(side, &tree, &episode(text)), 0, "{text}");
        }
    }
}

#[test]
fn j2_an_empty_redo_lets_two_bodies_touch() {
    for side in SIDES {
        let tree = mined(side, "ab abcab abccab");
        let body = Tree::Node(Sequence, vec![a(), b()]);
        assert_eq!(tree, Tree::Node(Loop, vec![body, flower(vec![c()])]));
        assert_eq!(verdict(side, &tree, &episode("abab")), 1);
    }
}

#[test]
fn j3_the_longest_episode() {
    for side in SIDES {
        let tree = flower(vec![a()]);
        assert_eq!(verdict(side, &tree, &[0; 63]), 1);
        assert_eq!(verdict(side, &tree, &[0; 64]), packed(refuse(10, 0)));
    }
}

#[test]
fn j4_three_free_bytes() {
    for side in SIDES {
        // 1 + 7 * 64 + 56 = 505, so bytes 505 to 507 are free.
        let mut block = [0; BLOCK];
        for length in [63, 63, 63, 63, 63, 63, 63, 55] {
            side.add(&mut block, &vec![1; length]);
        }
        let before = block;
        assert_eq!(side.add(&mut block, &[0, 1, 2]), packed(refuse(12, 0)));
        assert_eq!(block, before);
        assert_eq!(side.add(&mut block, &[0, 1]), 9);
        assert_eq!(block[505..508], [2, 0, 1]);
    }
}

#[test]
fn a_parallel_part_of_two_components() {
    for side in SIDES {
        let parts = vec![flower(vec![a()]), flower(vec![b(), c()])];
        assert_eq!(mined(side, "bcbac abca"), Tree::Node(Parallel, parts));
    }
}

#[test]
fn mined_trees_are_not_reduced() {
    for side in SIDES {
        let inner = Tree::Node(Parallel, vec![a(), flower(vec![b()])]);
        assert_eq!(mined(side, "ac cbcab"), Tree::Node(Parallel, vec![inner, flower(vec![c()])]));
    }
}
