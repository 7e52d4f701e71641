//! Heartbeats: mining and judging pass over them, reading and adding keep and count them, and no tree has them.

use independent::answer::{packed, refuse};
use independent::block::{write_check, BLOCK};
use independent::calls::{Gateway, Plain, JUDGING_WORK, MINING_WORK};
use independent::fast::Fast;
use independent::generate::heartbeats::{alone, every_way};
use independent::listing::{judging_output, mining_output};
use independent::log::{events_of, log_of, Episode, HEARTBEAT};
use independent::tree::{well_formed, Operator::*, Tree};

const SIDES: [&dyn Gateway; 2] = [&Plain, &Fast];

/// Episodes as letters, parted by spaces: h is the heartbeat, e the empty episode.
fn episodes(text: &str) -> Vec<Episode> {
    text.split(' ').map(episode).collect()
}

fn episode(letters: &str) -> Episode {
    let code = |letter| if letter == b'h' { HEARTBEAT } else { letter - b'a' };
    letters.bytes().filter(|&letter| letter != b'e').map(code).collect()
}

fn leaf(letter: char) -> Tree {
    Tree::Activity(letter as u8 - b'a')
}

fn node(operator: independent::tree::Operator, letters: &str) -> Tree {
    Tree::Node(operator, letters.chars().map(leaf).collect())
}

fn flower(letters: &str) -> Tree {
    Tree::flower(&letters.bytes().map(|letter| letter - b'a').collect())
}

fn mined(side: &dyn Gateway, log: &[u8]) -> Tree {
    let (mut out, mut work) = ([7; BLOCK], vec![9; MINING_WORK]);
    let nodes = side.mine(log, &mut out, &mut work);
    let tree = well_formed(&out).expect("a mined tree is well formed");
    assert_eq!((nodes, out), (tree.size() as u64, tree.block()));
    assert!(work.iter().all(|&byte| byte == 0));
    tree
}

fn judged(side: &dyn Gateway, tree: &[u8], episode: &[u8]) -> u64 {
    side.judge(tree, episode, &mut vec![5; JUDGING_WORK])
}

/// A block whose one record has these codes, whatever they are.
fn block_of(codes: &[u8]) -> Vec<u8> {
    let mut block = vec![0; BLOCK];
    block[..2].copy_from_slice(&[1, codes.len() as u8]);
    block[2..2 + codes.len()].copy_from_slice(codes);
    write_check(&mut block);
    block
}

#[test]
fn mining_rows() {
    let rows = [
        ("hab", node(Sequence, "ab")),
        ("ahb", node(Sequence, "ab")),
        ("abh", node(Sequence, "ab")),
        ("hhahhbhh", node(Sequence, "ab")),
        ("h", Tree::Silent),
        ("h e hhh", Tree::Silent),
        ("ha a", leaf('a')),
        ("a h", flower("a")),
        ("aha", flower("a")),
        ("ah hb", node(Choice, "ab")),
        ("ahb bha", node(Parallel, "ab")),
        ("ah hahbha", node(Loop, "ab")),
        ("ahb bhc cha", flower("abc")),
        ("ahb ah", Tree::Node(Sequence, vec![leaf('a'), flower("b")])),
        ("hbcbhac abhhcah", Tree::Node(Parallel, vec![flower("a"), flower("bc")])),
    ];
    for side in SIDES {
        for (text, tree) in &rows {
            let log = log_of(&episodes(text)).expect("one block");
            assert_eq!(mined(side, &log), *tree, "{} mining {text}", side.name());
        }
    }
}

/// Records that differ in heartbeats alone are one episode, in whatever way they differ.
#[test]
fn the_tree_depends_only_on_the_set_of_episodes() {
    for side in SIDES {
        for text in ["e", "a", "ab", "abc", "aab"] {
            let ways = every_way(&episode(text));
            let alone = mined(side, &log_of(&ways[..1]).expect("one block"));
            assert_eq!(mined(side, &log_of(&ways).expect("two blocks")), alone, "{} mining {text}", side.name());
            ways.iter().for_each(|way| assert_eq!(events_of(way), episode(text)));
        }
    }
}

#[test]
fn a_record_of_63_heartbeats_is_an_empty_episode() {
    for side in SIDES {
        assert_eq!(mined(side, &block_of(&alone(63))), Tree::Silent);
        assert_eq!(mined(side, &log_of(&[alone(63), vec![0]]).expect("one block")), flower("a"));
        assert_eq!(side.mine(&block_of(&alone(64)), &mut [0; BLOCK], &mut [0; MINING_WORK]), packed(refuse(5, 1)));
    }
}

#[test]
fn verdicts_are_those_of_the_events() {
    for side in SIDES {
        let tree = node(Sequence, "ab").block();
        for (text, verdict) in [("ab", 1), ("ba", 0), ("a", 0), ("e", 0), ("abb", 0)] {
            for way in every_way(&episode(text)) {
                assert_eq!(judged(side, &tree, &way), verdict, "{} judging {way:?}", side.name());
            }
        }
        assert_eq!(judged(side, &Tree::Silent.block(), &alone(63)), 1);
        assert_eq!(judged(side, &leaf('a').block(), &alone(63)), 0);
    }
}

#[test]
fn limits_count_heartbeats() {
    for side in SIDES {
        assert_eq!(judged(side, &Tree::Silent.block(), &alone(64)), packed(refuse(10, 0)));
        let events = [vec![0; 63], alone(1)].concat();
        assert_eq!(judged(side, &flower("a").block(), &events[1..]), 1);
        assert_eq!(judged(side, &flower("a").block(), &events), packed(refuse(10, 0)));
        assert_eq!(side.add(&mut [0; BLOCK], &alone(63)), 1);
        assert_eq!(side.add(&mut [0; BLOCK], &alone(64)), packed(refuse(10, 0)));
    }
}

#[test]
fn a_code_above_31_is_refused_at_its_own_place() {
    let codes = episode("hhahbh").into_iter().chain([32, 33]).collect::<Episode>();
    let block = block_of(&codes);
    for side in SIDES {
        assert_eq!(side.read(&block, 1), packed(refuse(6, 8)));
        assert_eq!(side.mine(&block, &mut [0; BLOCK], &mut [0; MINING_WORK]), packed(refuse(6, 8)));
        assert_eq!(side.add(&mut [0; BLOCK], &codes), packed(refuse(11, 6)));
        assert_eq!(judged(side, &flower("ab").block(), &codes), packed(refuse(11, 6)));
    }
}

#[test]
fn reading_and_adding_keep_heartbeats() {
    for side in SIDES {
        for (number, codes) in every_way(&episode("ab")).iter().enumerate() {
            let mut block = [0; BLOCK];
            assert_eq!(side.add(&mut block, codes), 1);
            assert_eq!(block[..], block_of(codes), "way {number}");
            assert_eq!(side.read(&block, 1), 2 + codes.len() as u64, "way {number}");
        }
    }
}

#[test]
fn a_leaf_31_gets_9() {
    let trees = [
        Tree::Activity(HEARTBEAT),
        Tree::Node(Sequence, vec![leaf('a'), Tree::Activity(HEARTBEAT)]),
        Tree::Node(Loop, vec![Tree::Activity(HEARTBEAT), leaf('a')]),
        Tree::flower(&(0..=HEARTBEAT).collect()),
    ];
    for side in SIDES {
        for tree in &trees {
            let refused = packed(refuse(9, 0));
            assert_eq!(side.check(&tree.block()), refused, "{tree:?}");
            for episode in [vec![], alone(1), alone(64), vec![32]] {
                assert_eq!(judged(side, &tree.block(), &episode), refused, "{tree:?}");
            }
        }
        assert_eq!(side.check(&Tree::flower(&(0..HEARTBEAT).collect()).block()), 33);
    }
}

#[test]
fn the_programs() {
    let log = log_of(&episodes("ahb habh hh bha")).expect("one block");
    assert_eq!(mining_output(&log), "nodes 4\n0 loop 3 4\n1 tau 0 1\n2 act 0 1\n3 act 1 1\n");
    let sequence = node(Sequence, "ab").block();
    assert_eq!(judging_output(&[&sequence[..], &log].concat()), "1 fits\n2 fits\n3 misfit\n4 misfit\n");
    let leaf = Tree::Activity(HEARTBEAT).block();
    assert_eq!(judging_output(&[&leaf[..], &log].concat()), "refused 9 at 0\n");
    let large = block_of(&[HEARTBEAT, 0, HEARTBEAT, 32]);
    assert_eq!(judging_output(&[&sequence[..], &log, &large].concat()), "refused 6 at 517\n");
}
