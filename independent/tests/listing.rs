//! The listing case and the programs' other lines.

use independent::block::{check_of, BLOCK};
use independent::listing::{judging_output, mining_output};
use independent::log::log_of;
use independent::tree::{Operator::*, Tree};

fn m8() -> Vec<u8> {
    log_of(&[vec![0, 1, 2], vec![0, 2, 1]]).expect("one block")
}

fn m8_tree() -> Tree {
    let later = Tree::Node(Parallel, vec![Tree::Activity(1), Tree::Activity(2)]);
    Tree::Node(Sequence, vec![Tree::Activity(0), later])
}

#[test]
fn the_listing_case() {
    let log = m8();
    assert_eq!(log[..10], [2, 3, 0, 1, 2, 3, 0, 2, 1, 0]);
    assert_eq!(check_of(&log), 65);
    assert_eq!(check_of(&m8_tree().block()), 282);
    let listing = "nodes 5\n0 seq 2 5\n1 act 0 1\n2 par 2 3\n3 act 1 1\n4 act 2 1\n";
    assert_eq!(mining_output(&log), listing);
}

#[test]
fn refused_logs() {
    assert_eq!(mining_output(&[]), "refused 1 at 0\n");
    assert_eq!(mining_output(&[0; BLOCK]), "refused 7 at 0\n");
    let mut log = [m8(), m8()].concat();
    log[BLOCK] = 3;
    assert_eq!(mining_output(&log), "refused 4 at 512\n");
}

#[test]
fn verdicts() {
    let log = log_of(&[vec![0, 1, 2], vec![1, 0], vec![]]).expect("one block");
    let input = [&m8_tree().block()[..], &log].concat();
    assert_eq!(judging_output(&input), "1 fits\n2 misfit\n3 misfit\n");
}

#[test]
fn the_judging_program_refuses_before_any_verdict() {
    let tree = m8_tree().block();
    assert_eq!(judging_output(&tree[..511]), "refused 8 at 0\n");
    assert_eq!(judging_output(&[0; BLOCK]), "refused 9 at 0\n");
    assert_eq!(judging_output(&tree), "refused 1 at 0\n");
    assert_eq!(judging_output(&[&tree[..], &[0; BLOCK]].concat()), "refused 7 at 0\n");
    let mut log = m8();
    log[20] = 1;
    assert_eq!(judging_output(&[&tree[..], &log].concat()), "refused 4 at 0\n");
}
