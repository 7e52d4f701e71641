//! Checking a tree block in one pass from the last entry of the root's subtree to the first.

use super::codes::{bit, Codes};
use super::log::check_is_right;
use crate::answer::{refuse, Answer};
use crate::log::HEARTBEAT;

pub fn entry(tree: &[u8; 512], at: usize) -> [u8; 4] {
    tree.as_chunks().0[at]
}

pub fn check(tree: &[u8]) -> Answer<usize> {
    let Ok(tree) = tree.try_into() else { return refuse(8, 0) };
    check_block(tree)
}

pub fn check_block(tree: &[u8; 512]) -> Answer<usize> {
    if !check_is_right(tree) {
        return refuse(8, 0);
    }
    well_formed(tree).map_or_else(|| refuse(9, 0), Ok)
}

/// The number of nodes, if the tree is well formed.
fn well_formed(tree: &[u8; 512]) -> Option<usize> {
    let nodes = entry(tree, 0)[2] as usize;
    if nodes == 0 || nodes > 127 || tree[4 * nodes..508].iter().any(|&byte| byte != 0) {
        return None;
    }
    let mut codes = 0;
    for at in (0..nodes).rev() {
        codes = sound_entry(tree, at, nodes, codes)?;
    }
    Some(nodes)
}

/// The codes of the leaves from entry `at` on, if it is sound given that all later ones are.
fn sound_entry(tree: &[u8; 512], at: usize, nodes: usize, codes: Codes) -> Option<Codes> {
    match entry(tree, at) {
        [1, 0, 1, 0] => Some(codes),
        [2, code @ 0..HEARTBEAT, 1, 0] if codes & bit(code) == 0 => Some(codes | bit(code)),
        [3..=6, children @ 2..=255, size, 0] => {
            let mut next = at + 1;
            for _ in 0..children {
                if next >= nodes {
                    return None;
                }
                next += entry(tree, next)[2] as usize;
            }
            (next == at + size as usize).then_some(codes)
        }
        _ => None,
    }
}
