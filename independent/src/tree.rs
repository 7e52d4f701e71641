//! Trees and tree blocks: writing one down in preorder, and reading one back where it is well formed.

use crate::block::{write_check, BLOCK};
use crate::log::is_event;
use std::collections::BTreeSet;

pub const ENTRIES: usize = 127;

#[derive(Clone, Copy, Debug, PartialEq, Eq)]
pub enum Operator {
    Choice = 3,
    Sequence = 4,
    Parallel = 5,
    Loop = 6,
}

#[derive(Clone, Debug, PartialEq, Eq)]
pub enum Tree {
    Silent,
    Activity(u8),
    Node(Operator, Vec<Tree>),
}

impl Tree {
    /// The loop in which every code may come at any time.
    pub fn flower(codes: &BTreeSet<u8>) -> Tree {
        let petals = codes.iter().map(|&code| Tree::Activity(code));
        Tree::Node(Operator::Loop, std::iter::once(Tree::Silent).chain(petals).collect())
    }

    pub fn children(&self) -> &[Tree] {
        match self {
            Tree::Node(_, children) => children,
            _ => &[],
        }
    }

    /// The number of nodes, itself included.
    pub fn size(&self) -> usize {
        1 + self.children().iter().map(Tree::size).sum::<usize>()
    }

    /// The codes of the leaves from left to right, each as often as it stands there.
    pub fn leaf_codes(&self) -> Vec<u8> {
        match self {
            Tree::Silent => vec![],
            Tree::Activity(code) => vec![*code],
            Tree::Node(_, children) => children.iter().flat_map(Tree::leaf_codes).collect(),
        }
    }

    fn entry(&self) -> [u8; 4] {
        let size = self.size() as u8;
        match self {
            Tree::Silent => [1, 0, size, 0],
            Tree::Activity(code) => [2, *code, size, 0],
            Tree::Node(operator, children) => [*operator as u8, children.len() as u8, size, 0],
        }
    }

    /// The entries in preorder.
    pub fn entries(&self) -> Vec<[u8; 4]> {
        let below = self.children().iter().flat_map(Tree::entries);
        std::iter::once(self.entry()).chain(below).collect()
    }

    /// The tree block, for a tree of at most 127 nodes.
    pub fn block(&self) -> [u8; BLOCK] {
        let mut block = [0; BLOCK];
        for (at, entry) in self.entries().into_iter().enumerate() {
            block[4 * at..4 * at + 4].copy_from_slice(&entry);
        }
        write_check(&mut block);
        block
    }
}

fn operator_of(kind: u8) -> Option<Operator> {
    match kind {
        3 => Some(Operator::Choice),
        4 => Some(Operator::Sequence),
        5 => Some(Operator::Parallel),
        6 => Some(Operator::Loop),
        _ => None,
    }
}

/// The tree whose root is entry `at`, if that entry and all below it are sound.
fn node(block: &[u8], at: usize) -> Option<Tree> {
    if at >= ENTRIES {
        return None;
    }
    let [kind, argument, size, zero] = block[4 * at..4 * at + 4] else { return None };
    let tree = match kind {
        1 if argument == 0 => Tree::Silent,
        2 if is_event(argument) => Tree::Activity(argument),
        _ if argument >= 2 => Tree::Node(operator_of(kind)?, list(block, at + 1, argument as usize)?),
        _ => return None,
    };
    (zero == 0 && tree.size() == size as usize).then_some(tree)
}

/// The trees of `count` nodes in a row, the first at entry `at`.
fn list(block: &[u8], at: usize, count: usize) -> Option<Vec<Tree>> {
    let mut trees = Vec::new();
    let mut next = at;
    for _ in 0..count {
        let tree = node(block, next)?;
        next += tree.size();
        trees.push(tree);
    }
    Some(trees)
}

/// The tree of a block of 512 bytes, if it is well formed.
pub fn well_formed(block: &[u8]) -> Option<Tree> {
    let tree = node(block, 0)?;
    let rest_is_zero = block[4 * tree.size()..4 * ENTRIES].iter().all(|&byte| byte == 0);
    let codes = tree.leaf_codes();
    let distinct: BTreeSet<u8> = codes.iter().copied().collect();
    (rest_is_zero && distinct.len() == codes.len()).then_some(tree)
}
