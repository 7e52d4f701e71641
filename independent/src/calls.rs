//! The five calls over lent memory: their refusals in order, and what they write.

use crate::answer::{packed, refuse, Answer};
use crate::block::{check_is_right, BLOCK};
use crate::tree::{well_formed, Tree};
use crate::{judge, log, mine};

pub const MINING_WORK: usize = 16_384;
pub const JUDGING_WORK: usize = 8_128;

/// One side of a comparison: the five calls with their answers as they cross the boundary.
pub trait Gateway {
    fn name(&self) -> &'static str;
    fn read(&self, block: &[u8], at: usize) -> u64;
    fn add(&self, block: &mut [u8], episode: &[u8]) -> u64;
    fn mine(&self, log: &[u8], out: &mut [u8], work: &mut [u8]) -> u64;
    fn check(&self, tree: &[u8]) -> u64;
    fn judge(&self, tree: &[u8], episode: &[u8], work: &mut [u64]) -> u64;
}

/// The implementation that follows the pages word by word.
pub struct Plain;

impl Gateway for Plain {
    fn name(&self) -> &'static str {
        "plain"
    }

    fn read(&self, block: &[u8], at: usize) -> u64 {
        packed(read(block, at))
    }

    fn add(&self, block: &mut [u8], episode: &[u8]) -> u64 {
        packed(log::add(block, episode))
    }

    fn mine(&self, log: &[u8], out: &mut [u8], work: &mut [u8]) -> u64 {
        packed(mine_log(log, out, work))
    }

    fn check(&self, tree: &[u8]) -> u64 {
        packed(check(tree))
    }

    fn judge(&self, tree: &[u8], episode: &[u8], work: &mut [u64]) -> u64 {
        packed(judge_episode(tree, episode, work))
    }
}

/// Answers the place of the next record.
pub fn read(block: &[u8], at: usize) -> Answer<usize> {
    if block.len() != BLOCK {
        return refuse(1, 0);
    }
    log::record_at(block, at).map(|codes| codes.end)
}

/// Writes the mined tree's block and answers its number of nodes.
pub fn mine_log(log: &[u8], out: &mut [u8], work: &mut [u8]) -> Answer<usize> {
    if !log::length_is_right(log) {
        return refuse(1, 0);
    }
    if out.len() < BLOCK {
        return refuse(2, 0);
    }
    if work.len() < MINING_WORK {
        return refuse(3, 0);
    }
    let episodes = log::episodes_of(log)?;
    let tree = mine::mine(&episodes.into_iter().collect());
    out[..BLOCK].copy_from_slice(&tree.block());
    work[..MINING_WORK].fill(0);
    Ok(tree.size())
}

fn tree_of(block: &[u8]) -> Answer<Tree> {
    if !check_is_right(block) {
        return refuse(8, 0);
    }
    well_formed(block).ok_or(crate::answer::Refusal { number: 9, place: 0 })
}

/// Answers the number of nodes.
pub fn check(tree: &[u8]) -> Answer<usize> {
    if tree.len() != BLOCK {
        return refuse(8, 0);
    }
    tree_of(tree).map(|tree| tree.size())
}

/// Answers 1 where the episode fits the tree, 0 where it does not.
pub fn judge_episode(tree: &[u8], episode: &[u8], work: &mut [u64]) -> Answer<usize> {
    if tree.len() != BLOCK {
        return refuse(8, 0);
    }
    if work.len() < JUDGING_WORK {
        return refuse(3, 0);
    }
    let tree = tree_of(tree)?;
    log::check_episode(episode)?;
    work[..JUDGING_WORK].fill(0);
    Ok(judge::fits(&tree, &log::events_of(episode)) as usize)
}
