//! Logs: of a tree, of any codes, and filled to the last byte that an episode can use.

use super::random::Random;
use super::trees::short_episode;
use crate::block::BLOCK;
use crate::log::{add, log_of, Episode, MOST_BLOCKS};
use crate::tree::Tree;

/// Episodes of any codes below `codes`, each at most `longest` long.
pub fn any_episodes(random: &mut Random, count: usize, codes: usize, longest: usize) -> Vec<Episode> {
    (0..count).map(|_| any_episode(random, codes, longest)).collect()
}

pub fn any_episode(random: &mut Random, codes: usize, longest: usize) -> Episode {
    let length = random.between(0, longest);
    (0..length).map(|_| random.below(codes) as u8).collect()
}

pub fn tree_episodes(random: &mut Random, tree: &Tree, count: usize) -> Vec<Episode> {
    (0..count).map(|_| short_episode(random, tree, 3)).collect()
}

/// The log of as many of the episodes, from the first on, as 16 blocks hold.
pub fn packed_log(mut episodes: Vec<Episode>) -> Vec<u8> {
    loop {
        match log_of(&episodes) {
            Some(log) => return log,
            None => episodes.truncate(episodes.len() * 9 / 10),
        }
    }
}

/// A sound block with exactly so many free payload bytes.
pub fn block_with(random: &mut Random, free: usize) -> Vec<u8> {
    let mut block = vec![0; BLOCK];
    let mut left = 507 - free;
    while left > 0 {
        let length = random.below(left.min(64));
        let episode: Vec<u8> = (0..length).map(|_| random.below(32) as u8).collect();
        add(&mut block, &episode).expect("it has room");
        left -= length + 1;
    }
    block
}

/// Blocks into which no more episodes went, though a good many were tried.
pub fn full_log(random: &mut Random, blocks: usize, mut next: impl FnMut(&mut Random) -> Episode) -> Vec<u8> {
    let mut log = vec![0; blocks * BLOCK];
    for block in log.chunks_mut(BLOCK) {
        let mut turned_away = 0;
        while turned_away < 40 {
            turned_away += add(block, &next(random)).is_err() as usize;
        }
    }
    log
}

pub fn largest_log(random: &mut Random, next: impl FnMut(&mut Random) -> Episode) -> Vec<u8> {
    full_log(random, MOST_BLOCKS, next)
}
