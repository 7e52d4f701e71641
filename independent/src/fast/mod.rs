//! The same calls made for speed: sublogs are views over the log's distinct episodes, sets of codes are 32 bits, judging goes
//! by rows of places. Nothing is proved of it and nothing is allocated; it is what the proved library is measured against.

mod codes;
mod cuts;
mod gather;
mod judge;
mod log;
mod mine;
mod tree;
mod view;

use crate::answer::packed;
use crate::calls::Gateway;
pub use gather::{number_of, SLOTS};

pub struct Fast;

impl Gateway for Fast {
    fn name(&self) -> &'static str {
        "fast"
    }

    fn read(&self, block: &[u8], at: usize) -> u64 {
        packed(log::read(block, at))
    }

    fn add(&self, block: &mut [u8], episode: &[u8]) -> u64 {
        packed(log::add(block, episode))
    }

    fn mine(&self, log: &[u8], out: &mut [u8], work: &mut [u8]) -> u64 {
        packed(mine::mine(log, out, work))
    }

    fn check(&self, tree: &[u8]) -> u64 {
        packed(tree::check(tree))
    }

    fn judge(&self, tree: &[u8], episode: &[u8], work: &mut [u64]) -> u64 {
        packed(judge::judge(tree, episode, work))
    }
}
