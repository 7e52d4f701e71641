//! The proved library behind its C boundary.

use crate::calls::Gateway;
use std::ptr;

extern "C" {
    fn arrabolzu_read(block: *const u8, len: usize, at: usize) -> u64;
    fn arrabolzu_add(block: *mut u8, len: usize, episode: *const u8, episode_len: usize) -> u64;
    fn arrabolzu_mine(log: *const u8, len: usize, out: *mut u8, out_len: usize, work: *mut u8, work_len: usize) -> u64;
    fn arrabolzu_check(tree: *const u8, len: usize) -> u64;
    fn arrabolzu_judge(
        tree: *const u8,
        len: usize,
        episode: *const u8,
        episode_len: usize,
        work: *mut u64,
        work_len: usize,
    ) -> u64;
}

pub struct Library {
    /// A caller in C may lend nothing as a null pointer with length 0.
    pub null_for_nothing: bool,
}

impl Library {
    fn lent<T>(&self, slice: &[T]) -> *const T {
        if self.null_for_nothing && slice.is_empty() {
            ptr::null()
        } else {
            slice.as_ptr()
        }
    }

    fn lent_mut<T>(&self, slice: &mut [T]) -> *mut T {
        if self.null_for_nothing && slice.is_empty() {
            ptr::null_mut()
        } else {
            slice.as_mut_ptr()
        }
    }
}

impl Gateway for Library {
    fn name(&self) -> &'static str {
        if self.null_for_nothing {
            "library, null for nothing"
        } else {
            "library"
        }
    }

    fn read(&self, block: &[u8], at: usize) -> u64 {
        unsafe { arrabolzu_read(self.lent(block), block.len(), at) }
    }

    fn add(&self, block: &mut [u8], episode: &[u8]) -> u64 {
        unsafe { arrabolzu_add(self.lent_mut(block), block.len(), self.lent(episode), episode.len()) }
    }

    fn mine(&self, log: &[u8], out: &mut [u8], work: &mut [u8]) -> u64 {
        let (out_len, work_len) = (out.len(), work.len());
        unsafe { arrabolzu_mine(self.lent(log), log.len(), self.lent_mut(out), out_len, self.lent_mut(work), work_len) }
    }

    fn check(&self, tree: &[u8]) -> u64 {
        unsafe { arrabolzu_check(self.lent(tree), tree.len()) }
    }

    fn judge(&self, tree: &[u8], episode: &[u8], work: &mut [u64]) -> u64 {
        let (tree_at, episode_at, len) = (self.lent(tree), self.lent(episode), work.len());
        unsafe { arrabolzu_judge(tree_at, tree.len(), episode_at, episode.len(), self.lent_mut(work), len) }
    }
}
