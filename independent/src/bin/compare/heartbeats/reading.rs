//! Reading records with heartbeats: the codes handed on keep them.

use super::{at_place, beating, every_place, large_at};
use crate::tally::Tally;
use crate::trial::Case;
use independent::answer::{packed, refuse};
use independent::block::{BLOCK, CHECK_AT};

/// Records of every length up to 66, heartbeats at every place of them, at the first byte that can hold one or at the last.
pub fn every_record(tally: &mut Tally) {
    for (length, place) in every_place(66) {
        let at = [1, CHECK_AT - 1 - length][place % 2];
        for codes in at_place(length, place) {
            let next = if length > 63 { refuse(5, at) } else { Ok(at + 1 + length) };
            let answer = beating(tally, Case::Read { block: block_with(&codes, at), at }).answer;
            tally.holds("reading hands on 63 codes at most, heartbeats too", answer == packed(next));
        }
        for codes in large_at(length, place) {
            let due = if length > 63 { refuse(5, at) } else { refuse(6, at + 1 + place) };
            let answer = beating(tally, Case::Read { block: block_with(&codes, at), at }).answer;
            tally.holds("reading gives 5, then 6 at its own place, heartbeats counted", answer == packed(due));
        }
    }
}

/// Heartbeats all over, but for this record.
fn block_with(codes: &[u8], at: usize) -> Vec<u8> {
    let mut block = vec![31; BLOCK];
    block[at] = codes.len() as u8;
    block[at + 1..at + 1 + codes.len()].copy_from_slice(codes);
    block
}
