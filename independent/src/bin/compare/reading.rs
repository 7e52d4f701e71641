//! Reading a record.

use crate::tally::Tally;
use crate::trial::Case;
use independent::block::BLOCK;
use independent::generate::damage::{damage_log_block, LOG_DAMAGES};
use independent::generate::logs::{any_episode, full_log};
use independent::generate::random::Random;

pub fn every_place(tally: &mut Tally) {
    let mut random = Random::seeded(11);
    for block in some_blocks(&mut random) {
        for at in 0..BLOCK + 8 {
            tally.case(Case::Read { block: block.clone(), at });
        }
    }
}

fn some_blocks(random: &mut Random) -> Vec<Vec<u8>> {
    let mut blocks = vec![vec![0; BLOCK], vec![1; BLOCK], vec![63; BLOCK]];
    blocks.push((0..BLOCK).map(|_| random.byte()).collect());
    blocks.push((0..BLOCK).map(|_| random.below(34) as u8).collect());
    for longest in [0, 1, 5, 63] {
        let full = full_log(random, 1, |random| any_episode(random, 32, longest));
        for damage in LOG_DAMAGES {
            let mut block = full.clone();
            damage_log_block(random, &mut block, damage);
            blocks.push(block);
        }
        blocks.push(full);
    }
    blocks
}

pub fn lengths(tally: &mut Tally) {
    for length in [0, 1, 2, 508, 511, 512, 513, 1024, 8192] {
        for at in [0, 1, 2, 507, 508, 511, 512, 1 << 16, 1 << 32, (1 << 32) + 1, usize::MAX - 1, usize::MAX] {
            tally.case(Case::Read { block: vec![0; length], at });
        }
    }
}
