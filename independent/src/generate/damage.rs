//! Damage to blocks, each kind aimed at one row of the table of refusals.

use super::random::Random;
use crate::block::{write_check, BLOCK, CHECK_AT};
use crate::log::{record_at, HEARTBEAT};
use crate::tree::ENTRIES;

#[derive(Clone, Copy, Debug, PartialEq, Eq)]
pub enum LogDamage {
    /// 4
    Check,
    /// 5, each at another place
    LongRecord,
    PastTheEnd,
    NoLength,
    Padding,
    /// 6
    Code,
    /// 7, if every block has it
    NoRecord,
}

pub const LOG_DAMAGES: [LogDamage; 7] = [
    LogDamage::Check,
    LogDamage::LongRecord,
    LogDamage::PastTheEnd,
    LogDamage::NoLength,
    LogDamage::Padding,
    LogDamage::Code,
    LogDamage::NoRecord,
];

/// The places of the length bytes, and behind them the place where the records end.
fn length_bytes(block: &[u8]) -> Vec<usize> {
    let mut places = vec![1];
    for _ in 0..block[0] {
        match record_at(block, places[places.len() - 1]) {
            Ok(codes) => places.push(codes.end),
            Err(_) => break,
        }
    }
    places
}

/// Damages a block and gives it the right check again, unless the check is what is damaged.
pub fn damage_log_block(random: &mut Random, block: &mut [u8], damage: LogDamage) {
    let mut places = length_bytes(block);
    let end = places.pop().unwrap_or(1);
    match damage {
        LogDamage::Check => {
            block[random.between(CHECK_AT, BLOCK - 1)] ^= 1 << random.below(8);
            return;
        }
        LogDamage::LongRecord if !places.is_empty() => block[*random.pick(&places)] = random.byte_from(64),
        LogDamage::PastTheEnd => {
            if let Some(&at) = places.iter().rfind(|&&at| at + 64 > CHECK_AT) {
                block[at] = random.between(CHECK_AT - at, 63) as u8;
            }
        }
        LogDamage::NoLength => block[0] = 255,
        LogDamage::Padding if end < CHECK_AT => block[random.between(end, CHECK_AT - 1)] = random.byte_from(1),
        LogDamage::Code => {
            let codes = (1..end).filter(|place| !places.contains(place)).collect::<Vec<_>>();
            if !codes.is_empty() {
                block[*random.pick(&codes)] = random.byte_from(32);
            }
        }
        LogDamage::NoRecord => block.fill(0),
        LogDamage::LongRecord | LogDamage::Padding => {}
    }
    write_check(block);
}

#[derive(Clone, Copy, Debug, PartialEq, Eq)]
pub enum TreeDamage {
    Kind,
    Argument,
    LargeCode,
    HeartbeatLeaf,
    SameCode,
    OneChild,
    Size,
    FourthByte,
    Rest,
    Empty,
}

pub const TREE_DAMAGES: [TreeDamage; 10] = [
    TreeDamage::Kind,
    TreeDamage::Argument,
    TreeDamage::LargeCode,
    TreeDamage::HeartbeatLeaf,
    TreeDamage::SameCode,
    TreeDamage::OneChild,
    TreeDamage::Size,
    TreeDamage::FourthByte,
    TreeDamage::Rest,
    TreeDamage::Empty,
];

/// Damages the form of a sound tree block, most times so that it gets 9, and gives it the right check again.
pub fn damage_tree(random: &mut Random, block: &mut [u8], damage: TreeDamage) {
    let nodes = (block[2] as usize).min(ENTRIES);
    let entries = |kinds: std::ops::RangeInclusive<u8>| -> Vec<usize> {
        (0..nodes).filter(|&at| kinds.contains(&block[4 * at])).map(|at| 4 * at).collect()
    };
    let (any, leaves, operators) = (entries(1..=6), entries(2..=2), entries(3..=6));
    if any.is_empty() {
        return;
    }
    match damage {
        TreeDamage::Kind => block[*random.pick(&any)] = random.between(0, 9) as u8,
        TreeDamage::Argument => block[1 + *random.pick(&any)] = random.between(0, 9) as u8,
        TreeDamage::LargeCode if !leaves.is_empty() => block[1 + *random.pick(&leaves)] = random.byte_from(32),
        TreeDamage::HeartbeatLeaf if !leaves.is_empty() => block[1 + *random.pick(&leaves)] = HEARTBEAT,
        TreeDamage::SameCode if leaves.len() > 1 => block[1 + leaves[0]] = block[1 + leaves[leaves.len() - 1]],
        TreeDamage::OneChild if !operators.is_empty() => block[1 + *random.pick(&operators)] = 1,
        TreeDamage::Size => block[2 + *random.pick(&any)] = random.between(0, 127) as u8,
        TreeDamage::FourthByte => block[3 + *random.pick(&any)] = random.byte_from(1),
        TreeDamage::Rest if nodes < ENTRIES => block[random.between(4 * nodes, CHECK_AT - 1)] = random.byte_from(1),
        TreeDamage::Empty => block.fill(0),
        _ => {}
    }
    write_check(block);
}
