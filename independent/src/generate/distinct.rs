//! Logs by their distinct episodes: a few that come again and again, all of them different, as many as 16 blocks hold, and
//! episodes that all want the same places of a table.

use super::logs::largest_log;
use super::random::Random;
use crate::block::BLOCK;
use crate::fast::SLOTS;
use crate::log::{add, is_event, Episode, EVENT_CODES, LONGEST_EPISODE, MOST_BLOCKS};
use std::collections::BTreeSet;

const SHORTEST: usize = 20;

/// Orders of a group of four codes, the first two in sequence and beside them the last two in sequence. Together they have
/// every pair of the one and the other, both ways.
const ORDERS: [[usize; 4]; 4] = [[0, 1, 2, 3], [2, 3, 0, 1], [2, 0, 3, 1], [0, 2, 1, 3]];

/// So many events of eight groups, one group after the other, the last without the heartbeat's code. Codes from `from` on
/// come twice, or are missing where the episode is short, but never both codes of a sequence.
fn grouped(order: usize, from: usize, length: usize) -> Episode {
    let mut times = [1; EVENT_CODES];
    (EVENT_CODES..length).for_each(|more| times[(from + more) % EVENT_CODES] += 1);
    (length..EVENT_CODES).for_each(|less| times[(from + less) % (EVENT_CODES / 2) * 2 + order % 2] -= 1);
    let codes = (0..8).flat_map(|group| ORDERS[(order + group) % 4].map(|code| 4 * group + code));
    codes.filter(|&code| is_event(code as u8)).flat_map(|code| vec![code as u8; times[code]]).collect()
}

/// So many distinct episodes, from the shortest to the longest.
pub fn grouped_episodes(count: usize) -> Vec<Episode> {
    let length = |number| SHORTEST + (LONGEST_EPISODE - SHORTEST) * number / (count - 1);
    (0..count).map(|number| grouped(number, 11 * number, length(number))).collect()
}

/// A full log of these episodes alone, each in its turn.
pub fn repeating_log(episodes: &[Episode]) -> Vec<u8> {
    let mut turns = episodes.iter().cycle();
    largest_log(&mut Random::seeded(65), |_| turns.next().cloned().expect("a cycle"))
}

/// A full log in which no episode comes twice.
pub fn log_without_repeats() -> Vec<u8> {
    let mut seen = BTreeSet::new();
    let any = |random: &mut Random| {
        grouped(random.below(4), random.below(EVENT_CODES), random.between(SHORTEST, LONGEST_EPISODE))
    };
    let next = |random: &mut Random| loop {
        let episode = any(random);
        if seen.insert(episode.clone()) {
            return episode;
        }
    };
    largest_log(&mut Random::seeded(66), next)
}

/// Every episode of so many events of the first `codes` codes.
pub fn every_episode(codes: u8, length: usize) -> Vec<Episode> {
    let longer = |episodes: Vec<Episode>| {
        let with = |episode: &Episode| (0..codes).map(|code| [&episode[..], &[code]].concat()).collect::<Vec<_>>();
        episodes.iter().flat_map(with).collect()
    };
    (0..length).fold(vec![vec![]], |episodes, _| longer(episodes))
}

/// As many distinct episodes as a log can have, which are 2,284: the empty one, all of one and of two events, then of three.
pub fn most_episodes() -> Vec<Episode> {
    let mut episodes = every_episode(EVENT_CODES as u8, 3);
    episodes.truncate(1_291);
    (0..3).rev().for_each(|length| episodes.extend(every_episode(EVENT_CODES as u8, length)));
    episodes
}

/// Each episode in the first of 16 blocks that has room for it.
pub fn first_fit(episodes: &[Episode]) -> Vec<u8> {
    let mut log = vec![0; MOST_BLOCKS * BLOCK];
    for episode in episodes {
        log.chunks_mut(BLOCK).find_map(|block| add(block, episode).ok()).expect("there is room");
    }
    log
}

/// The episodes in the order of the slots that a number gives them, from `slot` on.
pub fn crowd(mut episodes: Vec<Episode>, slot: usize, number: fn(&[u8]) -> u32) -> Vec<Episode> {
    episodes.sort_by_cached_key(|episode| (number(episode) as usize + SLOTS - slot) % SLOTS);
    episodes
}
