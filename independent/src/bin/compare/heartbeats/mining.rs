//! Mining logs with heartbeats: the answer, the block and the work are those of the log without them.

use super::{beating, every_place, large_at};
use crate::gathering::{blocks_of, places, Miner};
use crate::mining::every_word;
use crate::tally::Tally;
use crate::trial::{Case, Outcome};
use independent::answer::{packed, refuse};
use independent::block::{write_check, BLOCK};
use independent::calls::MINING_WORK;
use independent::generate::heartbeats::{alone, every_way, put_anywhere, put_some, Where, PLACES};
use independent::generate::logs::{any_episodes, largest_log, tree_episodes};
use independent::generate::random::Random;
use independent::generate::trees::{short_episode, some_codes, some_tree};
use independent::log::{episodes_of, events_of, log_of, Episode, EVENT_CODES, HEARTBEAT, MOST_BLOCKS};

/// A tree of 31 codes has at most 4 times 31 less 1 nodes.
const MOST_NODES: usize = 4 * EVENT_CODES - 1;

fn mine(tally: &mut Tally, log: Vec<u8>) -> Outcome {
    let outcome = beating(tally, Case::mine(log, BLOCK, MINING_WORK));
    let sound = outcome.tree().is_some_and(|tree| tree.size() <= MOST_NODES && !tree.leaf_codes().contains(&HEARTBEAT));
    tally.holds("a mined tree has no leaf 31 and at most 123 nodes", sound);
    outcome
}

fn log(episodes: &[Episode]) -> Vec<u8> {
    log_of(episodes).expect("16 blocks hold them")
}

/// Mines two logs that must differ in heartbeats alone.
fn mine_both(tally: &mut Tally, without: Vec<u8>, with: Vec<u8>) {
    let [without, with] = [without, with].map(|log| mine(tally, log));
    tally.holds("heartbeats change nothing that mining leaves", without.leaves_as(&with));
}

/// Mines the episodes with every choice of one way for each.
fn mine_every_way(tally: &mut Tally, episodes: &[Episode]) {
    let with = |logs: Vec<Vec<Episode>>, events: &Episode| -> Vec<Vec<Episode>> {
        let ways = every_way(events);
        logs.iter().flat_map(|log| ways.iter().map(|way| [&log[..], std::slice::from_ref(way)].concat())).collect()
    };
    let without = mine(tally, log(episodes));
    for episodes in episodes.iter().fold(vec![vec![]], with).into_iter().skip(1) {
        let outcome = mine(tally, log(&episodes));
        tally.holds("heartbeats change nothing that mining leaves", without.leaves_as(&outcome));
    }
}

/// Every episode of up to three events of three codes alone, every two of up to two events of two codes, and rows of the
/// bench sheet.
pub fn every_gap(tally: &mut Tally) {
    every_word(3, 3).into_iter().for_each(|word| mine_every_way(tally, &[word]));
    let words = every_word(2, 2);
    for (later, word) in words.iter().enumerate() {
        words[..later].iter().for_each(|earlier| mine_every_way(tally, &[earlier.clone(), word.clone()]));
    }
    for row in ["abc acb", "a aba", "ab abcab", "ab bc ca"] {
        let episode = |word: &str| word.bytes().map(|letter| letter - b'a').collect();
        mine_every_way(tally, &row.split(' ').map(episode).collect::<Vec<Episode>>());
    }
}

/// Logs of trees and of any codes, heartbeats put at one kind of place in all episodes or at any in each.
pub fn some_logs(tally: &mut Tally) {
    let mut random = Random::seeded(44);
    for round in 0..1_800 {
        let codes = random.between(1, [4, 8, EVENT_CODES][round % 3]);
        let hand = some_codes(&mut random, codes);
        let tree = some_tree(&mut random, &hand);
        let count = random.between(1, 30);
        let events = match round % 4 {
            0 => any_episodes(&mut random, count.min(8), codes, 8),
            _ => tree_episodes(&mut random, &tree, count),
        };
        let with: Vec<Episode> = events.iter().map(|events| put_by_turn(&mut random, events, round)).collect();
        mine_both(tally, log(&events), log(&with));
    }
}

/// At one kind of place, or every fifth time at any.
fn put_by_turn(random: &mut Random, events: &[u8], turn: usize) -> Episode {
    match PLACES[turn % 5] {
        Where::Nowhere => put_anywhere(random, events),
        place => put_some(random, events, place),
    }
}

/// Records of 1 to 63 heartbeats: alone, twice, beside the empty record and beside events, before and behind them, in a
/// block of their own too and before blocks without a record.
pub fn records_of_heartbeats(tally: &mut Tally) {
    for beats in 1..=63 {
        let (empty, only, event, two) = (vec![], alone(beats), vec![beats as u8 % 31], vec![0, 1]);
        let logs = |one: &Episode| {
            let [before, behind] = [[one.clone(), event.clone()], [two.clone(), one.clone()]];
            let apart = blocks_of(&[&[event.clone(), two.clone()], std::slice::from_ref(one), &[]]);
            let twice = log(&[one.clone(), empty.clone(), one[one.len() / 2..].to_vec()]);
            [log(&[one.clone()]), twice, log(&before), log(&behind), apart]
        };
        logs(&empty).into_iter().zip(logs(&only)).for_each(|(without, with)| mine_both(tally, without, with));
    }
}

/// Blocks of 255 records, 252 of one heartbeat and three without a code; then with one event as the last but three.
pub fn most_records(tally: &mut Tally) {
    let block = |last: Episode| [vec![alone(1); 251], vec![last], vec![vec![]; 3]].concat();
    for blocks in 0..MOST_BLOCKS {
        let before = blocks_of(&vec![&block(alone(1))[..]; blocks]);
        for last in [alone(1), vec![7]] {
            let with = [&before[..], &blocks_of(&[&block(last.clone())])].concat();
            mine_both(tally, log(&[vec![], events_of(&last)]), with);
        }
    }
}

/// Full logs: of trees, of one episode with heartbeats that always stand elsewhere, and of records of 63 heartbeats.
pub fn full_logs(tally: &mut Tally) {
    let mut random = Random::seeded(41);
    for round in 0..40 {
        let codes = some_codes(&mut random, [EVENT_CODES, 20, 12, 5][round % 4]);
        let tree = some_tree(&mut random, &codes);
        let one = short_episode(&mut random, &tree, 2);
        let next = |random: &mut Random| {
            let events = if round < 20 { short_episode(random, &tree, 4) } else { one.clone() };
            put_by_turn(random, &events, round / 4)
        };
        let with = largest_log(&mut random, next);
        let without = log(&episodes_of(&with).expect("a sound log"));
        mine_both(tally, without, with);
    }
    let beats = largest_log(&mut random, |random| alone(random.between(0, 63)));
    mine_both(tally, log(&[vec![]]), beats);
    let longest = |_: &mut Random| alone(63);
    mine_both(tally, log(&[vec![]]), largest_log(&mut random, longest));
}

/// Two episodes that are nearly equal, or whose records are: but for one code, but for one event that the other has not, one
/// the beginning of the other, or the same events in another order.
fn near_by(length: usize, place: usize) -> Vec<[Episode; 2]> {
    let one: Episode = (0..length as u8).collect();
    let (mut changed, mut missing, mut turned) = (one.clone(), one.clone(), one.clone());
    changed[place] = 30;
    missing[place] = HEARTBEAT;
    turned[place..].rotate_left(1);
    let mut others = vec![changed, missing, one[..place].to_vec()];
    others.extend((place + 1 < length).then_some(turned));
    others.into_iter().map(|other| [one.clone(), other]).collect()
}

/// Each of two nearly equal episodes with heartbeats in either: both must be gathered.
pub fn nearly_equal(tally: &mut Tally) {
    let mut random = Random::seeded(42);
    for (length, place) in places(&[1, 2, 3, 4, 5, 8, 15, 30]) {
        for pair in near_by(length, place) {
            for turn in 0..4 {
                let mut with = pair.each_ref().map(|codes| put_by_turn(&mut random, &events_of(codes), turn));
                with[turn % 2] = pair[turn % 2].clone();
                mine_both(tally, log(&pair.each_ref().map(|codes| events_of(codes))), log(&with));
                with.rotate_left(turn / 2);
                Miner::new(tally).tells_from(log(&with), &with[..1]);
            }
        }
    }
}

/// Records with a code above 31 behind heartbeats, in the first block and in later ones.
pub fn large_codes(tally: &mut Tally) {
    for (length, place) in every_place(63) {
        let blocks = (length + place) % MOST_BLOCKS;
        for codes in large_at(length, place) {
            let mut log = blocks_of(&vec![&[alone(5), vec![0, HEARTBEAT, 1]][..]; blocks + 1]);
            let block = &mut log[blocks * BLOCK..];
            block[0] += 1;
            block[11] = length as u8;
            block[12..12 + length].copy_from_slice(&codes);
            write_check(block);
            let answer = beating(tally, Case::mine(log, BLOCK, MINING_WORK)).answer;
            let due = packed(refuse(6, blocks * BLOCK + 12 + place));
            tally.holds("mining gives 6 at its own place behind heartbeats", answer == due);
        }
    }
}
