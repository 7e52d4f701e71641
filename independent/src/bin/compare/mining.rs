//! Mining a log.

use crate::tally::Tally;
use crate::trial::Case;
use independent::block::{write_check, BLOCK};
use independent::calls::MINING_WORK;
use independent::generate::damage::{damage_log_block, LogDamage, LOG_DAMAGES};
use independent::generate::heartbeats::put_anywhere;
use independent::generate::largest::{Task, SHAPES};
use independent::generate::logs::{
    any_episode, any_episodes, block_with, full_log, largest_log, packed_log, tree_episodes,
};
use independent::generate::random::Random;
use independent::generate::trees::{short_episode, some_codes, some_tree, some_tree_under, OPERATORS};
use independent::log::{add, Episode, EVENT_CODES, MOST_BLOCKS};
use independent::tree::Tree;

fn mine(tally: &mut Tally, log: Vec<u8>) {
    tally.case(Case::mine(log, BLOCK, MINING_WORK));
}

/// Every word of up to `longest` letters.
pub fn every_word(letters: u8, longest: usize) -> Vec<Episode> {
    let mut words = vec![vec![]];
    let mut from = 0;
    for _ in 0..longest {
        let until = words.len();
        for number in from..until {
            for letter in 0..letters {
                let mut word = words[number].clone();
                word.push(letter);
                words.push(word);
            }
        }
        from = until;
    }
    words
}

/// Every set of one, two or three of the episodes with up to three events of three codes.
pub fn small_logs(tally: &mut Tally) {
    let words = every_word(3, 3);
    for first in 0..words.len() {
        mine(tally, packed_log(vec![words[first].clone()]));
        for second in 0..first {
            mine(tally, packed_log(vec![words[first].clone(), words[second].clone()]));
            for third in 0..second {
                let episodes = [third, first, second].map(|number| words[number].clone());
                mine(tally, packed_log(episodes.to_vec()));
            }
        }
    }
}

pub fn some_logs(tally: &mut Tally) {
    let mut random = Random::seeded(31);
    for round in 0..4000 {
        let codes = random.between(1, [4, 6, 8, EVENT_CODES][round % 4]);
        let tree = {
            let codes = some_codes(&mut random, codes);
            some_tree(&mut random, &codes)
        };
        let count = random.between(1, 60);
        mine(tally, packed_log(tree_episodes(&mut random, &tree, count)));
        let (count, longest) = (random.between(1, 8), random.between(1, 8));
        mine(tally, packed_log(any_episodes(&mut random, count, codes, longest)));
    }
    let sizes = [(512, 16_384), (513, 16_385), (600, 16_384), (512, 20_000), (8_192, 65_536)];
    for (out, work) in sizes {
        for log in [packed_log(any_episodes(&mut random, 30, 5, 9)), vec![0; BLOCK]] {
            tally.case(Case::mine(log, out, work));
        }
    }
}

/// Logs of a tree in which an episode or two were changed a little: most cuts hold still, or only just fail.
pub fn near_trees(tally: &mut Tally) {
    let mut random = Random::seeded(34);
    for round in 0..6000 {
        let count = random.between(2, 8);
        let codes = some_codes(&mut random, count);
        let tree = some_tree_under(&mut random, OPERATORS[round % 4], &codes);
        let count = random.between(5, 40);
        let mut episodes = tree_episodes(&mut random, &tree, count);
        for _ in 0..random.between(1, 3) {
            let number = random.below(episodes.len());
            change(&mut random, &mut episodes[number], &codes);
        }
        mine(tally, packed_log(episodes));
    }
}

/// Takes an event away, puts one in, or lets two change places.
fn change(random: &mut Random, episode: &mut Episode, codes: &[u8]) {
    let place = random.below(episode.len() + 1);
    match random.below(3) {
        0 if place < episode.len() => drop(episode.remove(place)),
        1 if episode.len() < 63 => episode.insert(place, *random.pick(codes)),
        _ if place + 1 < episode.len() => episode.swap(place, place + 1),
        _ => {}
    }
}

pub fn full_logs(tally: &mut Tally) {
    let mut random = Random::seeded(32);
    for round in 0..60 {
        let codes = some_codes(&mut random, [EVENT_CODES, 30, 20, 12][round % 4]);
        let tree = some_tree(&mut random, &codes);
        let odds = random.between(2, 8);
        mine(tally, largest_log(&mut random, |random| short_episode(random, &tree, odds)));
    }
    for longest in [0, 1, 2, 3, 8, 63] {
        for codes in [1, 2, 31, 32] {
            mine(tally, largest_log(&mut random, |random| any_episode(random, codes, longest)));
        }
    }
    // Records of every length that end with the block's last payload byte, then a count with one record too many.
    for length in 0..=63 {
        let mut block = block_with(&mut random, length + 1);
        add(&mut block, &vec![30; length]).expect("it has exactly this room");
        mine(tally, block.clone());
        block[0] += 1;
        write_check(&mut block);
        mine(tally, block);
    }
}

pub fn measured_logs(tally: &mut Tally) {
    for (_, make) in SHAPES {
        if let Task::Mine { log } = make() {
            mine(tally, log);
        }
    }
}

/// Logs of every two numbers of blocks that make at most 17, joined in either order, and the first joined to itself. The
/// order must not matter, nor must joining a log to itself where 16 blocks hold it.
pub fn joined_logs(tally: &mut Tally) {
    let mut random = Random::seeded(35);
    for (blocks, others) in (1..=MOST_BLOCKS).flat_map(|n| (1..=MOST_BLOCKS + 1 - n).map(move |m| (n, m))) {
        for kind in 0..5 {
            let (one, other) = two_logs(&mut random, blocks, others, kind);
            let (out, work) = match (blocks + kind) % 8 {
                0 => (BLOCK - 1, MINING_WORK),
                1 => (BLOCK, MINING_WORK - 1),
                2 => (BLOCK + 1, MINING_WORK + 1),
                _ => (BLOCK, MINING_WORK),
            };
            let mut mined = |logs: &[&[u8]]| tally.case(Case::mine(logs.concat(), out, work));
            let [order, turned] = [mined(&[&one, &other]), mined(&[&other, &one])];
            let [once, twice] = [mined(&[&one]), mined(&[&one, &one])];
            tally.holds("the order of two logs does not matter", order.leaves_as(&turned));
            if 2 * blocks <= MOST_BLOCKS {
                tally.holds("a log joined to itself adds nothing", once.leaves_as(&twice));
            }
        }
    }
}

/// Full logs of so many blocks: of one tree, of two trees with other codes, of two trees with the same, of any episodes, and of
/// one tree with heartbeats.
fn two_logs(random: &mut Random, blocks: usize, others: usize, kind: usize) -> (Vec<u8>, Vec<u8>) {
    if kind == 3 {
        let (codes, longest) = (random.between(1, 6), random.between(0, 6));
        let mut any = |blocks| full_log(random, blocks, |random| any_episode(random, codes, longest));
        return (any(blocks), any(others));
    }
    let codes = some_codes(random, 12);
    let hands = if kind == 1 { [&codes[..5], &codes[5..]] } else { [&*codes, &*codes] };
    let one = some_tree(random, hands[0]);
    let other = if kind == 0 || kind == 4 { one.clone() } else { some_tree(random, hands[1]) };
    let next = |random: &mut Random, tree: &Tree| {
        let events = short_episode(random, tree, 3);
        if kind == 4 {
            return put_anywhere(random, &events);
        }
        events
    };
    let mut of = |tree: &Tree, blocks| full_log(random, blocks, |random| next(random, tree));
    (of(&one, blocks), of(&other, others))
}

#[derive(Clone, Copy, PartialEq, Eq)]
enum Fault {
    None,
    Length,
    Out,
    Work,
    Block(LogDamage),
}

fn faults() -> Vec<Fault> {
    let others = [Fault::None, Fault::Length, Fault::Out, Fault::Work];
    others.into_iter().chain(LOG_DAMAGES.map(Fault::Block)).collect()
}

/// Every two kinds of fault in one call, in one block and in two, the first one's block before or after the second's.
pub fn two_faults(tally: &mut Tally) {
    let mut random = Random::seeded(33);
    for _ in 0..6 {
        for first in faults() {
            for second in faults() {
                for (here, there) in [(0, 0), (2, 2), (0, 2), (2, 1)] {
                    let case = faulty(&mut random, [(first, here), (second, there)]);
                    tally.case(case);
                }
            }
        }
    }
    for length in [0, 1, 511, 512, 513, 1023, 1024, 8_191, 8_192, 8_193, 8_704, 16_384] {
        for (out, work) in [(512, 16_384), (511, 16_384), (0, 0), (512, 16_383), (1, 1), (512, 0), (0, 16_384)] {
            tally.case(Case::mine(vec![0; length], out, work));
        }
    }
}

fn faulty(random: &mut Random, faults: [(Fault, usize); 2]) -> Case {
    let longest = random.between(1, 9);
    let mut log = full_log(random, 3, |random| any_episode(random, 32, longest));
    // Some padding in every block, so that there is some to damage; little, so that a large count runs out of bytes.
    if random.once_in(2) {
        log = full_log(random, 3, |random| (0..2 * random.between(1, 9)).map(|n| n as u8).collect());
    }
    for (fault, number) in faults {
        match fault {
            Fault::Block(LogDamage::NoRecord) => log.fill(0),
            Fault::Block(damage) => damage_log_block(random, &mut log[number * BLOCK..(number + 1) * BLOCK], damage),
            _ => {}
        }
    }
    let has = |wanted| faults.iter().any(|&(fault, _)| fault == wanted);
    if has(Fault::Length) {
        log.truncate(*random.pick(&[0, 1, 511, 513, 1535]));
    }
    let out = if has(Fault::Out) { *random.pick(&[0, 1, 511]) } else { BLOCK };
    let work = if has(Fault::Work) { *random.pick(&[0, 1, MINING_WORK - 1]) } else { MINING_WORK };
    Case::mine(log, out, work)
}
