//! Mining logs that show what can go wrong where episodes are gathered, each distinct one once: a record that is left out, two
//! that are taken for one, a list or a table that does not begin empty or does not hold them all.

use crate::heartbeats::beating;
use crate::tally::Tally;
use crate::trial::{Case, Found, Outcome};
use independent::block::BLOCK;
use independent::calls::MINING_WORK;
use independent::generate::distinct::every_episode;
use independent::generate::logs::tree_episodes;
use independent::generate::random::Random;
use independent::generate::trees::{some_codes, some_tree};
use independent::graph::Log;
use independent::log::{events_of, log_of, records_of, Episode, MOST_BLOCKS};
use independent::mine::mine;

/// Mines logs, each with something else in the work.
pub struct Miner<'a> {
    tally: &'a mut Tally,
    turn: usize,
}

impl<'a> Miner<'a> {
    pub fn new(tally: &'a mut Tally) -> Miner<'a> {
        Miner { tally, turn: 0 }
    }

    pub fn mine(&mut self, log: Vec<u8>) -> Outcome {
        let found = some_found(&log);
        self.turn += 1;
        self.mine_with(log, found[self.turn % found.len()])
    }

    fn mine_with(&mut self, log: Vec<u8>, found: Found) -> Outcome {
        beating(self.tally, Case::Mine { log, out: BLOCK, work: MINING_WORK, found })
    }

    pub fn meets(&mut self, form: &'static str) {
        self.tally.meets("mining", form);
    }

    /// Mines a log whose tree is another one than that of some of its episodes.
    pub fn tells_from(&mut self, log: Vec<u8>, some: &[Episode]) {
        let tree = mine(&Log::from_iter(some.iter().map(|codes| events_of(codes))));
        let outcome = self.mine(log);
        self.tally.holds("a distinct episode shows in the tree", outcome.tree() != Some(tree));
    }
}

pub fn blocks_of(episodes: &[&[Episode]]) -> Vec<u8> {
    episodes.iter().flat_map(|episodes| log_of(episodes).expect("a block holds them")).collect()
}

/// Bytes that are not zero, nothing, the smallest and the largest number, and the places of the first and the last record.
fn some_found(log: &[u8]) -> Vec<Found> {
    let places = places_of(log);
    let numbers = [0, 1, u16::MAX].into_iter().chain(places.first().copied()).chain(places.last().copied());
    std::iter::once(Found::Dirty).chain(numbers.map(Found::Numbers)).collect()
}

/// Where the records' length bytes stand.
fn places_of(log: &[u8]) -> Vec<u16> {
    let of_block = |(number, block): (usize, &[u8])| {
        let records = records_of(block).expect("a sound log").into_iter();
        records.map(move |codes| (number * BLOCK + codes.start - 1) as u16)
    };
    log.chunks(BLOCK).enumerate().flat_map(of_block).collect()
}

/// Blocks of ab and one other record: the last one of the log, in its last block or before blocks without a record; or the
/// first or one in the middle of its block.
pub fn only_one_of_its_kind(tally: &mut Tally) {
    let mut miner = Miner::new(tally);
    let usual = || vec![vec![0, 1]; 168];
    let others = [(168, vec![1, 0]), (168, vec![]), (168, vec![30]), (168, vec![0]), (84, vec![1, 0]), (0, vec![1, 0])];
    for (blocks, (at, other)) in (1..=MOST_BLOCKS).flat_map(|blocks| others.iter().map(move |other| (blocks, other))) {
        let mut last = usual();
        last.insert(*at, other.clone());
        let mut log = blocks_of(&vec![&usual()[..]; blocks - 1]);
        log.extend(blocks_of(&[&last]));
        miner.tells_from(log.clone(), &usual());
        log.resize(MOST_BLOCKS * BLOCK, 0);
        miner.tells_from(log, &usual());
    }
}

/// Blocks of 255 records: empty ones, then one event as the last of them; or nearly all of one event.
pub fn most_records(tally: &mut Tally) {
    let mut miner = Miner::new(tally);
    let empty = || vec![vec![]; 255];
    let event = |code| [vec![vec![]; 254], vec![vec![code]]].concat();
    let events = |code| [vec![vec![code]; 252], vec![vec![]; 3]].concat();
    for blocks in 0..MOST_BLOCKS {
        let before = blocks_of(&vec![&empty()[..]; blocks]);
        miner.mine([&before[..], &blocks_of(&[&empty()])].concat());
        miner.tells_from([&before[..], &blocks_of(&[&event(7)])].concat(), &empty());
        let full = blocks_of(&vec![&events(3)[..]; blocks]);
        miner.tells_from([&full[..], &blocks_of(&[&events(4)])].concat(), &events(3));
    }
}

/// Two episodes in either order, in one block and in two.
fn pair(miner: &mut Miner, one: &Episode, other: &Episode) {
    for [first, second] in [[one, other], [other, one]] {
        let alone = std::slice::from_ref(first);
        miner.tells_from(blocks_of(&[&[first.clone(), second.clone()]]), alone);
        miner.tells_from(blocks_of(&[alone, std::slice::from_ref(second)]), alone);
    }
}

/// So many events, at a place of them.
pub fn places(lengths: &[usize]) -> Vec<(usize, usize)> {
    lengths.iter().flat_map(|&length| (0..length).map(move |place| (length, place))).collect()
}

/// Episodes of one length that differ in one code, at each place.
pub fn one_code_apart(tally: &mut Tally) {
    let mut miner = Miner::new(tally);
    for (length, place) in places(&[1, 2, 3, 4, 5, 7, 8, 9, 15, 16, 17, 30]) {
        let one: Episode = (0..length as u8).collect();
        let mut other = one.clone();
        other[place] = 30;
        pair(&mut miner, &one, &other);
    }
    long_ones_apart(&mut miner);
}

fn long_ones_apart(miner: &mut Miner) {
    for (length, place) in places(&[32, 33, 63]) {
        let one = vec![0; length];
        let mut other = one.clone();
        other[place] = 1;
        miner.tells_from(blocks_of(&[&[one.clone(), other]]), &[one]);
    }
}

/// An episode and each that it begins with.
pub fn prefixes(tally: &mut Tally) {
    let mut miner = Miner::new(tally);
    for (length, shorter) in places(&[1, 2, 3, 5, 8, 16, 31]) {
        pair(&mut miner, &(0..length as u8).collect(), &(0..shorter as u8).collect());
    }
}

/// All orders of up to five events, and every two of three and of four.
pub fn permutations(tally: &mut Tally) {
    let mut miner = Miner::new(tally);
    let all = |codes| log_of(&every_order(codes)).expect("two blocks hold them");
    (1..=5).map(all).for_each(|log| drop(miner.mine(log)));
    for (one, other) in [3, 4].into_iter().flat_map(|codes| every_pair(&every_order(codes))) {
        miner.tells_from(blocks_of(&[&[one.clone(), other]]), &[one]);
    }
}

fn every_pair(episodes: &[Episode]) -> Vec<(Episode, Episode)> {
    let number = |later: usize| (0..later).map(move |one| (one, later));
    let pairs = (0..episodes.len()).flat_map(number);
    pairs.map(|(one, other)| (episodes[one].clone(), episodes[other].clone())).collect()
}

fn every_order(codes: u8) -> Vec<Episode> {
    let mut orders = every_episode(codes, codes as usize);
    orders.retain(|order| (0..codes).all(|code| order.contains(&code)));
    orders
}

/// The episodes of a tree once, then each of them twice in every block, then these blocks in another order.
pub fn repeated(tally: &mut Tally) {
    let mut random = Random::seeded(38);
    let mut miner = Miner::new(tally);
    for round in 0..40 {
        let codes = some_codes(&mut random, [3, 6, 9, 12][round % 4]);
        let tree = some_tree(&mut random, &codes);
        let mut episodes = tree_episodes(&mut random, &tree, round % 9 + 1);
        episodes.iter_mut().for_each(|episode| episode.truncate(26));
        let mut blocks = repeating_blocks(&mut random, &episodes);
        let once = miner.mine(blocks_of(&[&episodes]));
        let again = miner.mine(blocks.concat());
        random.shuffle(&mut blocks);
        let turned = miner.mine(blocks.concat());
        miner.tally.holds("episodes that come again change nothing", once.leaves_as(&again));
        miner.tally.holds("the order of the blocks does not matter", again.leaves_as(&turned));
    }
}

/// Sixteen blocks, each with every episode twice, in no order.
fn repeating_blocks(random: &mut Random, episodes: &[Episode]) -> Vec<Vec<u8>> {
    let mut twice = [episodes, episodes].concat();
    let mut block = || {
        random.shuffle(&mut twice);
        blocks_of(&[&twice])
    };
    (0..MOST_BLOCKS).map(|_| block()).collect()
}

/// Small logs, each with every place of its own in the work, and with small numbers.
pub fn whatever_the_work_holds(tally: &mut Tally) {
    let mut random = Random::seeded(39);
    let mut miner = Miner::new(tally);
    for round in 0..24 {
        let codes = some_codes(&mut random, round % 6 + 1);
        let tree = some_tree(&mut random, &codes);
        let count = random.between(1, 9);
        let log = log_of(&tree_episodes(&mut random, &tree, count)).expect("a block or two hold them");
        let clean = miner.mine_with(log.clone(), Found::Numbers(0));
        let numbers = places_of(&log).into_iter().chain(0..6).map(Found::Numbers);
        let same = numbers.map(|found| miner.mine_with(log.clone(), found).leaves_as(&clean)).collect::<Vec<bool>>();
        miner.tally.holds("what the work holds does not matter", same.into_iter().all(|same| same));
    }
}
