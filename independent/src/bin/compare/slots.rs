//! Mining logs whose episodes meet in a table of slots, found by a number made of their codes: many for a few slots, more than
//! there are slots, and two that are nearly equal where one is looked for in the slot of the other.

use crate::forms::IN_ONE_SLOT;
use crate::gathering::Miner;
use crate::tally::Tally;
use independent::fast::{number_of, SLOTS};
use independent::generate::distinct::{crowd, every_episode};
use independent::generate::heartbeats::put_anywhere;
use independent::generate::random::Random;
use independent::generate::trees::some_codes;
use independent::log::{log_of, Episode, EVENT_CODES};
use std::ops::Range;

type Number = fn(&[u8]) -> u32;

/// Numbers that a table may go by: the fast variant's own and another of its kind.
const NUMBERS: [Number; 2] = [number_of, thirty_three];

fn thirty_three(codes: &[u8]) -> u32 {
    codes.iter().fold(0, |number, &code| (number * 33 + code as u32 + 1) & 0xffff)
}

/// A poor one, which many episodes share.
fn sum(codes: &[u8]) -> u32 {
    codes.iter().map(|&code| code as u32).sum()
}

/// Episodes for one slot and the slots behind it, at both ends of a table and inside, as many as are looked at and more.
pub fn crowded(tally: &mut Tally) {
    let mut miner = Miner::new(tally);
    let slots = |number| [0, 1_000, SLOTS - 1].map(|slot| (number, slot));
    for (number, slot) in NUMBERS.into_iter().chain([sum as Number]).flat_map(slots) {
        let crowd = crowd(every_episode(30, 3), slot, number);
        crowds(&mut miner, &crowd, &last_for(slot, number));
    }
}

/// The last record alone has code 30.
fn crowds(miner: &mut Miner, crowd: &[Episode], last: &Episode) {
    for (count, times) in [(31, 1), (32, 1), (33, 1), (64, 2), (500, 2), (2_000, 1)] {
        let mut episodes = vec![&crowd[..count]; times].concat();
        episodes.push(last.clone());
        miner.tells_from(log_of(&episodes).expect("16 blocks hold them"), &crowd[..count]);
    }
}

/// The episode with code 30 whose slot comes first.
fn last_for(slot: usize, number: Number) -> Episode {
    let mut episodes = every_episode(31, 3);
    episodes.retain(|episode| episode.contains(&30));
    crowd(episodes, slot, number).swap_remove(0)
}

/// About as many distinct episodes as there are slots, and more, from the shortest on and from the longest; the last record
/// alone has code 30.
pub fn more_than_slots(tally: &mut Tally) {
    let mut miner = Miner::new(tally);
    let all: Vec<Episode> = (1..=3).flat_map(|length| every_episode(30, length)).collect();
    for (count, turned) in [2_047, 2_048, 2_049, 2_250].into_iter().flat_map(|count| [(count, false), (count, true)]) {
        let mut episodes = all[..count].to_vec();
        if turned {
            episodes.reverse();
        }
        episodes.push(vec![30]);
        miner.tells_from(log_of(&episodes).expect("16 blocks hold them"), &all[..count]);
    }
}

/// Two episodes that are nearly equal: but for one place, one the beginning of the other, or the same events in another order.
#[derive(Clone, Copy)]
enum Nearly {
    ButFor { length: usize, place: usize },
    Beginning { length: usize, shorter: usize },
    Turned { length: usize },
}

fn kinds() -> Vec<Nearly> {
    let but_for = |length| (0..length).map(move |place| Nearly::ButFor { length, place });
    let beginning = |length| (0..length).map(move |shorter| Nearly::Beginning { length, shorter });
    let long = [0, 1, 15, 16, 31, 32, 47, 48, 61, 62].map(|place| Nearly::ButFor { length: 63, place });
    let turned = (2..=15).map(|length| Nearly::Turned { length });
    let short = [1, 2, 3, 4, 5, 8, 15];
    let kinds = short.into_iter().flat_map(but_for).chain(short.into_iter().flat_map(beginning));
    kinds.chain(long).chain(turned).collect()
}

impl Nearly {
    /// Two of the kind with codes below 19; where they are long, one code fills all places but the one.
    fn drawn(self, random: &mut Random) -> [Episode; 2] {
        let codes = some_codes(random, EVENT_CODES).into_iter().filter(|&code| code < 19).collect::<Episode>();
        let one = |length: usize| if length > 15 { vec![codes[0]; length] } else { codes[..length].to_vec() };
        let mut pair = match self {
            Nearly::Beginning { length, shorter } => [one(length), one(shorter)],
            Nearly::ButFor { length, .. } | Nearly::Turned { length } => [one(length), one(length)],
        };
        match self {
            Nearly::ButFor { place, .. } => (pair[0][place], pair[1][place]) = (codes[17], codes[18]),
            Nearly::Turned { length } => pair[1][random.below(length - 1)..].rotate_left(1),
            Nearly::Beginning { .. } => {}
        }
        random.shuffle(&mut pair);
        pair
    }
}

struct Table {
    number: Number,
    /// For each slot an episode of codes from 19 on.
    others: Vec<Episode>,
}

impl Table {
    fn of(number: Number) -> Table {
        let mut table = Table { number, others: vec![vec![]; SLOTS] };
        for mut episode in every_episode(12, 4) {
            episode.iter_mut().for_each(|code| *code += 19);
            let slot = table.slot(&episode);
            table.others[slot] = episode;
        }
        assert!(table.others.iter().all(|episode| !episode.is_empty()), "every slot has one");
        table
    }

    fn slot(&self, episode: &Episode) -> usize {
        (self.number)(episode) as usize % SLOTS
    }

    /// The slots from that of one episode up to that of another.
    fn between(&self, from: &Episode, to: &Episode) -> Range<usize> {
        let (from, to) = (self.slot(from), self.slot(to));
        from..from + (to + SLOTS - from) % SLOTS
    }
}

/// One of two nearly equal ones is looked for where the other stands, behind slots that are all taken.
pub fn nearly_equal(tally: &mut Tally) {
    let mut random = Random::seeded(40);
    let mut miner = Miner::new(tally);
    for table in NUMBERS.map(Table::of) {
        for kind in kinds() {
            meet(&mut miner, &mut random, &table, kind);
        }
    }
}

/// The one's slot is at most 31 behind that of the other, which comes last. Some codes are never so near.
fn meet(miner: &mut Miner, random: &mut Random, table: &Table, kind: Nearly) {
    let drawn = std::iter::repeat_with(|| kind.drawn(random)).take(2_000);
    let near = drawn.filter(|[one, last]| table.between(last, one).len() < 32).take(2).collect::<Vec<_>>();
    for [one, last] in near {
        let taken = table.between(&last, &one).map(|slot| table.others[slot % SLOTS].clone());
        let mut episodes: Vec<Episode> = taken.chain([one, last]).collect();
        mine_last(miner, &episodes);
        // The same with heartbeats in all of them, which must lead to the same slots.
        episodes.iter_mut().for_each(|events| *events = put_anywhere(random, events));
        miner.meets(IN_ONE_SLOT);
        mine_last(miner, &episodes);
    }
}

/// Mines a log whose last episode shows in the tree.
fn mine_last(miner: &mut Miner, episodes: &[Episode]) {
    let log = log_of(episodes).expect("two blocks hold them");
    miner.tells_from(log, &episodes[..episodes.len() - 1]);
}
