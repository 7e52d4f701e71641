//! Adding episodes with heartbeats: they are stored and counted like events.

use super::{at_place, beating, every_place, large_at};
use crate::forms::{ALL_ROOM, EVENTS_ROOM};
use crate::tally::Tally;
use crate::trial::{Case, Outcome};
use independent::answer::{packed, refuse};
use independent::generate::logs::block_with;
use independent::generate::random::Random;
use independent::log::{events_of, records_of, Episode};

/// Episodes of every length up to 66, heartbeats at every place of them.
pub fn every_episode(tally: &mut Tally) {
    let blocks = Blocks::new();
    for (length, place) in every_place(66) {
        for (number, episode) in at_place(length, place).into_iter().enumerate() {
            let free = blocks.free_for(&episode, place + number);
            let outcome = add(tally, &blocks, free, &episode);
            note_room(tally, &episode, free, &outcome);
        }
        for episode in large_at(length, place) {
            let answer = add(tally, &blocks, 507, &episode).answer;
            let due = if length > 63 { refuse(10, 0) } else { refuse(11, place) };
            tally.holds("adding gives 10, then 11 at its own place, heartbeats counted", answer == packed(due));
        }
    }
}

fn add(tally: &mut Tally, blocks: &Blocks, free: usize, episode: &Episode) -> Outcome {
    beating(tally, Case::Add { block: blocks.0[free].clone(), episode: episode.clone() })
}

/// A block for every number of free payload bytes.
struct Blocks(Vec<Vec<u8>>);

impl Blocks {
    fn new() -> Blocks {
        let mut random = Random::seeded(24);
        Blocks((0..=507).map(|free| block_with(&mut random, free)).collect())
    }

    /// Much room, room for this episode and no more, or a byte too few.
    fn free_for(&self, episode: &Episode, turn: usize) -> usize {
        [507, episode.len() + 1, episode.len()][turn % 3]
    }
}

fn note_room(tally: &mut Tally, episode: &Episode, free: usize, outcome: &Outcome) {
    let (needed, beats) = (episode.len() + 1, episode.len() > events_of(episode).len());
    let stored = records_of(outcome.lent(0)).expect("a sound block");
    let last = stored.last().map(|codes| &outcome.lent(0)[codes.clone()]);
    if episode.len() > 63 {
        return tally.holds(
            "adding gives 10, then 11 at its own place, heartbeats counted",
            outcome.answer == packed(refuse(10, 0)),
        );
    }
    if free < needed {
        tally.holds("room is counted with heartbeats", outcome.answer == packed(refuse(12, 0)));
    } else {
        tally.holds("an episode is stored with its heartbeats", last == Some(episode));
    }
    if beats && free == needed {
        tally.meets("adding", ALL_ROOM);
    }
    if beats && free + 1 == needed {
        tally.meets("adding", EVENTS_ROOM);
    }
}
