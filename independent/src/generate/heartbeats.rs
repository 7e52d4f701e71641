//! Episodes as newer firmware writes them: heartbeats put among events, in the gaps before, between and behind them.

use super::random::Random;
use crate::log::{Episode, HEARTBEAT, LONGEST_EPISODE};

/// The events with so many heartbeats in each gap, from the one before the first event to the one behind the last.
pub fn put(events: &[u8], gaps: &[usize]) -> Episode {
    assert_eq!(gaps.len(), events.len() + 1);
    let behind = events.iter().zip(&gaps[1..]).flat_map(|(&code, &beats)| [vec![code], alone(beats)].concat());
    alone(gaps[0]).into_iter().chain(behind).collect()
}

pub fn alone(beats: usize) -> Episode {
    vec![HEARTBEAT; beats]
}

/// One heartbeat in one gap.
pub fn put_one(events: &[u8], gap: usize) -> Episode {
    put_in(events, gap, 1)
}

/// So many heartbeats in one gap.
pub fn put_in(events: &[u8], gap: usize, beats: usize) -> Episode {
    let mut gaps = vec![0; events.len() + 1];
    gaps[gap] = beats;
    put(events, &gaps)
}

/// One heartbeat between every two events.
pub fn put_between(events: &[u8]) -> Episode {
    let last = events.len();
    put(events, &(0..=last).map(|gap| (gap > 0 && gap < last) as usize).collect::<Vec<_>>())
}

/// Every way to put none or one heartbeat into each gap, none at all first.
pub fn every_way(events: &[u8]) -> Vec<Episode> {
    let gaps = events.len() + 1;
    let way = |bits: usize| put(events, &(0..gaps).map(|gap| bits >> gap & 1).collect::<Vec<_>>());
    (0..1 << gaps).map(way).collect()
}

/// Where heartbeats are put.
#[derive(Clone, Copy, Debug, PartialEq, Eq)]
pub enum Where {
    Nowhere,
    Start,
    Middle,
    End,
    Everywhere,
}

pub const PLACES: [Where; 5] = [Where::Nowhere, Where::Start, Where::Middle, Where::End, Where::Everywhere];

/// A few heartbeats in the gaps that are meant, or so many that the record is as long as one can be.
pub fn put_some(random: &mut Random, events: &[u8], place: Where) -> Episode {
    let last = events.len();
    let meant = match place {
        Where::Nowhere => vec![],
        Where::Start => vec![0],
        Where::Middle => (1..last).collect(),
        Where::End => vec![last],
        Where::Everywhere => (0..=last).collect(),
    };
    let mut gaps = vec![0; last + 1];
    let most = LONGEST_EPISODE.saturating_sub(last);
    let beats = if random.once_in(8) { most } else { random.between(1, 2).max(meant.len()).min(most) };
    for beat in 0..if meant.is_empty() { 0 } else { beats } {
        // Each of the meant gaps gets one before any gets a second one.
        let gap = if beat < meant.len() { beat } else { random.below(meant.len()) };
        gaps[meant[gap]] += 1;
    }
    put(events, &gaps)
}

/// At any kind of place, or nowhere.
pub fn put_anywhere(random: &mut Random, events: &[u8]) -> Episode {
    let place = *random.pick(&PLACES);
    put_some(random, events, place)
}
