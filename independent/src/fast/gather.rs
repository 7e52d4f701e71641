//! The distinct episodes of a log, as a list of places in the lent work: what every pass of the miner goes over.

use crate::block::{BLOCK, CHECK_AT};
use crate::calls::MINING_WORK;
use crate::log::HEARTBEAT;

/// Where a record's length byte stands in the log, lowest byte first. None stands at 0.
type Place = [u8; 2];

/// Behind the list, which 4,080 records at most can fill, there is room for a byte beside each place; then come the slots.
const SLOTS_AT: usize = 12_288;
pub const SLOTS: usize = 2_048;
/// How many slots are looked at. A record that finds no room there is listed once more, which changes no tree.
const LOOKS: usize = 32;

#[derive(Clone, Copy)]
pub struct Episodes<'a> {
    log: &'a [u8],
    places: &'a [Place],
}

impl<'a> Episodes<'a> {
    /// The codes of each episode, the heartbeats of its record among them.
    pub fn each(self) -> impl Iterator<Item = &'a [u8]> {
        self.places.iter().map(move |&place| codes_at(self.log, place))
    }
}

fn codes_at(log: &[u8], place: Place) -> &[u8] {
    let at = u16::from_le_bytes(place) as usize;
    &log[at + 1..at + 1 + log[at] as usize]
}

fn events(codes: &[u8]) -> impl Iterator<Item = &u8> {
    codes.iter().filter(|&&code| code != HEARTBEAT)
}

/// Looks at every byte, which takes less than to stop at the first heartbeat.
fn has_heartbeat(bytes: &[u8]) -> bool {
    bytes.iter().fold(false, |has, &byte| has | (byte == HEARTBEAT))
}

/// A number made of the events and their order.
pub fn number_of(codes: &[u8]) -> u32 {
    number(codes, has_heartbeat(codes))
}

fn number(codes: &[u8], heartbeats: bool) -> u32 {
    let with = |number: u32, &code: &u8| number.wrapping_mul(101).wrapping_add(code as u32);
    if heartbeats {
        events(codes).fold(1, with)
    } else {
        codes.iter().fold(1, with)
    }
}

/// Lists the distinct episodes of a log that was checked.
pub fn gather<'a>(log: &'a [u8], work: &'a mut [u8; MINING_WORK]) -> Episodes<'a> {
    let (list, slots) = work.as_chunks_mut().0.split_at_mut(SLOTS_AT / 2);
    let slots: &mut [Place; SLOTS] = slots.first_chunk_mut().expect("2,048 slots are behind the list");
    slots.fill([0; 2]);
    let heartbeats = log.chunks(BLOCK).any(|block| has_heartbeat(&block[..CHECK_AT]));
    let mut gathering = Gathering { log, list, listed: 0, slots, heartbeats };
    for start in (0..log.len()).step_by(BLOCK) {
        gathering.take_block(start);
    }
    let Gathering { list, listed, .. } = gathering;
    Episodes { log, places: &list[..listed] }
}

struct Gathering<'a> {
    log: &'a [u8],
    list: &'a mut [Place],
    listed: usize,
    /// Listed places, each in one of the slots for its episode's number; 0 where there is none.
    slots: &'a mut [Place; SLOTS],
    /// There may be heartbeats: a byte that could be one is in the log, which a length could be too.
    heartbeats: bool,
}

impl Gathering<'_> {
    fn take_block(&mut self, start: usize) {
        let mut at = start + 1;
        for _ in 0..self.log[start] {
            let place = (at as u16).to_le_bytes();
            let codes = codes_at(self.log, place);
            if !self.finds(place, codes) {
                self.list[self.listed] = place;
                self.listed += 1;
            }
            at += 1 + codes.len();
        }
    }

    /// Looks for an episode with the same events; where there is none the place takes the first free slot.
    fn finds(&mut self, place: Place, codes: &[u8]) -> bool {
        let heartbeats = self.heartbeats && has_heartbeat(codes);
        let first = number(codes, heartbeats) as usize % SLOTS;
        for slot in first..first + LOOKS {
            let there = &mut self.slots[slot % SLOTS];
            if *there == [0; 2] {
                *there = place;
                return false;
            }
            if codes_at(self.log, *there) == codes
                || self.heartbeats && events(codes).eq(events(codes_at(self.log, *there)))
            {
                return true;
            }
        }
        false
    }
}
