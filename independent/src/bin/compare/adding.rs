//! Adding an episode.

use crate::tally::Tally;
use crate::trial::Case;
use independent::block::{write_check, BLOCK};
use independent::generate::damage::{damage_log_block, LogDamage, LOG_DAMAGES};
use independent::generate::logs::{any_episode, block_with, full_log};
use independent::generate::random::Random;
use independent::log::add;

pub fn every_length(tally: &mut Tally) {
    let mut random = Random::seeded(21);
    for free in [507, 64, 63, 32, 3, 1, 0] {
        let block = block_with(&mut random, free);
        for length in 0..=66 {
            let codes =
                |random: &mut Random, top| (0..length).map(|_| random.between(0, top) as u8).collect::<Vec<_>>();
            tally.case(Case::Add { block: block.clone(), episode: codes(&mut random, 31) });
            tally.case(Case::Add { block: block.clone(), episode: codes(&mut random, 33) });
            tally.case(Case::Add { block: block.clone(), episode: codes(&mut random, 255) });
        }
    }
    for length in [0, 1, 2, 508, 511, 513, 1024] {
        tally.case(Case::Add { block: vec![0; length], episode: vec![1] });
        tally.case(Case::Add { block: vec![0; length], episode: vec![] });
    }
    tally.case(Case::Add { block: vec![0; BLOCK], episode: vec![0; 100_000] });
}

/// Each block is built by the calls themselves, an episode at a time and some episodes too many.
pub fn filled_up(tally: &mut Tally) {
    let mut random = Random::seeded(22);
    for longest in [0, 0, 1, 2, 3, 5, 9, 20, 63] {
        let mut block = vec![0; BLOCK];
        let mut turned_away = 0;
        while turned_away < 30 {
            let episode = any_episode(&mut random, 32, longest);
            let before = block.clone();
            turned_away += add(&mut block, &episode).is_err() as usize;
            tally.case(Case::Add { block: before, episode });
        }
    }
    // A sound block whose padding would read as records if the count were larger, and one of empty records only.
    let mut block = vec![0; BLOCK];
    block[0] = 255;
    write_check(&mut block);
    tally.case(Case::Add { block: block.clone(), episode: vec![] });
    block[0] = 254;
    write_check(&mut block);
    tally.case(Case::Add { block, episode: vec![3, 2, 1] });
}

#[derive(Clone, Copy)]
enum Fault {
    None,
    Length,
    Block(LogDamage),
    LongEpisode,
    LargeCode,
    NoRoom,
}

fn faults() -> Vec<Fault> {
    let others = [Fault::None, Fault::Length, Fault::LongEpisode, Fault::LargeCode, Fault::NoRoom];
    others.into_iter().chain(LOG_DAMAGES.map(Fault::Block)).collect()
}

/// Every two kinds of fault in one call, so that the order among them shows.
pub fn two_faults(tally: &mut Tally) {
    let mut random = Random::seeded(23);
    for _ in 0..12 {
        for first in faults() {
            for second in faults() {
                let case = faulty(&mut random, &[first, second]);
                tally.case(case);
            }
        }
    }
}

fn faulty(random: &mut Random, faults: &[Fault]) -> Case {
    let longest = random.between(1, 12);
    let mut block = full_log(random, 1, |random| any_episode(random, 32, longest));
    let mut episode = Vec::new();
    if !faults.iter().any(|fault| matches!(fault, Fault::NoRoom)) {
        let free = random.between(4, 100);
        block = block_with(random, free);
        episode = any_episode(random, 32, 3);
    }
    for fault in faults {
        match fault {
            Fault::Block(damage) => damage_log_block(random, &mut block, *damage),
            Fault::LongEpisode => episode.extend([1; 64]),
            Fault::LargeCode => {
                let places = [episode.len(), 0, episode.len() / 2];
                let place = *random.pick(&places);
                episode.insert(place, random.byte_from(32));
                episode.push(200);
            }
            Fault::NoRoom => episode.extend([1; 50]),
            Fault::None | Fault::Length => {}
        }
    }
    if faults.iter().any(|fault| matches!(fault, Fault::Length)) {
        block.resize(*random.pick(&[0, 1, 511, 513, 1024]), 0);
    }
    Case::Add { block, episode }
}
