//! The measured inputs are as large as they are said to be.

use independent::answer::refuse;
use independent::calls::{check, Gateway};
use independent::fast::{number_of, Fast, SLOTS};
use independent::generate::largest::{task, Task, BROKEN, SHAPES, WORST};
use independent::log::{episodes_of, records_of, Episode, HEARTBEAT};
use std::collections::{BTreeMap, BTreeSet};

/// Of each mined log: its records, its distinct episodes, its codes of events, and the nodes of its tree.
const LOGS: [(&str, [usize; 4]); 20] = [
    ("mine-balanced", [741, 654, 31, 123]),
    ("mine-balanced-parallel", [1_342, 1_299, 31, 123]),
    ("mine-sequence-loop-comb", [233, 233, 31, 123]),
    ("mine-choice-sequence-comb", [487, 426, 31, 123]),
    ("mine-flower", [287, 286, 31, 33]),
    ("mine-flower-of-pairs", [3_253, 478, 31, 33]),
    ("mine-sequence", [240, 1, 31, 32]),
    ("mine-skipped-steps", [285, 272, 31, 94]),
    ("mine-parallel", [240, 240, 31, 32]),
    ("mine-few-long-episodes", [194, 194, 31, 48]),
    ("mine-one-event-episodes", [4_048, 31, 31, 32]),
    ("mine-forty-distinct", [196, 40, 31, 117]),
    ("mine-eight-distinct", [194, 8, 31, 117]),
    ("mine-all-distinct", [191, 191, 31, 117]),
    ("mine-empty-records", [4_080, 1, 0, 1]),
    ("mine-one-event-records", [4_048, 4, 4, 5]),
    ("mine-many-short", [2_284, 2_284, 31, 33]),
    ("mine-crowded", [2_016, 2_016, 31, 33]),
    ("mine-heartbeats-between", [406, 378, 31, 123]),
    ("mine-few-heartbeats", [725, 645, 31, 123]),
];

fn log_of(name: &str) -> Vec<u8> {
    match task(name) {
        Some(Task::Mine { log }) => log,
        _ => panic!("{name} is mined"),
    }
}

#[test]
fn logs_have_what_they_are_said_to_have() {
    let mined = SHAPES.iter().filter(|(name, _)| name.starts_with("mine-")).map(|(name, _)| *name);
    assert_eq!(mined.collect::<Vec<_>>(), LOGS.map(|(name, _)| name));
    for (name, facts) in LOGS {
        let log = log_of(name);
        let episodes = episodes_of(&log).expect("a sound log");
        let distinct: BTreeSet<&Episode> = episodes.iter().collect();
        let codes: BTreeSet<&u8> = episodes.iter().flatten().collect();
        let nodes = Fast.mine(&log, &mut [0; 512], &mut [0; 16_384]) as usize;
        assert_eq!([episodes.len(), distinct.len(), codes.len(), nodes], facts, "{name}");
    }
}

/// Of each log with heartbeats: how many of its records have one, and how many heartbeats they have.
const BEATING: [(&str, [usize; 2]); 2] =
    [("mine-heartbeats-between", [406, 3_591]), ("mine-few-heartbeats", [185, 185])];

#[test]
fn logs_have_the_heartbeats_that_they_are_said_to_have() {
    for (name, _) in LOGS {
        let log = log_of(name);
        let beats = |block: &[u8]| {
            let records = records_of(block).expect("a sound log").into_iter();
            let count = |codes: std::ops::Range<usize>| block[codes].iter().filter(|&&code| code == HEARTBEAT).count();
            records.map(count).filter(|&count| count > 0).collect::<Vec<usize>>()
        };
        let beats: Vec<usize> = log.chunks(512).flat_map(beats).collect();
        let facts = BEATING.iter().find(|(beating, _)| *beating == name).map_or([0, 0], |(_, facts)| *facts);
        assert_eq!([beats.len(), beats.iter().sum()], facts, "{name}");
    }
}

/// No block has room for the longest episode, most for none at all.
#[test]
fn logs_are_full() {
    for (name, _) in LOGS {
        let log = log_of(name);
        assert_eq!(log.len(), 8_192, "{name}");
        let full = |block: &[u8]| block[0] == 255 || block[450..508].iter().any(|&byte| byte != 0);
        assert!(log.chunks(512).all(full), "{name}");
    }
}

#[test]
fn repeated_episodes_are_long_and_spread_over_the_blocks() {
    for name in ["mine-forty-distinct", "mine-eight-distinct", "mine-all-distinct"] {
        let mut blocks_with: BTreeMap<Episode, BTreeSet<usize>> = BTreeMap::new();
        for (number, block) in log_of(name).chunks(512).enumerate() {
            for episode in episodes_of(block).expect("a sound block") {
                blocks_with.entry(episode).or_default().insert(number);
            }
        }
        assert!(blocks_with.keys().all(|episode| (20..=63).contains(&episode.len())), "{name}");
        let spread = blocks_with.values().map(BTreeSet::len).min().expect("an episode");
        assert!(spread >= if name == "mine-all-distinct" { 1 } else { 3 }, "{name}: {spread}");
    }
}

/// All have one length, and 16 of them or more want each of the first slots.
#[test]
fn a_crowded_log_has_many_episodes_for_few_slots() {
    let episodes = episodes_of(&log_of("mine-crowded")).expect("a sound log");
    assert!(episodes.iter().all(|episode| episode.len() == 3));
    assert!(episodes.iter().all(|episode| number_of(episode) as usize % SLOTS < 2_016 / 16));
}

#[test]
fn judged_trees_are_large() {
    for (name, make) in SHAPES.into_iter().chain(WORST) {
        if let Task::Judge { block, episode } = make() {
            assert_eq!((check(&block), episode.len()), (Ok(127), 63), "{name}");
        }
    }
}

#[test]
fn broken_blocks_are_refused() {
    for (name, make) in BROKEN {
        let Task::Judge { block, .. } = make() else { panic!("{name} is judged") };
        assert_eq!(check(&block), refuse(9, 0), "{name}");
    }
}
