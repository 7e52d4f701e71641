//! Writes sample logs of a gateway with two lines, each with what the two programs print for it.
//!
//!     samples FOLDER
//!
//! For each sample: NAME.log (the log), NAME.tree (the tree block), NAME.listing (what the mining program prints) and
//! NAME.verdicts (what the judging program prints for that tree and that log).

use independent::block::BLOCK;
use independent::calls::{mine_log, MINING_WORK};
use independent::generate::heartbeats::put;
use independent::generate::random::Random;
use independent::listing::{judging_output, mining_output};
use independent::log::{log_of, Episode, HEARTBEAT};
use std::path::Path;
use std::{env, fs, io, process};

/// What the codes of the samples mean.
const A_FALLS: u8 = 0;
const B_FALLS: u8 = 1;
const A_RETURNS: u8 = 2;
const B_RETURNS: u8 = 3;
const SWITCH_TO_A: u8 = 4;
const SWITCH_TO_B: u8 = 5;
const RENEW_LEASE: u8 = 6;
const RESTART_MODEM: u8 = 7;
const TELL_OWNER: u8 = 8;

const MEANINGS: [(u8, &str); 10] = [
    (A_FALLS, "line A falls"),
    (B_FALLS, "line B falls"),
    (A_RETURNS, "line A returns"),
    (B_RETURNS, "line B returns"),
    (SWITCH_TO_A, "switch to line A"),
    (SWITCH_TO_B, "switch to line B"),
    (RENEW_LEASE, "renew the lease"),
    (RESTART_MODEM, "restart the modem"),
    (TELL_OWNER, "tell the owner"),
    (HEARTBEAT, "heartbeat, which is no event"),
];

type Sample = (&'static str, &'static str, fn() -> Vec<Episode>);

const SAMPLES: [Sample; 8] = [
    ("both-lines-fall", "Both lines fall together and return in either order.", both_lines_fall),
    ("heartbeats", "Both lines fall together, as firmware with heartbeats writes it: the same tree.", heartbeats),
    ("either-line", "One line falls and the other takes over.", either_line),
    ("switchover", "Line A falls, B takes over, A returns; the lease is not always renewed.", switchover),
    ("flapping-line", "Line A falls and returns, at times again after a restart of the modem.", flapping_line),
    ("restarts-without-end", "As before, but one restart may follow another.", restarts),
    ("cable-work", "Falls and returns in no order at all: a flower.", cable_work),
    ("quiet-evenings", "Nothing happened: empty episodes only.", || vec![vec![]; 3]),
];

/// Every order of two events before and two after the restart.
fn both_lines_fall() -> Vec<Episode> {
    let mut episodes = Vec::new();
    for falls in [[A_FALLS, B_FALLS], [B_FALLS, A_FALLS]] {
        for returns in [[A_RETURNS, B_RETURNS], [B_RETURNS, A_RETURNS]] {
            episodes.push([&falls[..], &[TELL_OWNER, RESTART_MODEM], &returns, &[RENEW_LEASE]].concat());
        }
    }
    episodes
}

/// Up to three heartbeats before, between and behind the events, each evening in other gaps.
fn heartbeats() -> Vec<Episode> {
    let beats = |number: usize, events: &Episode| (0..=events.len()).map(|gap| (gap + number) % 4).collect::<Vec<_>>();
    let evenings = both_lines_fall().into_iter().enumerate();
    evenings.map(|(number, events)| put(&events, &beats(number, &events))).collect()
}

fn either_line() -> Vec<Episode> {
    vec![vec![A_FALLS, SWITCH_TO_B, A_RETURNS], vec![B_FALLS, SWITCH_TO_A, B_RETURNS]]
}

fn switchover() -> Vec<Episode> {
    let with = vec![A_FALLS, SWITCH_TO_B, RENEW_LEASE, A_RETURNS, SWITCH_TO_A];
    let without = vec![A_FALLS, SWITCH_TO_B, A_RETURNS, SWITCH_TO_A];
    vec![with.clone(), without, with]
}

fn flapping_line() -> Vec<Episode> {
    let fall = [A_FALLS, A_RETURNS];
    let again = [A_FALLS, A_RETURNS, RESTART_MODEM, A_FALLS, A_RETURNS];
    vec![fall.to_vec(), again.to_vec(), [&again[..], &[RESTART_MODEM], &fall].concat()]
}

fn restarts() -> Vec<Episode> {
    let twice = vec![A_FALLS, A_RETURNS, RESTART_MODEM, RESTART_MODEM, A_FALLS, A_RETURNS];
    flapping_line().into_iter().chain([twice]).collect()
}

fn cable_work() -> Vec<Episode> {
    let mut random = Random::seeded(91);
    let odd = |random: &mut Random| (0..random.between(1, 6)).map(|_| random.below(4) as u8).collect();
    (0..40).map(|_| odd(&mut random)).chain([vec![]]).collect()
}

fn write_sample(folder: &Path, name: &str, episodes: Vec<Episode>) -> io::Result<()> {
    let log = log_of(&episodes).expect("a sample is small");
    let mut tree = [0; BLOCK];
    mine_log(&log, &mut tree, &mut vec![0; MINING_WORK]).expect("a sample is sound");
    let write = |kind: &str, bytes: &[u8]| fs::write(folder.join(format!("{name}.{kind}")), bytes);
    write("log", &log)?;
    write("tree", &tree)?;
    write("listing", mining_output(&log).as_bytes())?;
    write("verdicts", judging_output(&[&tree[..], &log].concat()).as_bytes())
}

fn write_all(folder: &Path) -> io::Result<()> {
    fs::create_dir_all(folder)?;
    let mut about = String::from("Codes:\n");
    for (code, meaning) in MEANINGS {
        about += &format!("{code} {meaning}\n");
    }
    about += "\nSamples:\n";
    for (name, meaning, episodes) in SAMPLES {
        about += &format!("{name}: {meaning}\n");
        write_sample(folder, name, episodes())?;
    }
    fs::write(folder.join("ABOUT"), about)
}

fn main() {
    let Some(folder) = env::args().nth(1) else {
        eprintln!("usage: samples FOLDER");
        process::exit(2);
    };
    if let Err(problem) = write_all(Path::new(&folder)) {
        eprintln!("{folder}: {problem}");
        process::exit(1);
    }
}
