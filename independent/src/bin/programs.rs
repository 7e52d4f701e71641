//! Runs the mining and the judging program on many inputs and compares what they print with what they should.
//!
//!     programs MINING JUDGING      each a command, its words parted by spaces
//!
//! `reference mine` and `reference judge` are two such commands. The last line counts the inputs; the exit status is 1 if one failed.

use independent::block::BLOCK;
use independent::generate::damage::{damage_log_block, damage_tree, TreeDamage, LOG_DAMAGES, TREE_DAMAGES};
use independent::generate::heartbeats::{alone, put_some, PLACES};
use independent::generate::logs::{any_episode, any_episodes, full_log, packed_log, tree_episodes};
use independent::generate::random::Random;
use independent::generate::trees::{short_episode, some_codes, some_tree};
use independent::listing::{judging_output, mining_output};
use independent::log::{episodes_of, EVENT_CODES};
use independent::tree::Tree;
use std::io::Write;
use std::process::{Command, ExitCode, Stdio};

fn main() -> ExitCode {
    let commands: Vec<String> = std::env::args().skip(1).collect();
    let [mining, judging] = &commands[..] else {
        eprintln!("usage: programs MINING JUDGING");
        return ExitCode::from(2);
    };
    let mut random = Random::seeded(101);
    let mined = compared("mining", mining, mining_inputs(&mut random), mining_output);
    let judged = compared("judging", judging, judging_inputs(&mut random), judging_output);
    let (passed, failed) = (mined.0 + judged.0, mined.1 + judged.1);
    println!("{passed} passed, {failed} failed");
    ExitCode::from((failed > 0) as u8)
}

/// How many inputs passed and how many failed.
fn compared(name: &str, command: &str, inputs: Vec<Vec<u8>>, expected: fn(&[u8]) -> String) -> (usize, usize) {
    let mut failed = 0;
    for input in &inputs {
        let (wanted, got) = (expected(input), output(command, input));
        if wanted != got {
            failed += 1;
            println!("{name}, {} bytes of input: {got:?} instead of {wanted:?}", input.len());
        }
    }
    println!("{name}: {} inputs", inputs.len());
    (inputs.len() - failed, failed)
}

/// What the command prints; its exit status does not matter.
fn output(command: &str, input: &[u8]) -> String {
    let mut words = command.split_whitespace();
    let program = words.next().expect("a command");
    let mut child = Command::new(program)
        .args(words)
        .stdin(Stdio::piped())
        .stdout(Stdio::piped())
        .spawn()
        .expect("the program starts");
    // It may stop reading before the end; the input is smaller than what a pipe holds.
    let _ = child.stdin.take().expect("piped").write_all(input);
    let said = child.wait_with_output().expect("the program ends").stdout;
    String::from_utf8_lossy(&said).into_owned()
}

const LENGTHS: [usize; 12] = [0, 1, 511, 512, 513, 1_023, 1_024, 8_191, 8_192, 8_193, 8_704, 10_000];

fn some_log(random: &mut Random) -> Vec<u8> {
    let count = random.between(1, 8);
    let codes = some_codes(random, count);
    let tree = some_tree(random, &codes);
    packed_log(tree_episodes(random, &tree, 30))
}

/// Episodes of a tree with heartbeats at each kind of place, and a record of heartbeats alone.
fn beating_log(random: &mut Random, tree: &Tree) -> Vec<u8> {
    let mut episodes = Vec::new();
    for place in PLACES {
        let events = short_episode(random, tree, 3);
        episodes.push(put_some(random, &events, place));
    }
    episodes.push(alone(random.between(1, 63)));
    packed_log(episodes)
}

fn damaged_log(random: &mut Random) -> Vec<u8> {
    let longest = random.between(1, 9);
    let mut log = full_log(random, 3, |random| any_episode(random, 32, longest));
    for _ in 0..random.between(1, 2) {
        let number = random.below(3);
        let damage = *random.pick(&LOG_DAMAGES);
        damage_log_block(random, &mut log[number * BLOCK..(number + 1) * BLOCK], damage);
    }
    log
}

fn mining_inputs(random: &mut Random) -> Vec<Vec<u8>> {
    let mut inputs: Vec<Vec<u8>> = LENGTHS.iter().map(|&length| vec![0; length]).collect();
    for _ in 0..40 {
        inputs.push(some_log(random));
        inputs.push(packed_log(any_episodes(random, 4, 3, 4)));
        inputs.push(damaged_log(random));
    }
    for count in (1..=EVENT_CODES).step_by(6) {
        let codes = some_codes(random, count);
        let tree = some_tree(random, &codes);
        let beating = beating_log(random, &tree);
        let events = episodes_of(&beating).expect("a sound log");
        inputs.extend([beating, packed_log(events)]);
    }
    inputs.push(packed_log(vec![alone(63)]));
    for _ in 0..4 {
        let codes = some_codes(random, EVENT_CODES);
        let tree = some_tree(random, &codes);
        inputs.push(full_log(random, 16, |random| short_episode(random, &tree, 4)));
    }
    inputs
}

fn judging_inputs(random: &mut Random) -> Vec<Vec<u8>> {
    let leaf = Tree::Activity(0).block();
    let mut inputs: Vec<Vec<u8>> = LENGTHS.iter().map(|&length| vec![0; length]).collect();
    inputs.extend(LENGTHS.iter().map(|&length| [&leaf[..], &vec![0; length]].concat()));
    for _ in 0..40 {
        let codes = some_codes(random, 5);
        let tree = some_tree(random, &codes);
        let sound = tree.block();
        inputs.push([&sound[..], &packed_log(tree_episodes(random, &tree, 20))].concat());
        inputs.push([&sound[..], &some_log(random)].concat());
        inputs.push([&sound[..], &beating_log(random, &tree)].concat());
        let mut beating = sound;
        damage_tree(random, &mut beating, TreeDamage::HeartbeatLeaf);
        inputs.push([&beating[..], &beating_log(random, &tree)].concat());
        inputs.push([&sound[..], &damaged_log(random)].concat());
        let mut damaged = sound;
        let damage = *random.pick(&TREE_DAMAGES);
        damage_tree(random, &mut damaged, damage);
        inputs.push([&damaged[..], &damaged_log(random)].concat());
    }
    inputs
}
