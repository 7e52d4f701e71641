//! What the two programs print.

use crate::answer::{refuse, Answer, Refusal};
use crate::block::BLOCK;
use crate::{calls, judge, log, tree};

fn kind_name(kind: u8) -> &'static str {
    ["", "tau", "act", "xor", "seq", "par", "loop"][kind as usize]
}

/// The listing of a sound tree block with this number of nodes.
fn tree_lines(block: &[u8], nodes: usize) -> String {
    let entries = block.chunks(4).take(nodes).enumerate();
    let lines = entries.map(|(at, e)| format!("{at} {} {} {}\n", kind_name(e[0]), e[1], e[2]));
    format!("nodes {nodes}\n") + &lines.collect::<String>()
}

fn refusal_line(refusal: Refusal) -> String {
    format!("refused {} at {}\n", refusal.number, refusal.place)
}

/// The mining program's output for what it reads.
pub fn mining_output(log: &[u8]) -> String {
    let mut block = [0; BLOCK];
    let mut work = vec![0; calls::MINING_WORK];
    match calls::mine_log(log, &mut block, &mut work) {
        Ok(nodes) => tree_lines(&block, nodes),
        Err(refusal) => refusal_line(refusal),
    }
}

/// The judging program's output: a tree block, then a log.
pub fn judging_output(input: &[u8]) -> String {
    let (tree, log) = input.split_at(input.len().min(BLOCK));
    verdict_lines(tree, log).unwrap_or_else(refusal_line)
}

fn verdict_lines(block: &[u8], log: &[u8]) -> Answer<String> {
    calls::check(block)?;
    let Some(tree) = tree::well_formed(block) else { return refuse(9, 0) };
    if !log::length_is_right(log) {
        return refuse(1, 0);
    }
    let episodes = log::episodes_of(log)?;
    let verdict = |episode: &Vec<u8>| if judge::fits(&tree, episode) { "fits" } else { "misfit" };
    Ok(episodes.iter().zip(1..).map(|(episode, number)| format!("{number} {}\n", verdict(episode))).collect())
}
