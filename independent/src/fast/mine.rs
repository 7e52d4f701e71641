//! Mining by views. What lives across the recursion is a cut and a view; the tables are gone by then.

use super::codes::{each, Codes};
use super::cuts::{first_cut, Cut, CHOICE, LOOP};
use super::gather::{gather, Episodes};
use super::log::{check_log, sum_of};
use super::view::{graph_of, parts_missed, root_of, View};
use crate::answer::{refuse, Answer};
use crate::calls::MINING_WORK;

pub fn mine(log: &[u8], out: &mut [u8], work: &mut [u8]) -> Answer<usize> {
    if log.is_empty() || log.len() > 8192 || !log.len().is_multiple_of(512) {
        return refuse(1, 0);
    }
    let Some(out) = out.first_chunk_mut::<512>() else { return refuse(2, 0) };
    let Some(work) = work.first_chunk_mut::<MINING_WORK>() else { return refuse(3, 0) };
    check_log(log)?;
    out.fill(0);
    let episodes = gather(log, work);
    let mut miner = Miner { episodes, out, nodes: 0 };
    miner.grow(root_of(episodes));
    let nodes = miner.nodes;
    let sum = sum_of(out);
    out[508..].copy_from_slice(&sum.to_le_bytes());
    work.fill(0);
    Ok(nodes)
}

enum Step {
    Silent,
    Leaf(u8),
    Flower,
    Parts(Cut, u32),
}

struct Miner<'a> {
    episodes: Episodes<'a>,
    out: &'a mut [u8; 512],
    nodes: usize,
}

impl Miner<'_> {
    fn push(&mut self, kind: u8, argument: u8) -> usize {
        let at = self.nodes;
        self.out[4 * at..4 * at + 3].copy_from_slice(&[kind, argument, 1]);
        self.nodes += 1;
        at
    }

    /// Writes the subtree of a view behind the entries already there.
    fn grow(&mut self, view: View) {
        match step(self.episodes, view) {
            Step::Silent => {
                self.push(1, 0);
            }
            Step::Leaf(code) => {
                self.push(2, code);
            }
            Step::Flower => self.push_flower(view.keep),
            Step::Parts(cut, missed) => {
                let parts = cut.parts();
                let at = self.push(cut.kind, parts.len() as u8);
                for (number, &part) in parts.iter().enumerate() {
                    self.grow(part_view(view, cut.kind, part, missed >> number & 1 != 0));
                }
                self.out[4 * at + 2] = (self.nodes - at) as u8;
            }
        }
    }

    fn push_flower(&mut self, codes: Codes) {
        let petals = codes.count_ones() as u8;
        let at = self.push(LOOP, petals + 1);
        self.out[4 * at + 2] = petals + 2;
        self.push(1, 0);
        for code in each(codes) {
            self.push(2, code);
        }
    }
}

fn part_view(view: View, kind: u8, part: Codes, missed: bool) -> View {
    let others = if kind == LOOP { view.keep & !part } else { 0 };
    View { keep: part, breaks: view.breaks | others, empty_episode: missed }
}

/// Goes over the episodes once or twice. Kept out of line: its tables must not stay on the stack below it.
#[inline(never)]
fn step(episodes: Episodes, view: View) -> Step {
    if view.keep == 0 {
        return Step::Silent;
    }
    if view.empty_episode {
        return Step::Flower;
    }
    let graph = graph_of(episodes, view);
    if view.keep.is_power_of_two() {
        let code = view.keep.trailing_zeros();
        return if graph.rows[code as usize] == 0 { Step::Leaf(code as u8) } else { Step::Flower };
    }
    let Some(cut) = first_cut(&graph, view.keep) else { return Step::Flower };
    let projects = cut.kind != CHOICE && cut.kind != LOOP;
    let missed = if projects { parts_missed(episodes, view, cut.parts()) } else { 0 };
    Step::Parts(cut, missed)
}
