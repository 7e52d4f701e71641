//! Judging by rows of places. Row i of a node is a set of places: j is in it where the events from i up to j, other
//! codes than the node's own passed over, are in the node's language.

use super::codes::{bit, Codes};
use super::log::check_episode;
use super::tree::{check_block, entry};
use crate::answer::{refuse, Answer};
use crate::calls::JUDGING_WORK;
use crate::log::{HEARTBEAT, LONGEST_EPISODE};

type Rows = [u64; 64];

pub fn judge(tree: &[u8], episode: &[u8], work: &mut [u64]) -> Answer<usize> {
    let Ok(tree) = tree.try_into() else { return refuse(8, 0) };
    let Some(work) = work.get_mut(..JUDGING_WORK) else { return refuse(3, 0) };
    let nodes = check_block(tree)?;
    check_episode(episode)?;
    let mut room = [0; LONGEST_EPISODE];
    let episode = events_of(episode, &mut room);
    let rows = work.as_chunks_mut().0;
    let verdict = Judge { tree, episode, rows, codes: [0; 127] }.fits(nodes);
    work.fill(0);
    Ok(verdict as usize)
}

/// The episode without its heartbeats: the places that judging goes by are those between events.
fn events_of<'r>(episode: &[u8], room: &'r mut [u8; LONGEST_EPISODE]) -> &'r [u8] {
    let mut count = 0;
    for &code in episode {
        room[count] = code;
        count += (code != HEARTBEAT) as usize;
    }
    &room[..count]
}

struct Judge<'a> {
    tree: &'a [u8; 512],
    episode: &'a [u8],
    rows: &'a mut [Rows],
    /// The codes of each node's leaves.
    codes: [Codes; 127],
}

/// The places from `place` on.
fn from(place: usize) -> u64 {
    !0 << place
}

impl Judge<'_> {
    fn fits(mut self, nodes: usize) -> bool {
        for at in (0..nodes).rev() {
            self.fill(at);
        }
        let known = self.episode.iter().all(|&code| self.codes[0] & bit(code) != 0);
        known && self.rows[0][0] >> self.episode.len() & 1 != 0
    }

    fn fill(&mut self, at: usize) {
        match entry(self.tree, at) {
            [1, ..] => self.fill_silent(at),
            [2, code, ..] => self.fill_leaf(at, code),
            [kind, ..] => self.fill_operator(at, kind),
        }
    }

    /// Every place up to the end: a set of places may hold later ones, which nobody asks for.
    fn fill_silent(&mut self, at: usize) {
        for (place, row) in self.rows[at].iter_mut().enumerate() {
            *row = from(place);
        }
    }

    fn fill_leaf(&mut self, at: usize, code: u8) {
        self.codes[at] = bit(code);
        // The first two places behind an event of the code, 64 where there is none.
        let (mut first, mut second) = (64, 64);
        for place in (0..=self.episode.len()).rev() {
            if self.episode.get(place) == Some(&code) {
                (first, second) = (place + 1, first);
            }
            self.rows[at][place] = up_from(first) & !up_from(second);
        }
    }

    fn fill_operator(&mut self, at: usize, kind: u8) {
        let end = at + entry(self.tree, at)[2] as usize;
        let mut child = at + 1;
        let mut codes = 0;
        while child < end {
            codes |= self.codes[child];
            child = self.after(child);
        }
        self.codes[at] = codes;
        match kind {
            3 => self.fill_choice(at, end),
            4 => self.fill_sequence(at, end),
            5 => self.fill_parallel(at, end),
            _ => self.fill_loop(at, end),
        }
    }

    fn after(&self, child: usize) -> usize {
        child + entry(self.tree, child)[2] as usize
    }

    /// Takes from a child's rows the places that lie behind an event of one of its siblings.
    fn without_siblings(&mut self, child: usize, codes: Codes) {
        let siblings = codes & !self.codes[child];
        let mut clear = !0;
        for place in (0..=self.episode.len()).rev() {
            if let Some(&code) = self.episode.get(place) {
                if siblings & bit(code) != 0 {
                    clear = !from(place + 1);
                }
            }
            self.rows[child][place] &= clear;
        }
    }

    fn fill_choice(&mut self, at: usize, end: usize) {
        self.rows[at] = [0; 64];
        let mut child = at + 1;
        while child < end {
            self.without_siblings(child, self.codes[at]);
            for place in 0..=self.episode.len() {
                self.rows[at][place] |= self.rows[child][place];
            }
            child = self.after(child);
        }
    }

    fn fill_parallel(&mut self, at: usize, end: usize) {
        self.rows[at] = [!0; 64];
        let mut child = at + 1;
        while child < end {
            for place in 0..=self.episode.len() {
                self.rows[at][place] &= self.rows[child][place];
            }
            child = self.after(child);
        }
    }

    fn fill_sequence(&mut self, at: usize, end: usize) {
        for place in 0..=self.episode.len() {
            self.rows[at][place] = 1 << place;
        }
        let mut child = at + 1;
        while child < end {
            self.without_siblings(child, self.codes[at]);
            for place in 0..=self.episode.len() {
                self.rows[at][place] = self.joined(self.rows[at][place], child);
            }
            child = self.after(child);
        }
    }

    /// Where a word of the node can end that begins at one of the given places.
    fn joined(&self, begins: u64, node: usize) -> u64 {
        let mut left = begins & !up_from(self.episode.len() + 1);
        let mut ends = 0;
        while left != 0 {
            ends |= self.rows[node][left.trailing_zeros() as usize];
            left &= left - 1;
        }
        ends
    }

    /// From the last place to the first, so that the loop's later rows are there to go on with. The first redo's rows
    /// take up the other redos; the body's rows become where a redo and what follows it can end.
    fn fill_loop(&mut self, at: usize, end: usize) {
        let body = at + 1;
        let redo = self.after(body);
        self.gather_redos(at, redo, end);
        self.without_siblings(body, self.codes[at]);
        for place in (0..=self.episode.len()).rev() {
            let bodies = self.rows[body][place];
            let again = self.joined(self.rows[redo][place] & !(1 << place), at);
            self.rows[body][place] = again;
            let row = bodies | self.joined(bodies, body);
            if self.rows[redo][place] >> place & 1 != 0 {
                self.rows[body][place] |= row;
            }
            self.rows[at][place] = row;
        }
    }

    fn gather_redos(&mut self, at: usize, redo: usize, end: usize) {
        let mut child = redo;
        while child < end {
            self.without_siblings(child, self.codes[at]);
            if child != redo {
                for place in 0..=self.episode.len() {
                    self.rows[redo][place] |= self.rows[child][place];
                }
            }
            child = self.after(child);
        }
    }
}

/// The places from `place` on, none for 64.
fn up_from(place: usize) -> u64 {
    u64::MAX.checked_shl(place as u32).unwrap_or(0)
}
