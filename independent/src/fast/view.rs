//! The sublog of a part as a view over the listed episodes: nothing is copied, each question is one pass.

use super::codes::{bit, Codes};
use super::gather::Episodes;
use crate::log::HEARTBEAT;

/// The episodes of a view are what its breaks leave of each record, other codes than the kept ones passed over.
#[derive(Clone, Copy)]
pub struct View {
    pub keep: Codes,
    pub breaks: Codes,
    /// The empty episode is in the view.
    pub empty_episode: bool,
}

pub struct Graph {
    pub rows: [Codes; 32],
    pub starts: Codes,
    pub ends: Codes,
}

/// The view that keeps every code but the heartbeat, which no view keeps or breaks at: all passes go over it.
pub fn root_of(episodes: Episodes) -> View {
    let mut view = View { keep: 0, breaks: 0, empty_episode: false };
    for codes in episodes.each() {
        let events = codes.iter().fold(0, |set, &code| set | bit(code)) & !bit(HEARTBEAT);
        view.keep |= events;
        view.empty_episode |= events == 0;
    }
    view
}

/// Stands for no code before the first event of an episode.
const NONE: u8 = 32;

pub fn graph_of(episodes: Episodes, view: View) -> Graph {
    // Row 32 takes the pairs of no code and a first one: these are the starts.
    let mut rows = [0; 33];
    let mut ends = 0;
    for codes in episodes.each() {
        let mut last = NONE;
        for &code in codes {
            if view.keep & bit(code) != 0 {
                rows[last as usize] |= bit(code);
                last = code;
            } else if view.breaks & bit(code) != 0 && last != NONE {
                ends |= bit(last);
                last = NONE;
            }
        }
        if last != NONE {
            ends |= bit(last);
        }
    }
    let starts = rows[NONE as usize];
    let mut graph = Graph { rows: [0; 32], starts, ends };
    graph.rows.copy_from_slice(&rows[..32]);
    graph
}

/// Which of the parts, by number, some episode of the view has no event of.
pub fn parts_missed(episodes: Episodes, view: View, parts: &[Codes]) -> u32 {
    let mut missed = 0;
    let mut close = |seen: Codes| {
        if seen != 0 && seen != view.keep {
            for (number, part) in parts.iter().enumerate() {
                missed |= ((seen & part == 0) as u32) << number;
            }
        }
    };
    for codes in episodes.each() {
        let mut seen = 0;
        for &code in codes {
            if view.breaks & bit(code) != 0 {
                close(seen);
                seen = 0;
            }
            seen |= bit(code) & view.keep;
        }
        close(seen);
    }
    missed
}
