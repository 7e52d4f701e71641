//! The four cuts, each as the components of one symmetric table of rows.

use super::codes::{bit, each, Codes};
use super::view::Graph;

type Table = [Codes; 32];

pub struct Cut {
    pub kind: u8,
    parts: [Codes; 32],
    count: usize,
}

impl Cut {
    fn new(kind: u8) -> Cut {
        Cut { kind, parts: [0; 32], count: 0 }
    }

    pub fn parts(&self) -> &[Codes] {
        &self.parts[..self.count]
    }

    fn push(&mut self, part: Codes) {
        self.parts[self.count] = part;
        self.count += 1;
    }
}

pub const CHOICE: u8 = 3;
pub const SEQUENCE: u8 = 4;
pub const PARALLEL: u8 = 5;
pub const LOOP: u8 = 6;

/// The first cut of two parts or more, for the codes of a view.
pub fn first_cut(graph: &Graph, codes: Codes) -> Option<Cut> {
    let back = transposed(&graph.rows, codes);
    let tries = [choice, sequence, parallel, redo];
    tries.iter().map(|cut| cut(graph, &back, codes)).find(|cut| cut.count >= 2)
}

fn transposed(rows: &Table, codes: Codes) -> Table {
    let mut back = [0; 32];
    for a in each(codes) {
        for b in each(rows[a as usize]) {
            back[b as usize] |= bit(a);
        }
    }
    back
}

/// Pushes the components within a set, by their smallest code.
fn push_components(cut: &mut Cut, joined: &Table, within: Codes) {
    let mut left = within;
    while left != 0 {
        let part = component(joined, left);
        left &= !part;
        cut.push(part);
    }
}

/// The component of the smallest code of a set.
fn component(joined: &Table, within: Codes) -> Codes {
    let mut part = within & within.wrapping_neg();
    let mut waiting = part;
    while waiting != 0 {
        let next = joined[waiting.trailing_zeros() as usize] & within & !part;
        waiting &= waiting - 1;
        waiting |= next;
        part |= next;
    }
    part
}

fn choice(graph: &Graph, back: &Table, codes: Codes) -> Cut {
    let mut cut = Cut::new(CHOICE);
    let either = std::array::from_fn(|a| graph.rows[a] | back[a]);
    push_components(&mut cut, &either, codes);
    cut
}

fn sequence(graph: &Graph, _: &Table, codes: Codes) -> Cut {
    let mut reach = graph.rows;
    for middle in each(codes) {
        let beyond = reach[middle as usize];
        for a in each(codes) {
            if reach[a as usize] & bit(middle) != 0 {
                reach[a as usize] |= beyond;
            }
        }
    }
    let reached_by = transposed(&reach, codes);
    let together = std::array::from_fn(|a| !(reach[a] ^ reached_by[a]));
    let mut cut = Cut::new(SEQUENCE);
    push_components(&mut cut, &together, codes);
    // A part reaches every later part whole, so it goes by how many codes it reaches outside itself.
    let beyond = |part: &Codes| (reach[part.trailing_zeros() as usize] & !part).count_ones();
    cut.parts[..cut.count].sort_unstable_by_key(|part| std::cmp::Reverse(beyond(part)));
    cut
}

fn parallel(graph: &Graph, back: &Table, codes: Codes) -> Cut {
    let mut cut = Cut::new(PARALLEL);
    let not_both = std::array::from_fn(|a| !(graph.rows[a] & back[a]));
    push_components(&mut cut, &not_both, codes);
    pair_components(&mut cut, graph);
    join_the_rest(&mut cut, graph);
    cut
}

/// Joins the i-th component with only starts and the i-th with only ends, where the first of the two stands.
fn pair_components(cut: &mut Cut, graph: &Graph) {
    // Sets of the components' numbers, one bit each.
    let (mut starting, mut ending) = (0, 0);
    for (number, part) in cut.parts().iter().enumerate() {
        let (starts, ends) = (part & graph.starts != 0, part & graph.ends != 0);
        starting |= ((starts && !ends) as u32) << number;
        ending |= ((ends && !starts) as u32) << number;
    }
    for (one, other) in each(starting).zip(each(ending)) {
        let (first, second) = (one.min(other) as usize, one.max(other) as usize);
        cut.parts[first] |= cut.parts[second];
        cut.parts[second] = 0;
    }
}

/// Keeps the parts with a start and an end; the first of them takes up all others.
fn join_the_rest(cut: &mut Cut, graph: &Graph) {
    let (mut rest, mut kept) = (0, 0);
    for number in 0..cut.count {
        let part = cut.parts[number];
        if part & graph.starts != 0 && part & graph.ends != 0 {
            cut.parts[kept] = part;
            kept += 1;
        } else {
            rest |= part;
        }
    }
    cut.parts[0] |= rest;
    cut.count = kept;
}

fn redo(graph: &Graph, back: &Table, codes: Codes) -> Cut {
    let inner = codes & !(graph.starts | graph.ends);
    let either = std::array::from_fn(|a| graph.rows[a] | back[a]);
    let mut found = Cut::new(LOOP);
    push_components(&mut found, &either, inner);
    let mut cut = Cut::new(LOOP);
    cut.push(codes);
    for &part in found.parts() {
        if is_redo(graph, back, part) {
            cut.parts[0] &= !part;
            cut.push(part);
        }
    }
    cut
}

fn is_redo(graph: &Graph, back: &Table, part: Codes) -> bool {
    let outer = graph.starts | graph.ends;
    each(part).all(|code| {
        let to = graph.rows[code as usize] & outer;
        let from = back[code as usize] & outer;
        (to == 0 || to == graph.starts) && (from == 0 || from == graph.ends)
    })
}
