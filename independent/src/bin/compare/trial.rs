//! One call on one side, with guards around everything that is lent.

use independent::block::BLOCK;
use independent::calls::Gateway;
use independent::tree::{well_formed, Tree};
use std::fmt;

pub enum Case {
    Read { block: Vec<u8>, at: usize },
    Add { block: Vec<u8>, episode: Vec<u8> },
    Mine { log: Vec<u8>, out: usize, work: usize, found: Found },
    Check { tree: Vec<u8> },
    Judge { tree: Vec<u8>, episode: Vec<u8>, work: usize },
}

/// What the work of mining holds when the call begins.
#[derive(Clone, Copy, Debug)]
pub enum Found {
    /// Bytes of which none is zero.
    Dirty,
    /// One number of two bytes again and again, as a list or a table of places may hold it.
    Numbers(u16),
}

impl Case {
    pub fn mine(log: Vec<u8>, out: usize, work: usize) -> Case {
        Case::Mine { log, out, work, found: Found::Dirty }
    }

    pub fn call(&self) -> &'static str {
        match self {
            Case::Read { .. } => "reading",
            Case::Add { .. } => "adding",
            Case::Mine { .. } => "mining",
            Case::Check { .. } => "checking",
            Case::Judge { .. } => "judging",
        }
    }

    /// Something of length 0 is lent.
    pub fn lends_nothing(&self) -> bool {
        match self {
            Case::Read { block, .. } => block.is_empty(),
            Case::Add { block, episode } => block.is_empty() || episode.is_empty(),
            Case::Mine { log, out, work, .. } => log.is_empty() || *out == 0 || *work == 0,
            Case::Check { tree } => tree.is_empty(),
            Case::Judge { tree, episode, work } => tree.is_empty() || episode.is_empty() || *work == 0,
        }
    }
}

/// Bytes in hexadecimal, zeros at the end left out.
struct Hex<'a>(&'a [u8]);

impl fmt::Display for Hex<'_> {
    fn fmt(&self, to: &mut fmt::Formatter) -> fmt::Result {
        let end = self.0.iter().rposition(|&byte| byte != 0).map_or(0, |last| last + 1);
        self.0[..end].iter().try_for_each(|byte| write!(to, "{byte:02x}"))?;
        write!(to, " and {} zeros", self.0.len() - end)
    }
}

impl fmt::Display for Case {
    fn fmt(&self, to: &mut fmt::Formatter) -> fmt::Result {
        match self {
            Case::Read { block, at } => write!(to, "block {}, place {at}", Hex(block)),
            Case::Add { block, episode } => write!(to, "block {}, episode {}", Hex(block), Hex(episode)),
            Case::Mine { log, out, work, found } => {
                write!(to, "log {}, {out} bytes to write, work {work}, in it {found:?}", Hex(log))
            }
            Case::Check { tree } => write!(to, "tree {}", Hex(tree)),
            Case::Judge { tree, episode, work } => {
                write!(to, "tree {}, episode {}, work {work}", Hex(tree), Hex(episode))
            }
        }
    }
}

/// The answer, and every lent cell afterwards with its guards.
#[derive(PartialEq, Eq)]
pub struct Outcome {
    pub answer: u64,
    pub bytes: Vec<Vec<u8>>,
    pub numbers: Vec<u64>,
}

impl Outcome {
    /// The same answer, and the same in everything that was lent to be written, whatever was read.
    pub fn leaves_as(&self, other: &Outcome) -> bool {
        self.answer == other.answer && self.bytes[1..] == other.bytes[1..] && self.numbers == other.numbers
    }

    /// The tree that mining wrote.
    pub fn tree(&self) -> Option<Tree> {
        well_formed(self.lent(1).get(..BLOCK)?)
    }

    /// The lent bytes of this number, their guards taken off.
    pub fn lent(&self, number: usize) -> &[u8] {
        &self.bytes[number][GUARD..self.bytes[number].len() - GUARD]
    }
}

/// Odd, so that lent bytes begin at an odd address.
pub const GUARD: usize = 61;

/// What is lent, between two runs of cells that nobody may change.
struct Lent<T>(Vec<T>);

impl<T: Copy> Lent<T> {
    fn filled(length: usize, cell: impl Fn(usize) -> T) -> Lent<T> {
        Lent((0..length + 2 * GUARD).map(cell).collect())
    }

    fn inner(&mut self) -> &mut [T] {
        let end = self.0.len() - GUARD;
        &mut self.0[GUARD..end]
    }
}

/// No byte of it is zero, so that what a call clears and what it leaves both show.
fn dirty(place: usize) -> u8 {
    (place % 251 + 1) as u8
}

fn dirty_number(place: usize) -> u64 {
    (place as u64 + 1).wrapping_mul(0x9e37_79b9_7f4a_7c15) | 1
}

fn lent_bytes(bytes: &[u8]) -> Lent<u8> {
    let mut lent = Lent::filled(bytes.len(), dirty);
    lent.inner().copy_from_slice(bytes);
    lent
}

fn lent_work(length: usize, found: Found) -> Lent<u8> {
    let mut lent = Lent::filled(length, dirty);
    if let Found::Numbers(number) = found {
        lent.inner().chunks_mut(2).for_each(|two| two.copy_from_slice(&number.to_le_bytes()[..two.len()]));
    }
    lent
}

pub fn run(side: &dyn Gateway, case: &Case) -> Outcome {
    match case {
        Case::Read { block, at } => {
            let mut block = lent_bytes(block);
            let answer = side.read(block.inner(), *at);
            Outcome { answer, bytes: vec![block.0], numbers: vec![] }
        }
        Case::Add { block, episode } => {
            let (mut block, mut episode) = (lent_bytes(block), lent_bytes(episode));
            let answer = side.add(block.inner(), episode.inner());
            Outcome { answer, bytes: vec![block.0, episode.0], numbers: vec![] }
        }
        Case::Mine { log, out, work, found } => {
            let (mut log, mut out, mut work) = (lent_bytes(log), Lent::filled(*out, dirty), lent_work(*work, *found));
            let answer = side.mine(log.inner(), out.inner(), work.inner());
            Outcome { answer, bytes: vec![log.0, out.0, work.0], numbers: vec![] }
        }
        Case::Check { tree } => {
            let mut tree = lent_bytes(tree);
            let answer = side.check(tree.inner());
            Outcome { answer, bytes: vec![tree.0], numbers: vec![] }
        }
        Case::Judge { tree, episode, work } => {
            let (mut tree, mut episode) = (lent_bytes(tree), lent_bytes(episode));
            let mut work = Lent::filled(*work, dirty_number);
            let answer = side.judge(tree.inner(), episode.inner(), work.inner());
            Outcome { answer, bytes: vec![tree.0, episode.0], numbers: work.0 }
        }
    }
}
