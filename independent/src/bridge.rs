//! The proved library behind the bridge: a program of its own that answers calls over its input and output.

use crate::calls::Gateway;
use std::cell::RefCell;
use std::io::{Read, Write};
use std::process::{Child, Command, Stdio};

/// Given for a call that wrote where it must not; no call of the library answers it.
const TRESPASS: u64 = u64::MAX;

/// How many runs of cells a request has room for.
const SLICES: usize = 3;

/// What is lent to a call: cells that it may only read or may write.
pub enum Lent<'a> {
    Read(&'a [u8]),
    Write(&'a mut [u8]),
    Numbers(&'a mut [u64]),
}

impl Lent<'_> {
    /// Its bytes, and how many of them are one cell.
    fn cells(&self) -> (Vec<u8>, usize) {
        match self {
            Lent::Read(bytes) => (bytes.to_vec(), 1),
            Lent::Write(bytes) => (bytes.to_vec(), 1),
            Lent::Numbers(numbers) => (numbers.iter().flat_map(|number| number.to_le_bytes()).collect(), 8),
        }
    }

    /// Takes the cells as they are after the call; false where the call changed what it may only read.
    fn take_back(&mut self, after: &[u8]) -> bool {
        match self {
            Lent::Read(bytes) => return *bytes == after,
            Lent::Write(bytes) => bytes.copy_from_slice(after),
            Lent::Numbers(numbers) => {
                for (number, eight) in numbers.iter_mut().zip(after.chunks(8)) {
                    *number = u64::from_le_bytes(eight.try_into().expect("8 bytes"));
                }
            }
        }
        true
    }
}

/// The calls by their numbers; nothing is no call, what a measurement has beside the call.
#[derive(Clone, Copy)]
pub enum Asked {
    Nothing,
    Read,
    Add,
    Mine,
    Check,
    Judge,
}

/// A call with its place, where it has one, and all that it is lent.
pub struct Request<'a> {
    pub call: Asked,
    pub at: usize,
    pub lent: Vec<Lent<'a>>,
}

impl Request<'_> {
    /// The bytes that ask for the call, on a painted stack or not.
    pub fn message(&self, null_for_nothing: bool, paint: bool) -> Vec<u8> {
        let cells: Vec<(Vec<u8>, usize)> = self.lent.iter().map(Lent::cells).collect();
        let mut words = vec![self.call as usize, self.at, null_for_nothing as usize, paint as usize, cells.len()];
        words.extend(cells.iter().map(|(bytes, width)| bytes.len() / width));
        words.resize(5 + SLICES, 0);
        words.extend(cells.iter().map(|(_, width)| *width));
        words.resize(5 + 2 * SLICES, 0);
        let mut message: Vec<u8> = words.iter().flat_map(|&word| (word as u64).to_le_bytes()).collect();
        cells.iter().for_each(|(bytes, _)| message.extend(bytes));
        message
    }
}

struct Reply {
    answer: u64,
    stack: u64,
}

pub struct Bridge {
    child: RefCell<Child>,
    pub null_for_nothing: bool,
}

impl Bridge {
    /// Starts the bridge by a command whose words are parted by spaces.
    pub fn started(command: &str, null_for_nothing: bool) -> Bridge {
        let mut words = command.split_whitespace();
        let program = words.next().expect("a command");
        let child = Command::new(program).args(words).stdin(Stdio::piped()).stdout(Stdio::piped()).spawn();
        Bridge { child: RefCell::new(child.expect("the bridge starts")), null_for_nothing }
    }

    /// The command that the environment names for the bridge.
    pub fn command() -> Option<String> {
        std::env::var("GATEWAY_BRIDGE").ok()
    }

    fn ask(&self, mut request: Request, paint: bool) -> Reply {
        let mut child = self.child.borrow_mut();
        let message = request.message(self.null_for_nothing, paint);
        child.stdin.as_mut().expect("piped").write_all(&message).expect("the bridge listens");
        let from = child.stdout.as_mut().expect("piped");
        let mut read = |length| {
            let mut bytes = vec![0; length];
            from.read_exact(&mut bytes).expect("the bridge replies");
            bytes
        };
        let head = read(24);
        let word = |number: usize| u64::from_le_bytes(head[8 * number..8 * number + 8].try_into().expect("8 bytes"));
        let mut in_bounds = word(1) == 1;
        for one in &mut request.lent {
            let after = read(one.cells().0.len());
            in_bounds &= one.take_back(&after);
        }
        let answer = if in_bounds { word(0) } else { TRESPASS };
        Reply { answer, stack: word(2) }
    }

    /// The bytes of stack that a call uses.
    pub fn stack(&self, request: Request) -> u64 {
        self.ask(request, true).stack
    }

    fn answer(&self, call: Asked, at: usize, lent: Vec<Lent>) -> u64 {
        self.ask(Request { call, at, lent }, false).answer
    }
}

impl Gateway for Bridge {
    fn name(&self) -> &'static str {
        if self.null_for_nothing {
            "library by bridge, null for nothing"
        } else {
            "library by bridge"
        }
    }

    fn read(&self, block: &[u8], at: usize) -> u64 {
        self.answer(Asked::Read, at, vec![Lent::Read(block)])
    }

    fn add(&self, block: &mut [u8], episode: &[u8]) -> u64 {
        self.answer(Asked::Add, 0, vec![Lent::Write(block), Lent::Read(episode)])
    }

    fn mine(&self, log: &[u8], out: &mut [u8], work: &mut [u8]) -> u64 {
        self.answer(Asked::Mine, 0, vec![Lent::Read(log), Lent::Write(out), Lent::Write(work)])
    }

    fn check(&self, tree: &[u8]) -> u64 {
        self.answer(Asked::Check, 0, vec![Lent::Read(tree)])
    }

    fn judge(&self, tree: &[u8], episode: &[u8], work: &mut [u64]) -> u64 {
        self.answer(Asked::Judge, 0, vec![Lent::Read(tree), Lent::Read(episode), Lent::Numbers(work)])
    }
}

impl Drop for Bridge {
    /// The bridge ends when its input does.
    fn drop(&mut self) {
        let child = self.child.get_mut();
        drop(child.stdin.take());
        let _ = child.wait();
    }
}
