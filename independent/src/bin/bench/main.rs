//! Measures the calls on the largest inputs, one side at a time or side by side.
//!
//!     bench                   a table of times with their ratio
//!     bench list              the names of the cases and of the sides
//!     bench run CASE SIDE     one call, inside the function `measured_call` for an instruction counter; the side may be
//!                             `nothing`: all but the call
//!     bench stack CASE SIDE   the bytes of stack that one call uses; the side may be `bridge` too
//!     bench request CASE      what asks the bridge for the call; with `nothing` after it, for all but the call

mod nothing;
mod side_by_side;
mod stack;

use independent::block::BLOCK;
use independent::bridge::{self, Asked, Bridge, Request};
use independent::calls::{Gateway, Plain, JUDGING_WORK, MINING_WORK};
use independent::fast::Fast;
use independent::generate::largest::{task, Task, SHAPES};
use std::io::Write;
use std::process::ExitCode;

fn sides() -> Vec<Box<dyn Gateway>> {
    vec![
        Box::new(Plain),
        Box::new(Fast),
        #[cfg(feature = "library")]
        Box::new(independent::library::Library { null_for_nothing: false }),
    ]
}

/// A call with everything that it is lent.
pub struct Call {
    side: Box<dyn Gateway>,
    task: Lent,
}

enum Lent {
    Mine { log: Vec<u8>, out: Vec<u8>, work: Vec<u8> },
    Judge { tree: Vec<u8>, episode: Vec<u8>, work: Vec<u64> },
}

impl Lent {
    fn named(case: &str) -> Option<Lent> {
        Some(match task(case)? {
            Task::Mine { log } => Lent::Mine { log, out: vec![0; BLOCK], work: vec![0; MINING_WORK] },
            Task::Judge { block, episode } => {
                Lent::Judge { tree: block.to_vec(), episode, work: vec![0; JUDGING_WORK] }
            }
        })
    }

    fn request(&mut self) -> Request<'_> {
        use bridge::Lent::{Numbers, Read, Write};
        let (call, lent) = match self {
            Lent::Mine { log, out, work } => (Asked::Mine, vec![Read(log), Write(out), Write(work)]),
            Lent::Judge { tree, episode, work } => (Asked::Judge, vec![Read(tree), Read(episode), Numbers(work)]),
        };
        Request { call, at: 0, lent }
    }
}

impl Call {
    fn named(case: &str, side: &str) -> Option<Call> {
        // First what is lent: making it takes as many instructions whatever the side is.
        let task = Lent::named(case)?;
        let nothing: Box<dyn Gateway> = Box::new(nothing::Nothing);
        let side = sides().into_iter().chain([nothing]).find(|one| one.name() == side)?;
        Some(Call { side, task })
    }
}

/// Its name is what an instruction counter is told to look for.
#[no_mangle]
#[inline(never)]
pub extern "C" fn measured_call(call: &mut Call) -> u64 {
    match &mut call.task {
        Lent::Mine { log, out, work } => call.side.mine(log, out, work),
        Lent::Judge { tree, episode, work } => call.side.judge(tree, episode, work),
    }
}

fn list() {
    let names: Vec<&str> = SHAPES.iter().map(|(name, _)| *name).collect();
    println!("{}", names.join("\n"));
    println!("sides: {}", sides().iter().map(|side| side.name()).collect::<Vec<_>>().join(" "));
}

/// What the call answers, or its bytes of stack.
fn measured(action: &str, case: &str, side: &str) -> Option<u64> {
    if side == "bridge" {
        let bridge = Bridge::started(&Bridge::command()?, false);
        return (action == "stack").then_some(bridge.stack(Lent::named(case)?.request()));
    }
    let mut call = Call::named(case, side)?;
    Some(if action == "run" { measured_call(&mut call) } else { stack::bytes_of(&mut call) as u64 })
}

/// Writes the request for a case, whole or without the call.
fn write_request(case: &str, call: bool) -> Option<()> {
    let mut task = Lent::named(case)?;
    let mut request = task.request();
    if !call {
        request.call = Asked::Nothing;
    }
    std::io::stdout().write_all(&request.message(false, false)).ok()
}

fn done(words: &[&str]) -> Option<()> {
    match *words {
        [] => side_by_side::table(),
        ["list"] => list(),
        [action @ ("run" | "stack"), case, side] => println!("{}", measured(action, case, side)?),
        ["request", case] => write_request(case, true)?,
        ["request", case, "nothing"] => write_request(case, false)?,
        _ => return None,
    }
    Some(())
}

fn main() -> ExitCode {
    let words: Vec<String> = std::env::args().skip(1).collect();
    let words: Vec<&str> = words.iter().map(String::as_str).collect();
    if done(&words).is_some() {
        return ExitCode::SUCCESS;
    }
    eprintln!(
        "usage: bench [list | run CASE SIDE | stack CASE SIDE | request CASE [nothing]]; `bench list` has the names"
    );
    ExitCode::from(2)
}
