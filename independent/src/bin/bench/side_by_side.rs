//! Times of all cases, the sides beside each other.

use crate::{measured_call, sides, Call};
use independent::generate::largest::SHAPES;
use std::time::{Duration, Instant};

/// The shortest of several runs: the others were held up by something else.
fn shortest(call: &mut Call) -> Duration {
    let run = |call: &mut Call| {
        let start = Instant::now();
        std::hint::black_box(measured_call(call));
        start.elapsed()
    };
    (0..15).map(|_| run(call)).min().expect("it ran")
}

/// The last side is what is asked about, the one before it what it is measured against.
pub fn table() {
    let names: Vec<&str> = sides().iter().map(|side| side.name()).collect();
    let compared = &names[names.len() - 2..];
    println!("| Case | Answer | {} µs | {} µs | Ratio |", compared[0], compared[1]);
    println!("|---|--:|--:|--:|--:|");
    for (case, _) in SHAPES {
        let mut calls: Vec<Call> = compared.iter().filter_map(|side| Call::named(case, side)).collect();
        let times: Vec<f64> = calls.iter_mut().map(|call| shortest(call).as_secs_f64() * 1e6).collect();
        let answer = measured_call(&mut calls[0]);
        println!("| {case} | {answer} | {:.0} | {:.0} | {:.2} |", times[0], times[1], times[1] / times[0]);
    }
}
