//! The two programs as the plain variant has them.
//!
//!     reference mine < LOG
//!     reference judge < TREE-BLOCK-AND-LOG

use independent::listing::{judging_output, mining_output};
use std::io::{self, Read};
use std::process;

fn main() {
    let output = match std::env::args().nth(1).as_deref() {
        Some("mine") => mining_output,
        Some("judge") => judging_output,
        _ => {
            eprintln!("usage: reference mine|judge");
            process::exit(2);
        }
    };
    let mut input = Vec::new();
    if io::stdin().read_to_end(&mut input).is_err() {
        process::exit(1);
    }
    print!("{}", output(&input));
}
