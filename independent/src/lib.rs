//! An implementation of the miner that shares nothing with the proved one, written from the pages that say how it must
//! behave. Sublogs are copied and graphs are walked: it is meant to be read, and to be the other side of a comparison.

pub mod answer;
pub mod block;
pub mod bridge;
pub mod calls;
pub mod cuts;
pub mod fast;
pub mod generate;
pub mod graph;
pub mod judge;
#[cfg(feature = "library")]
pub mod library;
pub mod listing;
pub mod log;
pub mod mine;
pub mod tree;
