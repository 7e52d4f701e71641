//! Inputs made by numbers that only look random: trees, episodes, logs, and damage done to them.

pub mod components;
pub mod damage;
pub mod distinct;
pub mod heartbeats;
pub mod largest;
pub mod logs;
pub mod random;
pub mod trees;
