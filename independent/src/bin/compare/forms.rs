//! What must come up among the cases that were built for it, each call's own.

pub struct Built {
    pub call: &'static str,
    /// What the cases were built with.
    pub with: &'static str,
    pub forms: &'static [&'static str],
}

const fn built(call: &'static str, with: &'static str, forms: &'static [&'static str]) -> Built {
    Built { call, with, forms }
}

/// Every one must be met.
pub const FORMS: [Built; 12] = [
    built("reading", "heartbeats", &HEARTBEATS),
    built("adding", "heartbeats", &HEARTBEATS),
    built("adding", "heartbeats", &TOO_MANY),
    built("adding", "heartbeats", &ROOM),
    built("mining", "components", &COMPONENTS),
    built("mining", "heartbeats", &HEARTBEATS),
    built("mining", "heartbeats", &RECORDS),
    built("mining", "heartbeats", &[IN_ONE_SLOT]),
    built("checking", "heartbeats", &LEAVES),
    built("judging", "heartbeats", &HEARTBEATS),
    built("judging", "heartbeats", &TOO_MANY),
    built("judging", "heartbeats", &[LEAF_31]),
];

/// Of the parallel cuts that logs were built for.
const COMPONENTS: [&str; 11] = [
    "no parallel cut: one part alone",
    "every component a part",
    "a part of several components",
    "two components paired",
    "a component without a partner",
    "a component with neither",
    "the smallest code in one without a partner",
    "the smallest code in one with neither",
    "joined below a sequence",
    "joined below a choice",
    "joined below a loop",
];

/// Where heartbeats stand in a record or a lent episode.
pub const BEFORE: &str = "before the first event";
pub const BETWEEN: &str = "between two events";
pub const BEHIND: &str = "behind the last event";
pub const ALONE: &str = "alone";
pub const AMONG_63: &str = "among 63 codes";
pub const ALONE_63: &str = "63 of them alone";
pub const BEFORE_LARGE: &str = "before a code above 31";
const HEARTBEATS: [&str; 7] = [BEFORE, BETWEEN, BEHIND, ALONE, AMONG_63, ALONE_63, BEFORE_LARGE];

/// In a lent episode.
pub const AMONG_64: &str = "among 64 codes";
pub const ALONE_64: &str = "64 of them alone";
const TOO_MANY: [&str; 2] = [AMONG_64, ALONE_64];

pub const ALL_ROOM: &str = "just room for all codes";
pub const EVENTS_ROOM: &str = "room for the events, not for all codes";
const ROOM: [&str; 2] = [ALL_ROOM, EVENTS_ROOM];

/// Among the records of a log.
pub const SAME_EVENTS: &str = "the same events twice with other heartbeats";
pub const ALONE_BESIDE_EVENTS: &str = "alone beside records with events";
pub const ALL_ALONE: &str = "no event in the whole log";
pub const BLOCK_OF_255: &str = "255 records in a block, heartbeats alone among them";
pub const SIXTEEN_BLOCKS: &str = "in each of 16 blocks";
const RECORDS: [&str; 5] = [SAME_EVENTS, ALONE_BESIDE_EVENTS, ALL_ALONE, BLOCK_OF_255, SIXTEEN_BLOCKS];

pub const IN_ONE_SLOT: &str = "in nearly equal episodes that meet in a slot";

pub const LEAF_31: &str = "a leaf 31";
pub const LEAF_30: &str = "a leaf 30";
const LEAVES: [&str; 2] = [LEAF_31, LEAF_30];
