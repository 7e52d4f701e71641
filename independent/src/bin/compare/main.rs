//! Compares the plain implementation with the fast one and, with the feature `library`, with the proved library, on
//! inputs that are the same on every run. The last line counts the cases; the exit status is 1 if one failed.
//!
//!     compare [CALL]      CALL is reading, adding, mining, checking or judging; all of them if it is left out

mod adding;
mod forms;
mod gathering;
mod heartbeats;
mod judging;
mod mining;
mod parallel;
mod reading;
mod slots;
mod tally;
mod trees;
mod trial;

use std::process::ExitCode;
use tally::Tally;

fn main() -> ExitCode {
    let wanted = std::env::args().nth(1).unwrap_or_default();
    let mut tally = Tally::new();
    for (name, suite) in SUITES.into_iter().filter(|(name, _)| name.starts_with(&wanted)) {
        let before = tally.cases;
        suite(&mut tally);
        println!("{name}: {} cases", tally.cases - before);
    }
    tally.report(&wanted)
}

type Suite = fn(&mut Tally);

const SUITES: [(&str, Suite); 45] = [
    ("reading, every place of a block", reading::every_place),
    ("reading, lengths and far places", reading::lengths),
    ("reading, records with heartbeats", heartbeats::reading::every_record),
    ("adding, every length of episode", adding::every_length),
    ("adding, blocks filled up", adding::filled_up),
    ("adding, two faults at once", adding::two_faults),
    ("adding, episodes with heartbeats", heartbeats::adding::every_episode),
    ("mining, every log of up to three short episodes", mining::small_logs),
    ("mining, logs of trees and of any codes", mining::some_logs),
    ("mining, logs of trees with a few events changed", mining::near_trees),
    ("mining, every kind of up to five parallel components", parallel::every_kind),
    ("mining, many parallel components", parallel::many_components),
    ("mining, full logs", mining::full_logs),
    ("mining, the measured logs", mining::measured_logs),
    ("mining, logs joined in either order and to themselves", mining::joined_logs),
    ("mining, a record that is the only one of its kind", gathering::only_one_of_its_kind),
    ("mining, blocks of 255 records", gathering::most_records),
    ("mining, episodes that differ in one code", gathering::one_code_apart),
    ("mining, an episode and its beginnings", gathering::prefixes),
    ("mining, the same events in another order", gathering::permutations),
    ("mining, episodes that come again", gathering::repeated),
    ("mining, whatever the work holds", gathering::whatever_the_work_holds),
    ("mining, many episodes for a few slots", slots::crowded),
    ("mining, more episodes than slots", slots::more_than_slots),
    ("mining, nearly equal episodes that meet in a slot", slots::nearly_equal),
    ("mining, two faults at once", mining::two_faults),
    ("mining, heartbeats in every gap", heartbeats::mining::every_gap),
    ("mining, logs of trees and of any codes with heartbeats", heartbeats::mining::some_logs),
    ("mining, records of heartbeats alone", heartbeats::mining::records_of_heartbeats),
    ("mining, blocks of 255 records of heartbeats", heartbeats::mining::most_records),
    ("mining, full logs with heartbeats", heartbeats::mining::full_logs),
    ("mining, nearly equal episodes with heartbeats", heartbeats::mining::nearly_equal),
    ("mining, a code above 31 behind heartbeats", heartbeats::mining::large_codes),
    ("checking, sound and damaged trees", trees::sound_and_damaged),
    ("checking, every byte changed", trees::every_byte),
    ("checking, a leaf 31 and a leaf 30", heartbeats::checking::every_leaf),
    ("judging, small trees and every short episode", judging::small_trees),
    ("judging, large trees and every length of episode", judging::large_trees),
    ("judging, the measured episodes", judging::measured_episodes),
    ("judging, two faults at once", judging::two_faults),
    ("judging, heartbeats in every gap", heartbeats::judging::every_gap),
    ("judging, large trees and heartbeats", heartbeats::judging::large_trees),
    ("judging, every length with heartbeats", heartbeats::judging::every_length),
    ("judging, 63 codes and 64 with heartbeats", heartbeats::judging::full_length),
    ("judging, a leaf 31", heartbeats::judging::heartbeat_leaves),
];
