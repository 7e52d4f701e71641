//! Cases with heartbeats in them, by construction and for every call, and where these heartbeats stand.

pub mod adding;
pub mod checking;
pub mod judging;
pub mod mining;
pub mod reading;

use crate::forms::*;
use crate::tally::Tally;
use crate::trial::{Case, Outcome};
use independent::block::{BLOCK, CHECK_AT};
use independent::generate::heartbeats::{alone, put_in};
use independent::log::{events_of, is_event, Episode, HEARTBEAT, LARGEST_CODE, MOST_BLOCKS};
use std::collections::{BTreeMap, BTreeSet};

type Forms = BTreeSet<&'static str>;

/// Runs a case and counts where its heartbeats stand.
pub fn beating(tally: &mut Tally, case: Case) -> Outcome {
    let forms = match &case {
        Case::Read { block, at } => record(block, *at).map_or(Forms::new(), |codes| in_record(codes)),
        Case::Add { episode, .. } | Case::Judge { episode, .. } => in_record(episode),
        Case::Mine { log, .. } => in_log(log),
        Case::Check { .. } => Forms::new(),
    };
    forms.into_iter().for_each(|form| tally.meets(case.call(), form));
    tally.case(case)
}

/// The codes of the record at a place, whatever they are.
fn record(block: &[u8], at: usize) -> Option<&[u8]> {
    block.get(at + 1..at + 1 + *block.get(at)? as usize)
}

/// The codes of a block's records, whatever they are, up to where no record can be.
fn records(block: &[u8]) -> Vec<&[u8]> {
    let mut records = Vec::new();
    let mut at = 1;
    while records.len() < block[0] as usize && at < CHECK_AT {
        let Some(codes) = record(block, at) else { break };
        records.push(codes);
        at += 1 + codes.len();
    }
    records
}

fn met(forms: &[(&'static str, bool)]) -> Forms {
    forms.iter().filter(|(_, met)| *met).map(|(form, _)| *form).collect()
}

fn in_record(codes: &[u8]) -> Forms {
    let beats = |some: &[u8]| some.contains(&HEARTBEAT);
    let only = !codes.is_empty() && codes.iter().all(|&code| code == HEARTBEAT);
    let large = codes.iter().position(|&code| code > LARGEST_CODE).unwrap_or(0);
    let mut forms = met(&[
        (ALONE, only),
        (AMONG_63, !only && codes.len() == 63 && beats(codes)),
        (ALONE_63, only && codes.len() == 63),
        (AMONG_64, !only && codes.len() == 64 && beats(codes)),
        (ALONE_64, only && codes.len() == 64),
        (BEFORE_LARGE, beats(&codes[..large])),
    ]);
    let first = codes.iter().position(|&code| is_event(code));
    let last = codes.iter().rposition(|&code| is_event(code));
    if let (Some(first), Some(last)) = (first, last) {
        let (before, between, behind) = (&codes[..first], &codes[first..last], &codes[last..]);
        forms.extend(met(&[(BEFORE, beats(before)), (BETWEEN, beats(between)), (BEHIND, beats(behind))]));
    }
    forms
}

fn in_log(log: &[u8]) -> Forms {
    let blocks: Vec<Vec<&[u8]>> = log.chunks_exact(BLOCK).map(records).collect();
    let all = || blocks.iter().flatten();
    let mut same: BTreeMap<Episode, BTreeSet<&[u8]>> = BTreeMap::new();
    for &codes in all() {
        same.entry(events_of(codes)).or_default().insert(codes);
    }
    let only = |codes: &&[u8]| !codes.is_empty() && codes.iter().all(|&code| code == HEARTBEAT);
    let some_alone = all().any(only);
    let events = same.keys().any(|events| !events.is_empty());
    let mut forms = met(&[
        (SAME_EVENTS, same.iter().any(|(events, stored)| !events.is_empty() && stored.len() > 1)),
        (ALONE_BESIDE_EVENTS, some_alone && events),
        (ALL_ALONE, some_alone && !events),
        (BLOCK_OF_255, blocks.iter().any(|records| records.len() == 255 && records.iter().any(only))),
        (
            SIXTEEN_BLOCKS,
            blocks.len() == MOST_BLOCKS && blocks.iter().all(|records| records.concat().contains(&HEARTBEAT)),
        ),
    ]);
    all().for_each(|codes| forms.extend(in_record(codes)));
    forms
}

/// So many events, as many codes among them as can be.
fn some_events(count: usize) -> Episode {
    (0..count).map(|number| (number % 31) as u8).collect()
}

/// So many codes: a heartbeat at the place alone, at all places up to it, and at all places but it.
fn at_place(length: usize, place: usize) -> [Episode; 3] {
    let one = put_in(&some_events(length - 1), place, 1);
    let up_to = put_in(&some_events(length - place - 1), 0, place + 1);
    let mut all_but = alone(length);
    all_but[place] = (place % 31) as u8;
    [one, up_to, all_but]
}

/// So many codes, the one at the place the first that is too large, all before it heartbeats or some of them.
fn large_at(length: usize, place: usize) -> [Episode; 2] {
    let mut events = some_events(place);
    events.iter_mut().step_by(2).for_each(|code| *code = HEARTBEAT);
    let rest = [&[32], &alone(length - place - 1)[..]].concat();
    [[&alone(place), &rest[..]].concat(), [events, rest].concat()]
}

/// Every place of so many codes.
fn every_place(most: usize) -> impl Iterator<Item = (usize, usize)> {
    (1..=most).flat_map(|length| (0..length).map(move |place| (length, place)))
}
