//! Runs cases on all sides and counts what agreed and which rows of the table were met.

use crate::forms::{Built, FORMS};
use crate::trial::{run, Case, Outcome, GUARD};
use independent::answer::unpacked;
use independent::bridge::Bridge;
use independent::calls::{Gateway, Plain};
use independent::fast::Fast;
use std::collections::BTreeMap;
use std::process::ExitCode;

struct Side {
    gateway: Box<dyn Gateway>,
    only_nothing: bool,
    passed: usize,
    failed: usize,
    /// How many failures of each call came up; the first few are described.
    shown: BTreeMap<&'static str, usize>,
}

pub struct Tally {
    pub cases: usize,
    sides: Vec<Side>,
    /// How often each call gave each number, 0 where it accepted.
    met: BTreeMap<(&'static str, u8), usize>,
    /// How often an episode did not fit and did.
    verdicts: [usize; 2],
    /// How often each law of the outcomes held and did not.
    laws: BTreeMap<&'static str, [usize; 2]>,
    /// How often each form came up that a call's cases were built for.
    forms: BTreeMap<(&'static str, &'static str), usize>,
}

/// The numbers that each call gives, 0 for accepting; every one must be met.
const NUMBERS: [(&str, &[u8]); 5] = [
    ("reading", &[0, 1, 5, 6]),
    ("adding", &[0, 1, 4, 5, 6, 10, 11, 12]),
    ("mining", &[0, 1, 2, 3, 4, 5, 6, 7]),
    ("checking", &[0, 8, 9]),
    ("judging", &[0, 3, 8, 9, 10, 11]),
];

fn side(gateway: Box<dyn Gateway>, only_nothing: bool) -> Side {
    Side { gateway, only_nothing, passed: 0, failed: 0, shown: BTreeMap::new() }
}

#[cfg(not(feature = "library"))]
fn library_sides() -> Vec<Side> {
    vec![]
}

#[cfg(feature = "library")]
fn library_sides() -> Vec<Side> {
    use independent::library::Library;
    let with = |null_for_nothing| side(Box::new(Library { null_for_nothing }), null_for_nothing);
    vec![with(false), with(true)]
}

fn bridge_sides() -> Vec<Side> {
    let Some(command) = Bridge::command() else { return vec![] };
    let with = |null_for_nothing| side(Box::new(Bridge::started(&command, null_for_nothing)), null_for_nothing);
    vec![with(false), with(true)]
}

impl Tally {
    pub fn new() -> Tally {
        let mut sides = vec![side(Box::new(Fast), false)];
        sides.extend(library_sides());
        sides.extend(bridge_sides());
        let (met, laws, forms) = (BTreeMap::new(), BTreeMap::new(), BTreeMap::new());
        Tally { cases: 0, sides, met, verdicts: [0; 2], laws, forms }
    }

    /// Compares every side with the plain one and answers the plain one's outcome.
    pub fn case(&mut self, case: Case) -> Outcome {
        let expected = run(&Plain, &case);
        let number = unpacked(expected.answer).map_or_else(|refusal| refusal.number, |_| 0);
        *self.met.entry((case.call(), number)).or_default() += 1;
        if let Case::Judge { .. } = case {
            if number == 0 {
                self.verdicts[expected.answer as usize] += 1;
            }
        }
        self.cases += 1;
        for side in &mut self.sides {
            if side.only_nothing && !case.lends_nothing() {
                continue;
            }
            let got = run(side.gateway.as_ref(), &case);
            if got == expected {
                side.passed += 1;
            } else {
                side.failed += 1;
                let shown = side.shown.entry(case.call()).or_default();
                *shown += 1;
                if *shown <= 3 {
                    describe(side.gateway.name(), &case, &expected, &got);
                }
            }
        }
        expected
    }

    /// A law of the plain side's outcomes, which every other side shares or fails.
    pub fn holds(&mut self, law: &'static str, held: bool) {
        self.laws.entry(law).or_default()[!held as usize] += 1;
    }

    pub fn meets(&mut self, call: &'static str, form: &'static str) {
        *self.forms.entry((call, form)).or_default() += 1;
    }

    /// Prints the counts of the calls that were asked for, each of whose numbers must have been met.
    pub fn report(&self, wanted: &str) -> ExitCode {
        let mut unmet = 0;
        for (call, numbers) in NUMBERS.into_iter().filter(|(call, _)| call.starts_with(wanted)) {
            let counts: Vec<usize> = numbers.iter().map(|&n| self.met.get(&(call, n)).copied().unwrap_or(0)).collect();
            unmet += counts.iter().filter(|&&count| count == 0).count();
            let cells = numbers.iter().zip(&counts).map(|(number, count)| format!("{number}: {count}"));
            println!("{call}, numbers met: {}", cells.collect::<Vec<_>>().join(", "));
        }
        if "judging".starts_with(wanted) {
            println!("verdicts: {} fit, {} misfit", self.verdicts[1], self.verdicts[0]);
            unmet += self.verdicts.iter().filter(|&&count| count == 0).count();
        }
        for built in FORMS.iter().filter(|built| built.call.starts_with(wanted)) {
            unmet += self.report_forms(built);
        }
        let mut broken = 0;
        for (law, [held, not]) in &self.laws {
            println!("{law}: held {held} times, not {not}");
            broken += not;
        }
        for side in &self.sides {
            println!("{}: {} passed, {} failed", side.gateway.name(), side.passed, side.failed);
        }
        let passed: usize = self.sides.iter().map(|side| side.passed).sum();
        let failed: usize = self.sides.iter().map(|side| side.failed).sum::<usize>() + unmet + broken;
        println!("{passed} passed, {failed} failed");
        ExitCode::from((failed > 0) as u8)
    }

    /// Prints how often each form came up and answers how many did not.
    fn report_forms(&self, built: &Built) -> usize {
        let count = |form: &&'static str| self.forms.get(&(built.call, *form)).copied().unwrap_or(0);
        for form in built.forms {
            println!("{}, {}, {form}: {} cases", built.call, built.with, count(form));
        }
        built.forms.iter().filter(|form| count(form) == 0).count()
    }
}

fn describe(side: &str, case: &Case, expected: &Outcome, got: &Outcome) {
    println!("{side}, {} differs: {:?} instead of {:?}", case.call(), unpacked(got.answer), unpacked(expected.answer));
    for (cell, (was, is)) in expected.bytes.iter().zip(&got.bytes).enumerate() {
        if let Some(place) = (0..was.len()).find(|&place| was[place] != is[place]) {
            println!("  lent bytes number {cell} differ first at {}", place as isize - GUARD as isize);
        }
    }
    if let Some(place) = (0..expected.numbers.len()).find(|&p| expected.numbers[p] != got.numbers[p]) {
        println!("  lent numbers differ first at {}", place as isize - GUARD as isize);
    }
    println!("  {case}");
}
