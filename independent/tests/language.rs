//! The recogniser against the language itself, written out word by word for small trees.

use independent::generate::random::Random;
use independent::generate::trees::some_tree;
use independent::judge::fits;
use independent::tree::{Operator, Tree};
use std::collections::BTreeSet;

type Words = BTreeSet<Vec<u8>>;

const LONGEST: usize = 5;

fn joined(first: &Words, second: &Words) -> Words {
    let pairs = first.iter().flat_map(|a| second.iter().map(move |b| [&a[..], b].concat()));
    pairs.filter(|word| word.len() <= LONGEST).collect()
}

/// All interleavings of two words.
fn interleavings(a: &[u8], b: &[u8]) -> Vec<Vec<u8>> {
    let ([x, rest_a @ ..], [y, rest_b @ ..]) = (a, b) else { return vec![[a, b].concat()] };
    let with = |first: u8, rest: Vec<Vec<u8>>| rest.into_iter().map(move |word| [vec![first], word].concat());
    with(*x, interleavings(rest_a, b)).chain(with(*y, interleavings(a, rest_b))).collect()
}

fn interleaved(first: &Words, second: &Words) -> Words {
    let pairs = first.iter().flat_map(|a| second.iter().flat_map(move |b| interleavings(a, b)));
    pairs.filter(|word| word.len() <= LONGEST).collect()
}

/// The words of the tree's language with at most five events.
fn language(tree: &Tree) -> Words {
    let words: Vec<Words> = tree.children().iter().map(language).collect();
    match tree {
        Tree::Silent => Words::from([vec![]]),
        Tree::Activity(code) => Words::from([vec![*code]]),
        Tree::Node(Operator::Choice, _) => words.concat_sets(),
        Tree::Node(Operator::Sequence, _) => words.iter().skip(1).fold(words[0].clone(), |a, b| joined(&a, b)),
        Tree::Node(Operator::Parallel, _) => words.iter().skip(1).fold(words[0].clone(), |a, b| interleaved(&a, b)),
        Tree::Node(Operator::Loop, _) => {
            let redos = words[1..].to_vec().concat_sets();
            let mut all = words[0].clone();
            loop {
                let longer = joined(&joined(&all, &redos), &words[0]);
                if longer.is_subset(&all) {
                    return all;
                }
                all.extend(longer);
            }
        }
    }
}

trait ConcatSets {
    fn concat_sets(self) -> Words;
}

impl ConcatSets for Vec<Words> {
    fn concat_sets(self) -> Words {
        self.into_iter().flatten().collect()
    }
}

fn every_word() -> Words {
    let letters: Words = (0..3).map(|code| vec![code]).collect();
    let mut words = Words::from([vec![]]);
    for _ in 0..LONGEST {
        words.extend(joined(&words, &letters));
    }
    words
}

#[test]
fn the_recogniser_accepts_the_language_and_nothing_else() {
    let mut random = Random::seeded(71);
    let words = every_word();
    assert_eq!(words.len(), 364);
    for _ in 0..300 {
        let mut codes = [0, 1, 2];
        random.shuffle(&mut codes);
        let count = random.between(1, 3);
        let tree = some_tree(&mut random, &codes[..count]);
        let accepted: Words = words.iter().filter(|word| fits(&tree, word)).cloned().collect();
        assert_eq!(accepted, language(&tree), "{tree:?}");
    }
}
