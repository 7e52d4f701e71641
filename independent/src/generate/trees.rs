//! Trees, and episodes of their language.

use super::random::Random;
use crate::log::{is_event, Episode, LARGEST_CODE, LONGEST_EPISODE};
use crate::tree::{Operator, Tree, ENTRIES};

pub const OPERATORS: [Operator; 4] = [Operator::Choice, Operator::Sequence, Operator::Parallel, Operator::Loop];

/// So many different codes of events, in no order.
pub fn some_codes(random: &mut Random, count: usize) -> Vec<u8> {
    let mut codes: Vec<u8> = (0..=LARGEST_CODE).filter(|&code| is_event(code)).collect();
    random.shuffle(&mut codes);
    codes.truncate(count);
    codes
}

/// A well-formed tree with these codes, here and there with silent leaves among them.
pub fn some_tree(random: &mut Random, codes: &[u8]) -> Tree {
    loop {
        let tree = grown(random, codes, 0);
        if tree.size() <= ENTRIES {
            return tree;
        }
    }
}

/// A tree whose root is the operator and whose children share the codes, each with at least one.
pub fn some_tree_under(random: &mut Random, operator: Operator, codes: &[u8]) -> Tree {
    let cut = random.between(1, codes.len() - 1);
    let children = [&codes[..cut], &codes[cut..]];
    Tree::Node(operator, children.iter().map(|hand| some_tree(random, hand)).collect())
}

fn grown(random: &mut Random, codes: &[u8], depth: usize) -> Tree {
    if codes.len() <= 1 && (depth > 6 || !random.once_in(5)) {
        return codes.first().map_or(Tree::Silent, |&code| Tree::Activity(code));
    }
    let children = random.between(2, 4);
    let mut hands = vec![Vec::new(); children];
    for &code in codes {
        let hand = random.below(children);
        hands[hand].push(code);
    }
    // A child without codes is silent; most are left out, as long as two children stay.
    let mut silents_to_drop = hands.len() - 2;
    hands.retain(|hand| {
        let drop = hand.is_empty() && silents_to_drop > 0 && !random.once_in(6);
        silents_to_drop -= drop as usize;
        !drop
    });
    let operator = *random.pick(&OPERATORS);
    Tree::Node(operator, hands.iter().map(|hand| grown(random, hand, depth + 1)).collect())
}

/// An episode of the tree's language; a loop goes on once in `odds` times. It may be too long for a record.
pub fn some_episode(random: &mut Random, tree: &Tree, odds: usize) -> Episode {
    match tree {
        Tree::Silent => vec![],
        Tree::Activity(code) => vec![*code],
        Tree::Node(operator, children) => match operator {
            Operator::Choice => {
                let child = some_child(random, children);
                some_episode(random, child, odds)
            }
            Operator::Sequence => children.iter().flat_map(|child| some_episode(random, child, odds)).collect(),
            Operator::Parallel => {
                let pieces = children.iter().map(|child| some_episode(random, child, odds)).collect();
                interleaved(random, pieces)
            }
            Operator::Loop => {
                let mut episode = some_episode(random, &children[0], odds);
                while random.once_in(odds) && episode.len() <= LONGEST_EPISODE {
                    let redo = random.pick(&children[1..]);
                    episode.extend(some_episode(random, redo, odds));
                    episode.extend(some_episode(random, &children[0], odds));
                }
                episode
            }
        },
    }
}

/// A child, the more often the larger it is, so that what lies deep in a choice comes too.
fn some_child<'t>(random: &mut Random, children: &'t [Tree]) -> &'t Tree {
    let turns: Vec<&Tree> = children.iter().flat_map(|child| vec![child; child.size()]).collect();
    turns[random.below(turns.len())]
}

fn interleaved(random: &mut Random, pieces: Vec<Episode>) -> Episode {
    let mut turns: Vec<usize> =
        pieces.iter().enumerate().flat_map(|(number, piece)| vec![number; piece.len()]).collect();
    random.shuffle(&mut turns);
    let mut pieces: Vec<_> = pieces.into_iter().map(Vec::into_iter).collect();
    turns.into_iter().filter_map(|number| pieces[number].next()).collect()
}

/// An episode that a record can hold, of the tree's language if a few tries find one, else cut off.
pub fn short_episode(random: &mut Random, tree: &Tree, odds: usize) -> Episode {
    let mut episode = some_episode(random, tree, odds);
    for _ in 0..20 {
        if episode.len() <= LONGEST_EPISODE {
            break;
        }
        episode = some_episode(random, tree, odds);
    }
    episode.truncate(LONGEST_EPISODE);
    episode
}
