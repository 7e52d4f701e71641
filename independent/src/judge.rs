//! Whether an episode is in the language of a tree, word by word as section 3 of the paper defines the language.

use crate::graph::Codes;
use crate::tree::{Operator, Tree};
use std::collections::{BTreeSet, HashMap};

/// Says whether an episode's events are in the tree's language. No code may label two leaves: an interleaving then has one
/// projection to each child, and no other way to be taken apart.
pub fn fits(tree: &Tree, events: &[u8]) -> bool {
    let mut nodes = Vec::new();
    number_nodes(tree, &mut nodes);
    Recogniser { nodes, known: HashMap::new() }.in_language(0, events)
}

struct Node<'t> {
    tree: &'t Tree,
    children: Vec<usize>,
    codes: Codes,
}

/// Numbers the nodes in preorder and answers the number of the tree's root.
fn number_nodes<'t>(tree: &'t Tree, nodes: &mut Vec<Node<'t>>) -> usize {
    let number = nodes.len();
    nodes.push(Node { tree, children: vec![], codes: tree.leaf_codes().into_iter().collect() });
    let children = tree.children().iter().map(|child| number_nodes(child, nodes)).collect();
    nodes[number].children = children;
    number
}

struct Recogniser<'t> {
    nodes: Vec<Node<'t>>,
    /// Verdicts already found, for a node and a word.
    known: HashMap<(usize, Vec<u8>), bool>,
}

type Places = BTreeSet<usize>;

impl Recogniser<'_> {
    fn in_language(&mut self, node: usize, word: &[u8]) -> bool {
        if word.iter().any(|code| !self.nodes[node].codes.contains(code)) {
            return false;
        }
        let question = (node, word.to_vec());
        if let Some(&verdict) = self.known.get(&question) {
            return verdict;
        }
        let verdict = self.decide(node, word);
        self.known.insert(question, verdict);
        verdict
    }

    fn decide(&mut self, node: usize, word: &[u8]) -> bool {
        let children = self.nodes[node].children.clone();
        match self.nodes[node].tree {
            Tree::Silent => word.is_empty(),
            Tree::Activity(code) => word == [*code],
            Tree::Node(Operator::Choice, _) => children.iter().any(|&child| self.in_language(child, word)),
            Tree::Node(Operator::Sequence, _) => self.sequence(&children, word),
            Tree::Node(Operator::Parallel, _) => children.iter().all(|&child| self.projected(child, word)),
            Tree::Node(Operator::Loop, _) => self.body_and_redos(children[0], &children[1..], word),
        }
    }

    fn projected(&mut self, child: usize, word: &[u8]) -> bool {
        let codes = &self.nodes[child].codes;
        let projection: Vec<u8> = word.iter().copied().filter(|code| codes.contains(code)).collect();
        self.in_language(child, &projection)
    }

    fn sequence(&mut self, children: &[usize], word: &[u8]) -> bool {
        let mut places = Places::from([0]);
        for &child in children {
            places = self.after(child, word, &places);
        }
        places.contains(&word.len())
    }

    /// Gathers the places where a body may just have ended, until no redo and body lead to a new one.
    fn body_and_redos(&mut self, body: usize, redos: &[usize], word: &[u8]) -> bool {
        let mut ended = self.after(body, word, &Places::from([0]));
        loop {
            let redone = redos.iter().flat_map(|&redo| self.after(redo, word, &ended)).collect();
            let again = self.after(body, word, &redone);
            if again.is_subset(&ended) {
                return ended.contains(&word.len());
            }
            ended.extend(again);
        }
    }

    /// The places where a word of the child's language can end that begins at one of the given places.
    fn after(&mut self, child: usize, word: &[u8], begins: &Places) -> Places {
        let mut ends = Places::new();
        for &begin in begins {
            let own = word[begin..].iter().take_while(|code| self.nodes[child].codes.contains(code)).count();
            ends.extend((begin..=begin + own).filter(|&end| self.in_language(child, &word[begin..end])));
        }
        ends
    }
}
