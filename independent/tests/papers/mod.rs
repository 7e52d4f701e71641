//! The cuts as the papers define them, and all divisions of codes that could be one.

use independent::graph::{Codes, Graph};
use independent::tree::Operator;

/// 000, Definitions 5 to 7, and 003, Definition 4.
pub fn is_cut(graph: &Graph, operator: Operator, parts: &[Codes]) -> bool {
    let across = |holds: &dyn Fn(usize, u8, usize, u8) -> bool| {
        (0..parts.len()).all(|i| {
            (0..parts.len())
                .filter(|&j| j != i)
                .all(|j| parts[i].iter().all(|&a| parts[j].iter().all(|&b| holds(i, a, j, b))))
        })
    };
    let reaches = |a: u8, b: u8| graph.reached_from(a).contains(&b);
    match operator {
        Operator::Choice => across(&|_, a, _, b| !graph.has(a, b)),
        Operator::Sequence => across(&|i, a, j, b| reaches(a, b) == (i < j)),
        Operator::Parallel => {
            let can = |part: &Codes| !part.is_disjoint(&graph.starts) && !part.is_disjoint(&graph.ends);
            parts.iter().all(can) && across(&|_, a, _, b| graph.has(a, b))
        }
        Operator::Loop => {
            let outer_in_body = graph.starts.union(&graph.ends).all(|code| parts[0].contains(code));
            let edges = across(&|i, a, j, b| {
                !graph.has(a, b) || (i == 0 && graph.ends.contains(&a)) || (j == 0 && graph.starts.contains(&b))
            });
            let redo_codes = || parts[1..].iter().flatten().copied();
            let back = redo_codes().all(|a| {
                let any = parts[0].iter().any(|&b| graph.has(a, b));
                graph.starts.iter().all(|&start| graph.has(a, start) == any)
            });
            let forth = redo_codes().all(|a| {
                let any = parts[0].iter().any(|&b| graph.has(b, a));
                graph.ends.iter().all(|&end| graph.has(end, a) == any)
            });
            outer_in_body && edges && back && forth
        }
    }
}

/// All ways to divide codes into parts. Codes in ascending order give parts by their smallest code.
pub fn divisions(codes: &[u8]) -> Vec<Vec<Codes>> {
    let Some((&last, rest)) = codes.split_last() else { return vec![vec![]] };
    let mut all = Vec::new();
    for division in divisions(rest) {
        for number in 0..division.len() {
            let mut joined = division.clone();
            joined[number].insert(last);
            all.push(joined);
        }
        all.push([division, vec![Codes::from([last])]].concat());
    }
    all
}
