//! The question "edge from i to j": the pairs that are asked of a log, and the first answer on which the two checkers differ.

use crate::graph::{Graph, Pair};
use crate::proved;
use crate::share::Share;
use crate::tally::EdgeTally;
use second::check::Refusal;
use second::edges::reasons;
use second::record::TRANSACTIONS;
use std::collections::BTreeSet;

/// Numbers that no transaction has: one past the highest, the largest byte, two that are 0 where only their lowest byte or their
/// lowest half is looked at, and the largest of all.
const ABOVE: [usize; 5] = [TRANSACTIONS as usize, 255, 256, 1 << 32, usize::MAX];

/// The most transactions of a log whose pairs are asked, where not all 64 × 64 are.
const MOST_ASKED: usize = 8;

/// What is asked of a log that does not pass: its refusal comes before 10.
const OF_A_REFUSED_LOG: [Pair; 3] = [(0, 1), (TRANSACTIONS as usize, 0), (usize::MAX, usize::MAX)];

/// The numbers that are asked of a log that passes: those below 64 each beside each, and those above.
struct Asked {
    numbers: BTreeSet<usize>,
    above: Vec<usize>,
}

impl Asked {
    fn all() -> Asked {
        Asked {
            numbers: (0..usize::from(TRANSACTIONS)).collect(),
            above: ABOVE.to_vec(),
        }
    }
}

/// The first edge on which the two checkers differ, in words.
pub fn difference(
    log: &[u8],
    graph: &Result<Graph, Refusal>,
    share: &mut Share,
    tally: &mut EdgeTally,
) -> Option<String> {
    match graph {
        Ok(graph) => {
            let asked = if share.passing.has_the_next() {
                Asked::all()
            } else {
                graph.some(share.passing.met as usize)
            };
            difference_of_graph(log, graph, &asked, tally)
        }
        Err(refusal) if share.refused.has_the_next() => {
            OF_A_REFUSED_LOG.into_iter().find_map(|pair| {
                tally.refused_log += 1;
                difference_at(log, pair, Err(*refusal))
            })
        }
        Err(_) => None,
    }
}

/// The first edge on which the two checkers differ, of a log that passes.
fn difference_of_graph(
    log: &[u8],
    graph: &Graph,
    asked: &Asked,
    tally: &mut EdgeTally,
) -> Option<String> {
    graph.pairs(asked).into_iter().find_map(|pair| {
        let expected = graph.edge(pair);
        graph.count(pair, expected, tally);
        difference_at(log, pair, expected)
    })
}

/// The difference of one answer, if it is one.
fn difference_at(log: &[u8], (i, j): Pair, expected: Result<u8, Refusal>) -> Option<String> {
    let got = proved::edge_between(log, i, j);
    if got == expected {
        return None;
    }
    Some(format!(
        "edge from {i} to {j}: proved {got:?}, second {expected:?}"
    ))
}

impl Graph {
    /// The pairs that are asked: each number beside each, also beside itself; and numbers above 63 in either place, the other one's a
    /// transaction that is in the log, and in both.
    fn pairs(&self, asked: &Asked) -> Vec<Pair> {
        let mut pairs = Vec::new();
        for &i in &asked.numbers {
            pairs.extend(asked.numbers.iter().map(|&j| (i, j)));
        }
        let member = self.members.iter().next().copied().unwrap_or(0);
        for &above in &asked.above {
            pairs.extend([(member, above), (above, member), (above, above)]);
        }
        pairs
    }

    /// What is asked where not all 64 × 64 pairs are. It turns from log to log: of many transactions in the log the next few, one
    /// that is not in it, the lowest or 63, and one number above 63.
    fn some(&self, turn: usize) -> Asked {
        let few = self.members.len().min(MOST_ASKED);
        let start = turn % self.members.len().max(1);
        let round = self.members.iter().cycle().skip(start);
        let mut numbers: BTreeSet<usize> = round.take(few).copied().collect();
        if turn % 2 == 0 {
            numbers.extend((0..usize::from(TRANSACTIONS)).find(|t| !self.members.contains(t)));
        } else {
            numbers.insert(usize::from(TRANSACTIONS) - 1);
        }
        Asked {
            numbers,
            above: vec![ABOVE[turn % ABOVE.len()]],
        }
    }

    /// Counts a question by what it asks for and by its answer.
    fn count(&self, (i, j): Pair, answer: Result<u8, Refusal>, tally: &mut EdgeTally) {
        match answer {
            Err(_) => tally.above_63 += 1,
            Ok(_) if !self.members.contains(&i) || !self.members.contains(&j) => {
                tally.not_in_the_log += 1;
            }
            Ok(_) if i == j => tally.itself += 1,
            Ok(reason) => self.count_reason((i, j), reason, tally),
        }
    }

    /// Counts the answer for two transactions in the log. Where a reason is alone, a checker that lost it would find no edge; else
    /// another reason would still give one.
    fn count_reason(&self, (i, j): Pair, reason: u8, tally: &mut EdgeTally) {
        let reason = usize::from(reason);
        tally.lowest[reason] += 1;
        if reason > 0 {
            let mut only = [false; 3];
            only[reason - 1] = true;
            if reasons(&self.history, i as u8, j as u8) == only {
                tally.alone[reason] += 1;
            }
        }
    }
}
