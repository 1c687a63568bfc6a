//! The line or the cycle of any edges among any set of transactions.

use std::collections::BTreeSet;

/// What the rule of the verdict yields: a line of all members, or a cycle of
/// some of them written along its edges.
#[derive(Clone, Debug, PartialEq, Eq)]
pub enum Sorted {
    Line(Vec<u8>),
    Cycle(Vec<u8>),
}

/// "Serial line. All n transactions in the log, each once. At each place
/// stands the lowest-numbered transaction whose predecessors all stand
/// already."; "Cycle. Place transactions by the same rule until none can be
/// placed."
///
/// An edge from a transaction to itself, or to or from one outside the set, is
/// never asked for.
pub fn sort(members: &BTreeSet<u8>, edge: impl Fn(u8, u8) -> bool) -> Sorted {
    let mut line = Vec::new();
    let mut left = members.clone();
    while let Some(next) = lowest_ready(&left, &edge) {
        line.push(next);
        left.remove(&next);
    }
    match left.iter().next() {
        None => Sorted::Line(line),
        Some(&lowest) => Sorted::Cycle(along_the_edges(walk_back(lowest, &left, &edge))),
    }
}

/// "the lowest-numbered transaction whose predecessors all stand already"
///
/// Those that do not stand yet are exactly those left.
fn lowest_ready(left: &BTreeSet<u8>, edge: impl Fn(u8, u8) -> bool) -> Option<u8> {
    left.iter()
        .copied()
        .find(|&candidate| lowest_predecessor(candidate, left, &edge).is_none())
}

/// "its lowest-numbered predecessor among those left"
fn lowest_predecessor(
    transaction: u8,
    left: &BTreeSet<u8>,
    edge: impl Fn(u8, u8) -> bool,
) -> Option<u8> {
    left.iter()
        .copied()
        .find(|&other| other != transaction && edge(other, transaction))
}

/// "From the lowest-numbered one left, go to its lowest-numbered predecessor
/// among those left, and so on until a transaction comes again. The
/// transactions from its first coming on form the cycle."
fn walk_back(lowest: u8, left: &BTreeSet<u8>, edge: impl Fn(u8, u8) -> bool) -> Vec<u8> {
    let mut walk = vec![lowest];
    let mut here = lowest;
    loop {
        here = lowest_predecessor(here, left, &edge)
            .expect("no transaction left is ready, so each has a predecessor left");
        if let Some(first_coming) = walk.iter().position(|&passed| passed == here) {
            return walk.split_off(first_coming);
        }
        walk.push(here);
    }
}

/// "It is written along the edges and starts with its lowest number."
///
/// The walk went from each transaction to a predecessor, against the edges.
fn along_the_edges(walk: Vec<u8>) -> Vec<u8> {
    let mut cycle = walk;
    cycle.reverse();
    let mut start = 0;
    for place in 0..cycle.len() {
        if cycle[place] < cycle[start] {
            start = place;
        }
    }
    cycle.rotate_left(start);
    cycle
}
