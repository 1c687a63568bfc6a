//! The line or the cycle of the edges.

use super::graph::Graph;
use super::read::Tables;
use super::sets::{bit, highest, lowest, numbers, Rows, ROWS};
use second::record::ANSWER_BYTES;
use second::verdict::Answer;

/// Writes the line or the cycle. A transaction that cannot be placed waits for one of its predecessors, and is looked at again when
/// that one is placed.
///
/// # Safety
/// The graph is that of the tables, and of these members.
#[inline(always)]
pub unsafe fn sort(tables: &Tables, graph: &Graph, members: u64, answer: &mut [u8]) -> Answer {
    let mut waiting = Rows::new();
    numbers(members).for_each(|transaction| waiting.put(transaction, 0));
    let mut ready = ready_of(graph, members, members, &mut waiting);
    let mut line = [0; ANSWER_BYTES];
    let mut left = members;
    let mut length = 0;
    while ready != 0 {
        let transaction = lowest(ready);
        *line.get_unchecked_mut(2 * length) = transaction as u8;
        length += 1;
        left &= !bit(transaction);
        ready &= ready - 1;
        ready |= ready_of(graph, waiting.at(transaction), left, &mut waiting);
    }
    if left != 0 {
        return cycle(tables, graph, left, answer);
    }
    answer[..2 * length].copy_from_slice(&line[..2 * length]);
    Answer::Serial(length)
}

/// Those of some transactions that have no predecessor left. Each of the others waits for its highest, which is likely to be placed
/// late.
#[inline(always)]
unsafe fn ready_of(graph: &Graph, some: u64, left: u64, waiting: &mut Rows<u64, ROWS>) -> u64 {
    let mut ready = 0;
    for transaction in numbers(some) {
        let predecessors = graph.all.at(transaction) & left;
        if predecessors == 0 {
            ready |= bit(transaction);
        } else {
            waiting.add(highest(predecessors), bit(transaction));
        }
    }
    ready
}

/// Writes the cycle of those left, each of which has a predecessor left.
#[inline(always)]
unsafe fn cycle(tables: &Tables, graph: &Graph, left: u64, answer: &mut [u8]) -> Answer {
    // For each that was passed the one that the walk came from: along the edge to which it is a predecessor.
    let mut next = Rows::<u8, ROWS>::new();
    let mut passed = 0;
    let mut here = lowest(left);
    while passed & bit(here) == 0 {
        passed |= bit(here);
        let predecessor = lowest(graph.all.at(here) & left);
        next.put(predecessor, here as u8);
        here = predecessor;
    }
    write_cycle(tables, graph, &next, lowest_of(&next, here), answer)
}

/// The lowest number of the cycle that goes through a transaction.
#[inline(always)]
unsafe fn lowest_of(next: &Rows<u8, ROWS>, start: usize) -> usize {
    let mut least = start;
    let mut here = usize::from(next.at(start));
    while here != start {
        least = least.min(here);
        here = usize::from(next.at(here));
    }
    least
}

/// Writes the cycle from a transaction on.
#[inline(always)]
unsafe fn write_cycle(
    tables: &Tables,
    graph: &Graph,
    next: &Rows<u8, ROWS>,
    first: usize,
    answer: &mut [u8],
) -> Answer {
    let mut length = 0;
    let mut here = first;
    loop {
        let after = usize::from(next.at(here));
        answer[2 * length] = here as u8;
        answer[2 * length + 1] = reason(tables, graph, here, after);
        length += 1;
        here = after;
        if here == first {
            return Answer::Cycle(length);
        }
    }
}

/// The lowest reason of an edge that is there.
#[inline(always)]
unsafe fn reason(tables: &Tables, graph: &Graph, i: usize, j: usize) -> u8 {
    if tables.conflicts.at(j) & bit(i) != 0 {
        1
    } else if graph.write_order.at(j) & bit(i) != 0 {
        2
    } else {
        3
    }
}
