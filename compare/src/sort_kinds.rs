//! The kinds of tables and of answers that a comparison of sorts has to meet: a sort that is wrong
//! about one of them might be right everywhere else.

use crate::sorts::MOST_TO_TRY;
use second::tables::{bit, members_of, Table, ROWS};

/// A table with the second checker's line or cycle, and what the kinds ask of the table.
pub struct Case<'a> {
    table: &'a Table,
    answer: &'a [u8],
    /// Whether an edge leads from a member to itself.
    leads_to_itself: bool,
    /// Whether an edge leads from outside to a member.
    leads_in: bool,
    /// The set of those that cannot be placed.
    left: u64,
}

/// A kind's name, and whether a case is of it.
pub type Kind = (&'static str, fn(&Case) -> bool);

pub const OF_TABLES: [Kind; 8] = [
    ("tables", |_| true),
    ("of the empty set", |case| case.table.size() == 0),
    ("of a single member", |case| case.table.size() == 1),
    ("of 64 members", |case| case.table.size() == ROWS),
    ("judged by trying every line", has_few_members),
    ("with an edge from a member to itself", |case| {
        case.leads_to_itself
    }),
    ("with an edge from outside", |case| case.leads_in),
    ("with an edge to outside", leads_outside),
];

pub const OF_LINES: [Kind; 7] = [
    ("lines", |_| true),
    ("lines of 64 members", |case| case.answer.len() == ROWS),
    ("lines not in the order of numbers", is_by_edges),
    ("lines among others that keep every edge", is_by_numbers),
    ("lines with an edge from a member to itself", |case| {
        case.leads_to_itself
    }),
    ("lines with an edge from outside", |case| case.leads_in),
    ("lines found by trying every line", has_few_members),
];

pub const OF_CYCLES: [Kind; 10] = [
    ("cycles", |_| true),
    ("cycles of 2 members", |case| case.answer.len() == 2),
    ("cycles of more members", |case| case.answer.len() > 2),
    ("cycles of 64 members", |case| case.answer.len() == ROWS),
    ("cycles after some members were placed", |case| {
        case.left != case.table.set
    }),
    ("cycles whose walk had a tail", has_a_tail),
    ("cycles with another predecessor to go to", has_other_walks),
    ("cycles with an edge from a member to itself", |case| {
        case.leads_to_itself
    }),
    ("cycles with an edge from outside", |case| case.leads_in),
    ("cycles where trying every line finds none", has_few_members),
];

impl<'a> Case<'a> {
    pub fn new(table: &'a Table, answer: &'a [u8]) -> Case<'a> {
        Case {
            table,
            answer,
            leads_to_itself: members_of(table.set).any(|i| table.has_edge(i, i)),
            leads_in: successors(table, !table.set) & table.set != 0,
            left: left(table),
        }
    }
}

/// The set is so small that the answer is held to every line of its members.
fn has_few_members(case: &Case) -> bool {
    case.table.size() <= MOST_TO_TRY
}

fn leads_outside(case: &Case) -> bool {
    successors(case.table, case.table.set) & !case.table.set != 0
}

/// A higher number stands before a lower one, for the sake of the edges.
fn is_by_edges(case: &Case) -> bool {
    case.answer.windows(2).any(|two| two[0] > two[1])
}

/// Two neighbours without an edge could change places, so that their numbers decide.
fn is_by_numbers(case: &Case) -> bool {
    let mut neighbours = case.answer.windows(2);
    neighbours.any(|two| !case.table.has_edge(two[0], two[1]))
}

/// The lowest number left, from which the walk starts, is not in the cycle.
fn has_a_tail(case: &Case) -> bool {
    let lowest = case.left.trailing_zeros() as u8;
    !case.answer.contains(&lowest)
}

/// A member of the cycle has two predecessors left, so that their numbers decide.
fn has_other_walks(case: &Case) -> bool {
    case.answer.iter().any(|&j| {
        let leads_to_j = |&i: &u8| i != j && case.table.has_edge(i, j);
        members_of(case.left).filter(leads_to_j).count() > 1
    })
}

/// The set of those to which an edge leads from another one that is in the set.
fn successors(table: &Table, set: u64) -> u64 {
    members_of(set).fold(0, |all, i| all | (table.row(i) & !bit(i)))
}

/// The set of those that cannot be placed, in whatever order: all that have no predecessor are
/// taken away, until each one left has a predecessor left.
fn left(table: &Table) -> u64 {
    let mut left = table.set;
    loop {
        let blocked = left & successors(table, left);
        if blocked == left {
            return left;
        }
        left = blocked;
    }
}
