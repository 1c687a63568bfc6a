//! What a line and a cycle of a table are, said without the rule that yields them.

use second::sort::Sorted;
use second::tables::{bit, Table, ROWS};

/// The first thing that is wrong with an answer by itself, in words.
pub fn objection(table: &Table, answer: &Sorted) -> Option<&'static str> {
    match answer {
        Sorted::Line(line) => objection_to_line(table, line),
        Sorted::Cycle(cycle) => objection_to_cycle(table, cycle),
    }
}

/// The smallest line of all that fit, found without the rule, is the one; where no line fits there has to be a cycle.
pub fn against_smallest(answer: Option<&Sorted>, smallest: Option<Vec<u8>>) -> Option<String> {
    match (answer, smallest) {
        (Some(Sorted::Line(line)), Some(smallest)) if *line == smallest => None,
        (Some(Sorted::Cycle(_)), None) => None,
        (_, Some(smallest)) => Some(format!("of all lines the first that fits is {smallest:?}")),
        (_, None) => Some("no line at all fits".to_string()),
    }
}

/// A line has all members of the set, each once, and keeps every edge.
fn objection_to_line(table: &Table, line: &[u8]) -> Option<&'static str> {
    if !are_members_once(table, line) || line.len() != table.size() {
        Some("the line does not have all members once")
    } else if !keeps_every_edge(table, line) {
        Some("an edge leads back in the line")
    } else {
        None
    }
}

/// A cycle has 2 to 64 members, each once and its lowest first, with an edge from each to the next
/// and from the last to the first.
fn objection_to_cycle(table: &Table, cycle: &[u8]) -> Option<&'static str> {
    let nexts = cycle.iter().cycle().skip(1);
    if !(2..=ROWS).contains(&cycle.len()) {
        Some("the cycle's length is not from 2 to 64")
    } else if !are_members_once(table, cycle) {
        Some("the cycle has a number twice, or one that is not in the set")
    } else if cycle.iter().min() != cycle.first() {
        Some("the cycle does not start with its lowest number")
    } else if !cycle.iter().zip(nexts).all(|(&i, &j)| table.has_edge(i, j)) {
        Some("the cycle lacks an edge")
    } else {
        None
    }
}

/// Whether the numbers are members of the set, none of them twice.
fn are_members_once(table: &Table, numbers: &[u8]) -> bool {
    let mut passed = 0;
    for &number in numbers {
        if !table.has_member(number) || passed & bit(number) != 0 {
            return false;
        }
        passed |= bit(number);
    }
    true
}

/// Whether no edge leads from a transaction of the line to an earlier one. An edge to itself leads
/// to none, and one from or to outside the line has no two places.
pub fn keeps_every_edge(table: &Table, line: &[u8]) -> bool {
    let mut earlier = 0;
    for &transaction in line {
        if table.row(transaction) & earlier != 0 {
            return false;
        }
        earlier |= bit(transaction);
    }
    true
}
