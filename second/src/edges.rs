//! The write order, the three reasons of an edge, the question "edge from i to
//! j" and what is printed for it.

use crate::check::Refusal;
use crate::history::History;
use crate::record::TRANSACTIONS;

/// For each pair of transactions the reason of its edge, 0 where none is.
pub type Reasons = [[u8; TRANSACTIONS as usize]; TRANSACTIONS as usize];

/// "*Write order of an item*: of two transactions that write the item, the one
/// whose commit stands earlier comes first."
///
/// All writers of the item in that order.
pub fn write_order(history: &History, item: u8) -> Vec<u8> {
    let mut order = Vec::new();
    for record in &history.records {
        if record.is_commit() && history.writes(record.transaction, item) {
            order.push(record.transaction);
        }
    }
    order
}

/// "of two transactions that write the item, the one whose commit stands
/// earlier comes first."
pub fn comes_before(history: &History, item: u8, first: u8, second: u8) -> bool {
    let of_first = history.commits[usize::from(first)];
    let of_second = history.commits[usize::from(second)];
    match (of_first, of_second) {
        (Some(earlier), Some(later)) => {
            earlier < later && history.writes(first, item) && history.writes(second, item)
        }
        _ => false,
    }
}

/// "1. Conflict: a record of i stands before a record of j, both on the same
/// copy, at least one a write."
pub fn is_conflict(history: &History, i: u8, j: u8) -> bool {
    for &place_of_i in history.places_of(i) {
        for &place_of_j in history.places_of(j) {
            let of_i = history.records[place_of_i];
            let of_j = history.records[place_of_j];
            if place_of_i < place_of_j
                && of_i.is_on_the_copy_of(of_j)
                && (of_i.is_write() || of_j.is_write())
            {
                return true;
            }
        }
    }
    false
}

/// "2. Write order: both write one item, and i comes before j in its write
/// order."
pub fn is_write_order(history: &History, i: u8, j: u8) -> bool {
    for &place in history.places_of(i) {
        let record = history.records[place];
        if record.is_write() && comes_before(history, record.item, i, j) {
            return true;
        }
    }
    false
}

/// "3. Read before: i has a read of some item with source s, j writes that
/// item, j is not s, and s comes before j in the write order."
///
/// Of the two numbers of a source, s is the transaction: with the second number
/// "edges and verdict do not" change.
pub fn is_read_before(history: &History, i: u8, j: u8) -> bool {
    for &place in history.places_of(i) {
        let item = history.records[place].item;
        if let Some(source) = history.sources[place] {
            let s = source.transaction;
            if history.writes(j, item) && j != s && comes_before(history, item, s, j) {
                return true;
            }
        }
    }
    false
}

/// "There is an edge from i to j, i and j different, for these reasons"
///
/// Which of the reasons 1, 2 and 3 apply, each by itself.
pub fn reasons(history: &History, i: u8, j: u8) -> [bool; 3] {
    if i == j {
        return [false; 3];
    }
    [
        is_conflict(history, i, j),
        is_write_order(history, i, j),
        is_read_before(history, i, j),
    ]
}

/// "The reason reported for an edge is the lowest number that applies."
///
/// "or 0 where there is none, where i equals j, or where either is not in the
/// log."
pub fn reason(history: &History, i: u8, j: u8) -> u8 {
    if i == j {
        0
    } else if is_conflict(history, i, j) {
        1
    } else if is_write_order(history, i, j) {
        2
    } else if is_read_before(history, i, j) {
        3
    } else {
        0
    }
}

/// The reason of every pair of transactions.
pub fn all_reasons(history: &History) -> Reasons {
    let mut all = [[0; TRANSACTIONS as usize]; TRANSACTIONS as usize];
    let members = history.transactions();
    for &i in &members {
        for &j in &members {
            all[usize::from(i)][usize::from(j)] = reason(history, i, j);
        }
    }
    all
}

/// "*Edge from i to j*: its reason, or 0 where there is none, where i equals
/// j, or where either is not in the log. Both apply the same log checks
/// first."; "10: a question names a transaction above 63, place 0"
pub fn edge(log: &[u8], i: u64, j: u64) -> Result<u8, Refusal> {
    let history = History::of_log(log)?;
    if i >= u64::from(TRANSACTIONS) || j >= u64::from(TRANSACTIONS) {
        return Err(Refusal {
            number: 10,
            place: 0,
        });
    }
    Ok(reason(&history, i as u8, j as u8))
}

/// What a command prints for the question: the reason, 0 where there is none,
/// on one line; or `refused number place`.
///
/// The line ends with a newline.
pub fn printed_edge(log: &[u8], i: u64, j: u64) -> String {
    match edge(log, i, j) {
        Ok(reason) => format!("{reason}\n"),
        Err(refusal) => refusal.printed(),
    }
}
