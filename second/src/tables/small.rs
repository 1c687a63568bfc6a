//! Every table of a few transactions, also with a part of them as the set, and
//! moved to other numbers.

use crate::generator::Generator;
use crate::tables::parts::{add_ignored, draw_so_many_members};
use crate::tables::{bit, Table};

/// The most transactions that are wanted of these tables.
pub const LARGEST: usize = 4;

/// The highest numbers, which the tables are moved to.
const HIGHEST: [u8; LARGEST] = [60, 61, 62, 63];

/// Where the transactions of a small table lie, and which are in the set.
#[derive(Clone, Copy, Debug, PartialEq, Eq)]
pub enum Place {
    /// The lowest numbers, all in the set.
    Lowest,
    /// The lowest numbers, not all in the set.
    LowestInPart,
    /// The highest numbers, all in the set.
    Highest,
    /// Any numbers, all in the set. There may be edges that a sort ignores.
    Spread,
}

/// How many tables there are of so many transactions: an edge from each to
/// each, also to itself, is there or is not.
pub fn count(transactions: usize) -> u32 {
    1 << (transactions * transactions)
}

/// Hands every table of at most `largest` transactions to the callback: at the
/// lowest numbers, with all of them in the set and with a part of them, and
/// then moved. The seed decides where those lie that are spread.
pub fn for_each(largest: usize, seed: u64, mut callback: impl FnMut(Place, &Table)) {
    for transactions in 0..=largest {
        let lowest: Vec<u8> = (0..transactions as u8).collect();
        for edges in 0..count(transactions) {
            let mut table = table_of(edges, &lowest);
            callback(Place::Lowest, &table);
            for part in parts(edges, transactions) {
                table.set = part;
                callback(Place::LowestInPart, &table);
            }
            let (place, table) = moved(edges, transactions, seed);
            callback(place, &table);
        }
    }
}

/// The table of these transactions whose edges are the digits of the number.
fn table_of(edges: u32, transactions: &[u8]) -> Table {
    let mut table = Table::without_edges(transactions);
    let mut rest = edges;
    for &i in transactions {
        for &j in transactions {
            if rest & 1 == 1 {
                table.add_edge(i, j);
            }
            rest >>= 1;
        }
    }
    table
}

/// The sets that hold a part of the lowest transactions, and not all: for up to
/// 3 transactions each with every table, for 4 in turn one with every table,
/// since all of them would be a million.
fn parts(edges: u32, transactions: usize) -> Vec<u64> {
    let all = bit(transactions as u8) - 1;
    if transactions < LARGEST {
        (0..all).collect()
    } else {
        vec![u64::from(edges) % all]
    }
}

/// The table of the number, one in three at the highest numbers, the others
/// spread. An edge is a binary digit, so that no edge decides which.
fn moved(edges: u32, transactions: usize, seed: u64) -> (Place, Table) {
    if edges % 3 == 0 {
        let highest = &HIGHEST[LARGEST - transactions..];
        return (Place::Highest, table_of(edges, highest));
    }
    let mut generator = Generator::new(seed, u64::from(edges));
    let mut members = draw_so_many_members(&mut generator, transactions);
    members.sort_unstable();
    let mut table = table_of(edges, &members);
    add_ignored(&mut generator, &mut table);
    (Place::Spread, table)
}
