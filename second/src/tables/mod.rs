//! Tables of edges, each with the set of the transactions that are to be
//! sorted, and the makers of such tables.

pub mod maker;
mod parts;
pub mod plain;
mod rings;
pub mod small;

use std::collections::BTreeSet;

use crate::record::TRANSACTIONS;
use crate::sort::{sort, Sorted};

/// A row for each transaction.
pub const ROWS: usize = TRANSACTIONS as usize;

/// Any edges and any set: no log needs to stand behind them. Edges from a
/// transaction to itself, and to or from one outside the set, may be there.
#[derive(Clone, Debug, PartialEq, Eq)]
pub struct Table {
    /// Bit j of row i is the edge from i to j.
    pub rows: [u64; ROWS],
    /// Bit t says that transaction t is in the set.
    pub set: u64,
}

/// The set of one transaction alone, which is at most 63.
#[inline]
pub fn bit(transaction: u8) -> u64 {
    1 << transaction
}

/// The set of these transactions.
pub fn set_of(members: &[u8]) -> u64 {
    members.iter().fold(0, |set, &member| set | bit(member))
}

/// The transactions of a set, in the order of their numbers.
#[inline]
pub fn members_of(set: u64) -> impl Iterator<Item = u8> {
    let mut rest = set;
    std::iter::from_fn(move || {
        if rest == 0 {
            return None;
        }
        let lowest = rest.trailing_zeros() as u8;
        rest &= rest - 1;
        Some(lowest)
    })
}

impl Table {
    /// The table of these members without an edge.
    pub fn without_edges(members: &[u8]) -> Table {
        Table {
            rows: [0; ROWS],
            set: set_of(members),
        }
    }

    /// The row of a transaction: the set of those that it has an edge to.
    #[inline]
    pub fn row(&self, transaction: u8) -> u64 {
        self.rows[usize::from(transaction)]
    }

    #[inline]
    pub fn has_edge(&self, i: u8, j: u8) -> bool {
        self.row(i) & bit(j) != 0
    }

    pub fn add_edge(&mut self, i: u8, j: u8) {
        self.rows[usize::from(i)] |= bit(j);
    }

    /// Whether a number is that of a member; one above 63 is not.
    #[inline]
    pub fn has_member(&self, number: u8) -> bool {
        number < TRANSACTIONS && self.set & bit(number) != 0
    }

    /// How many members there are.
    #[inline]
    pub fn size(&self) -> usize {
        self.set.count_ones() as usize
    }

    /// The members in the order of their numbers.
    pub fn members(&self) -> Vec<u8> {
        members_of(self.set).collect()
    }

    /// What the rule of the verdict yields for the set and the edges.
    pub fn sorted(&self) -> Sorted {
        let members: BTreeSet<u8> = members_of(self.set).collect();
        sort(&members, |i, j| self.has_edge(i, j))
    }
}
