//! A log that passed its checks, laid out for the rules about its graph.

use std::collections::BTreeSet;

use crate::check::{check, Refusal};
use crate::record::{records, Record, TRANSACTIONS};
use crate::source::{sources, Source};

/// The records of a log that passed, with what the rules ask of them.
pub struct History {
    /// The records in the order of the log.
    pub records: Vec<Record>,
    /// The source of each record that is a read.
    pub sources: Vec<Option<Source>>,
    /// For each transaction the places of its records, in order.
    pub places: Vec<Vec<usize>>,
    /// For each transaction in the log the place of its commit.
    pub commits: Vec<Option<usize>>,
}

impl History {
    /// "Both apply the same log checks first."
    ///
    /// The history of a log, or the refusal that its checks give.
    pub fn of_log(log: &[u8]) -> Result<History, Refusal> {
        check(log)?;
        Ok(History::of_checked(records(log)))
    }

    /// The history of records that have passed the checks already.
    pub fn of_checked(records: Vec<Record>) -> History {
        let mut places = vec![Vec::new(); usize::from(TRANSACTIONS)];
        let mut commits = vec![None; usize::from(TRANSACTIONS)];
        for (place, record) in records.iter().enumerate() {
            places[usize::from(record.transaction)].push(place);
            if record.is_commit() {
                commits[usize::from(record.transaction)] = Some(place);
            }
        }
        History {
            sources: sources(&records),
            records,
            places,
            commits,
        }
    }

    /// "A transaction is *in the log* if a record names it."
    pub fn transactions(&self) -> BTreeSet<u8> {
        self.records
            .iter()
            .map(|record| record.transaction)
            .collect()
    }

    /// The places of the transaction's records; none where it is not in the
    /// log.
    pub fn places_of(&self, transaction: u8) -> &[usize] {
        &self.places[usize::from(transaction)]
    }

    /// "All writes of one item by one transaction are one Write of that item"
    ///
    /// Whether the transaction has that Write.
    pub fn writes(&self, transaction: u8, item: u8) -> bool {
        for &place in self.places_of(transaction) {
            let record = self.records[place];
            if record.is_write() && record.item == item {
                return true;
            }
        }
        false
    }
}
