//! The rows of the table: how long their logs are, and how copies, transactions and reads lie in them.

use second::record::ITEMS;

/// The lengths of the logs, in records.
pub const LENGTHS: [usize; 4] = [16, 256, 1_024, 4_096];

/// The logs of one row.
#[derive(Clone, Copy, PartialEq, Eq)]
pub struct Row {
    pub records: usize,
    /// Over many copies, or else over 4.
    pub is_spread: bool,
    /// Of as many transactions as there can be, or else of 4.
    pub has_many: bool,
    /// With reads whose source stands at the front of the log, or else a few writes before.
    pub is_far: bool,
}

impl Row {
    /// Every row, the shorter logs first.
    pub fn all() -> Vec<Row> {
        let mut all = Vec::new();
        for records in LENGTHS {
            for kind in 0..8 {
                all.push(Row {
                    records,
                    is_spread: kind & 4 == 0,
                    has_many: kind & 2 != 0,
                    is_far: kind & 1 != 0,
                });
            }
        }
        all
    }

    /// The row with the next shorter logs of the same kind.
    pub fn shorter(self) -> Option<Row> {
        let place = LENGTHS.iter().position(|&length| length == self.records)?;
        Some(Row {
            records: LENGTHS[place.checked_sub(1)?],
            ..self
        })
    }

    /// Each transaction takes a commit, so that 16 records have no room for 64.
    pub fn transactions(self) -> usize {
        match (self.has_many, self.records) {
            (false, _) => 4,
            (true, 16) => 8,
            (true, _) => 64,
        }
    }

    /// How many items and sites the copies are of: where they are spread, about as many copies as half the records.
    pub fn items_and_sites(self) -> (u8, u8) {
        match (self.is_spread, self.records) {
            (false, _) => (2, 2),
            (true, 16) => (4, 2),
            (true, 256) => (16, 8),
            (true, 1_024) => (32, 16),
            (true, _) => (ITEMS, 16),
        }
    }

    /// The row in words, as the cells of a table.
    pub fn words(self) -> String {
        let (items, sites) = self.items_and_sites();
        let copies = usize::from(items) * usize::from(sites);
        let reads = if self.is_far { "far" } else { "near" };
        let transactions = self.transactions();
        format!("{} | {copies} | {transactions} | {reads}", self.records)
    }
}
