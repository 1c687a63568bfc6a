//! Demand 3's conditions on a line, taken from the records alone: no edge, no
//! graph and no rule that yields a line.

use std::collections::BTreeMap;

use crate::lines;
use crate::record::{records, Record, ITEMS, SITES, TRANSACTIONS};
use crate::tables::{bit, members_of};

/// What the records so far did to one copy. Transactions are a bit each.
#[derive(Default)]
struct Touched {
    by: u64,
    written_by: u64,
    last_writer: Option<u8>,
}

/// What a read asks of a line; several reads may ask the same.
#[derive(PartialEq, Eq)]
struct Read {
    item: u8,
    /// "if j has an earlier write record of that item in the log"
    own: bool,
    /// The writer that the read has in the log: of its source the transaction
    /// alone.
    writer: Option<u8>,
}

impl Read {
    /// "each read has the same writer as in a run of that line on a single
    /// copy"; "a read by j of an item gets j itself if j has an earlier write
    /// record of that item in the log, otherwise the last transaction before j
    /// in the line that writes the item."
    ///
    /// Of each item the last writer so far in the line is at hand.
    fn agrees(&self, reader: u8, last_writers: &[Option<u8>]) -> bool {
        let in_the_run = if self.own {
            Some(reader)
        } else {
            last_writers[usize::from(self.item)]
        };
        self.writer == in_the_run
    }
}

/// What demand 3 asks of a line of the transactions of one log.
pub struct Conditions {
    /// The transactions in the log, in the order of their commits.
    pub members: Vec<u8>,
    /// For each transaction those that have to stand before it.
    before: Vec<u64>,
    /// For each transaction its reads, and the items that it writes, a bit
    /// each.
    reads: Vec<Vec<Read>>,
    writes: Vec<u64>,
    /// For each item its writers that have committed.
    committed: Vec<u64>,
    /// The copies that a record is on, by their numbers.
    copies: BTreeMap<u16, Touched>,
}

impl Conditions {
    /// The conditions of a log that passes its checks: in such a log each
    /// transaction has one commit, and all its other records stand before it.
    pub fn of_log(log: &[u8]) -> Conditions {
        let transactions = usize::from(TRANSACTIONS);
        let mut conditions = Conditions {
            members: Vec::new(),
            before: vec![0; transactions],
            reads: (0..transactions).map(|_| Vec::new()).collect(),
            writes: vec![0; transactions],
            committed: vec![0; usize::from(ITEMS)],
            copies: BTreeMap::new(),
        };
        for record in records(log) {
            if record.is_commit() {
                conditions.add_commit(record.transaction);
            } else {
                conditions.add_read_or_write(record);
            }
        }
        conditions
    }

    /// "conflicts on a copy keep log order"
    fn add_read_or_write(&mut self, record: Record) {
        let transaction = record.transaction;
        let who = usize::from(transaction);
        let copy = self.copies.entry(record.copy_number()).or_default();
        if record.is_write() {
            self.before[who] |= copy.by & !bit(transaction);
            self.writes[who] |= bit(record.item);
            copy.written_by |= bit(transaction);
            copy.last_writer = Some(transaction);
        } else {
            self.before[who] |= copy.written_by & !bit(transaction);
            let read = Read {
                item: record.item,
                own: self.writes[who] & bit(record.item) != 0,
                writer: copy.last_writer,
            };
            if !self.reads[who].contains(&read) {
                self.reads[who].push(read);
            }
        }
        copy.by |= bit(transaction);
    }

    /// "writers of an item keep the stated write order"
    fn add_commit(&mut self, transaction: u8) {
        let who = usize::from(transaction);
        self.members.push(transaction);
        for item in members_of(self.writes[who]) {
            self.before[who] |= self.committed[usize::from(item)];
            self.committed[usize::from(item)] |= bit(transaction);
        }
    }

    /// Whether a line of all members, each once, meets the three conditions.
    pub fn fits(&self, line: &[u8]) -> bool {
        let mut earlier = 0;
        let mut last_writers = [None; ITEMS as usize];
        for &transaction in line {
            let who = usize::from(transaction);
            if self.before[who] & !earlier != 0 {
                return false;
            }
            let mut reads = self.reads[who].iter();
            if !reads.all(|read| read.agrees(transaction, &last_writers)) {
                return false;
            }
            self.write(transaction, &mut last_writers);
            earlier |= bit(transaction);
        }
        true
    }

    /// The transaction becomes the last writer of each item that it writes.
    fn write(&self, transaction: u8, last_writers: &mut [Option<u8>]) {
        for item in members_of(self.writes[usize::from(transaction)]) {
            last_writers[usize::from(item)] = Some(transaction);
        }
    }

    /// "The line given is the smallest of these in transaction numbers, read
    /// from the left."
    ///
    /// Every line is tried until one fits, so that the members have to be few.
    pub fn smallest_line(&self) -> Option<Vec<u8>> {
        lines::smallest_line(&self.members, |line| self.fits(line))
    }

    /// "Its last writer of an item made the last write on each copy of the
    /// item that it wrote."
    ///
    /// The number of the first copy of which that is not so.
    pub fn copy_not_written_last(&self, line: &[u8]) -> Option<u16> {
        let mut last_writers = [None; ITEMS as usize];
        for &transaction in line {
            self.write(transaction, &mut last_writers);
        }
        let is_wrong = |(number, copy): (&u16, &Touched)| {
            let last = last_writers[usize::from(number / u16::from(SITES))]?;
            let wrote_it = copy.written_by & bit(last) != 0;
            (wrote_it && copy.last_writer != Some(last)).then_some(*number)
        };
        self.copies.iter().find_map(is_wrong)
    }
}

#[cfg(test)]
mod tests {
    use super::*;
    use crate::notation::log;

    fn conditions(history: &str) -> Conditions {
        Conditions::of_log(&log(history))
    }

    #[test]
    fn each_condition_is_asked_by_itself() {
        let conflict = conditions("w0[xA] r1[xA] c0 c1");
        assert!(conflict.fits(&[0, 1]) && !conflict.fits(&[1, 0]));
        let write_order = conditions("w0[xA] w1[xB] c1 c0");
        assert!(write_order.fits(&[1, 0]) && !write_order.fits(&[0, 1]));
        let old_copy = conditions("w0[xA] w0[xB] c0 w1[xA] c1 r2[xB] c2");
        assert_eq!(old_copy.smallest_line(), Some(vec![0, 2, 1]));
        let own = conditions("w0[xA] r0[xA] c0 c1");
        assert_eq!(own.smallest_line(), Some(vec![0, 1]));
        let own_overwritten = conditions("w0[xA] w1[xA] r0[xA] c0 c1");
        assert_eq!(own_overwritten.smallest_line(), None);
    }

    #[test]
    fn the_last_writer_of_a_copy_is_seen() {
        let conditions = conditions("w0[yB] w1[yB] w1[yC] c1 c0");
        assert_eq!(conditions.copy_not_written_last(&[0, 1]), None);
        assert_eq!(conditions.copy_not_written_last(&[1, 0]), Some(17));
    }
}
