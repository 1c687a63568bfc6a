//! The edges of a log that passes, by their reasons.

use super::read::{Pass, Tables};
use super::sets::{bit, numbers, Rows, ROWS};

/// From so many transactions on, a table is turned as a whole.
const MANY: u32 = 12;

/// The edges beside the conflicts. The entries of the transactions in the log are there.
pub struct Graph {
    /// For each transaction those that write an item that it writes.
    co_writers: Rows<u64, ROWS>,
    /// For each transaction those that commit later.
    later: Rows<u64, ROWS>,
    /// For each transaction those that have an edge to it by the write order.
    pub write_order: Rows<u64, ROWS>,
    /// For each transaction those that it has a read-before edge to.
    read_before: Rows<u64, ROWS>,
    /// For each transaction those that have any edge to it.
    pub all: Rows<u64, ROWS>,
}

impl Graph {
    #[inline(always)]
    pub fn new() -> Graph {
        Graph {
            co_writers: Rows::new(),
            later: Rows::new(),
            write_order: Rows::new(),
            read_before: Rows::new(),
            all: Rows::new(),
        }
    }

    /// Finds the edges of a log that passes.
    ///
    /// # Safety
    /// The pass has filled the tables.
    #[inline(always)]
    pub unsafe fn fill(&mut self, tables: &Tables, pass: &Pass) {
        for transaction in numbers(pass.members) {
            self.co_writers.put(transaction, 0);
            self.read_before.put(transaction, 0);
            self.all.put(transaction, 0);
        }
        self.fill_co_writers(tables);
        self.fill_write_order(tables, pass.members);
        self.fill_read_before(tables, pass.reads);
        if pass.members.count_ones() < MANY {
            self.turn(pass.members);
        } else {
            self.turn_as_a_whole(pass.members);
        }
        for transaction in numbers(pass.members) {
            let edges = tables.conflicts.at(transaction) | self.write_order.at(transaction);
            let all = self.all.at(transaction) | edges;
            self.all.put(transaction, all & !bit(transaction));
        }
    }

    #[inline(always)]
    unsafe fn fill_co_writers(&mut self, tables: &Tables) {
        for item in numbers(tables.items) {
            let writers = tables.writers.at(item);
            numbers(writers).for_each(|writer| self.co_writers.add(writer, writers));
        }
    }

    #[inline(always)]
    unsafe fn fill_write_order(&mut self, tables: &Tables, members: u64) {
        let mut left = members;
        let mut place = 0;
        while left != 0 {
            let transaction = usize::from(tables.order.at(place));
            let earlier = members & !left;
            left &= !bit(transaction);
            self.later.put(transaction, left);
            let others = self.co_writers.at(transaction);
            self.write_order.put(transaction, others & earlier);
            place += 1;
        }
    }

    /// Of each item that a transaction reads the writers that commit later than the source.
    #[inline(always)]
    unsafe fn fill_read_before(&mut self, tables: &Tables, reads: usize) {
        for place in 0..reads {
            let read = tables.reads.at(place) as usize;
            let (source, reader, item) = (read & 255, read >> 8 & 255, read >> 16 & 255);
            let successors = tables.writers.at(item) & self.later.at(source);
            self.read_before.add(reader, successors);
        }
    }

    /// Turns the read-before edges: from where they lead instead of where to.
    #[inline(always)]
    unsafe fn turn(&mut self, members: u64) {
        for transaction in numbers(members) {
            let successors = numbers(self.read_before.at(transaction));
            successors.for_each(|successor| self.all.add(successor, bit(transaction)));
        }
    }

    /// The same for many transactions: in ever smaller squares, the two parts beside the diagonal are exchanged.
    #[inline(always)]
    unsafe fn turn_as_a_whole(&mut self, members: u64) {
        for transaction in 0..ROWS {
            let is_there = members & bit(transaction) != 0;
            let row = if is_there {
                self.read_before.at(transaction)
            } else {
                0
            };
            self.all.put(transaction, row);
        }
        self.exchange(32, 0x0000_0000_FFFF_FFFF);
        self.exchange(16, 0x0000_FFFF_0000_FFFF);
        self.exchange(8, 0x00FF_00FF_00FF_00FF);
        self.exchange(4, 0x0F0F_0F0F_0F0F_0F0F);
        self.exchange(2, 0x3333_3333_3333_3333);
        self.exchange(1, 0x5555_5555_5555_5555);
    }

    /// Exchanges, in each square of twice so many rows, the high half of the low rows with the low half of the high rows.
    #[inline(always)]
    unsafe fn exchange(&mut self, half: usize, low: u64) {
        for place in 0..ROWS / 2 {
            let row = (place & (half - 1)) | (place & !(half - 1)) << 1;
            let (one, other) = (self.all.at(row), self.all.at(row + half));
            let crossed = ((one >> half) ^ other) & low;
            self.all.put(row, one ^ crossed << half);
            self.all.put(row + half, other ^ crossed);
        }
    }
}
