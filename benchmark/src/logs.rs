//! The logs that are timed: P2, and those of the rows, each of which passes, and every other one of which is a cycle.

use crate::rows::Row;
use crate::tuned;
use second::generator::Generator;
use second::notation::{log, log_of_records};
use second::record::{Record, ANSWER_BYTES, COMMIT, ITEMS, READ, TRANSACTIONS, WRITE};
use second::verdict::Answer;

/// How many transactions are open at a time in a log that is to be a cycle; in one that is to be a line they run one by one.
const OPEN_IN_CYCLES: usize = 4;

/// A near read is of a copy that one of so many writes before it wrote.
const NEAR: usize = 2;

/// How many logs are drawn at most for one that is wanted.
const DRAWS: u64 = 100_000;

/// Document 01's P2.
const P2: &str = "w0[xA] w0[xB] w0[yC] c0 r1[yC] w1[xA] c1 r2[xB] w2[yC] c2";

/// Item and site.
type Copy = (u8, u8);

/// A transaction without its commit so far.
struct Open {
    number: u8,
    /// How many records it is to have before its commit.
    owed: usize,
    wrote: Vec<Copy>,
}

impl Open {
    /// Refusal 8 does not apply to a read of the copy by this transaction.
    fn may_read(&self, (item, site): Copy) -> bool {
        let mut of_item = self.wrote.iter().filter(|copy| copy.0 == item).peekable();
        of_item.peek().is_none() || of_item.any(|copy| copy.1 == site)
    }
}

/// A log in the making.
struct Maker {
    row: Row,
    open_at_most: usize,
    generator: Generator,
    records: Vec<Record>,
    open: Vec<Open>,
    /// The writes so far, each with its writer, and how many of them the far reads may go to.
    writes: Vec<(Copy, u8)>,
    old: usize,
    /// For each item its last writer.
    writers: [u8; ITEMS as usize],
}

/// The logs of a row of the table: of one of the kinds, or of none where it is P2 alone.
pub struct Logs {
    pub row: Option<Row>,
    pub logs: Vec<Vec<u8>>,
}

impl Logs {
    /// P2 and the logs of every row.
    pub fn all() -> Vec<Logs> {
        let mut all = vec![Logs {
            row: None,
            logs: vec![log(P2)],
        }];
        all.extend(Row::all().into_iter().map(Logs::of_row));
        all
    }

    /// The logs of a row, in turn a line and a cycle: many short ones or a few long ones.
    fn of_row(row: Row) -> Logs {
        let count = if row.records <= 256 { 64 } else { 16 };
        let mut logs = Vec::new();
        let mut draws = 0..DRAWS;
        while logs.len() < count {
            let is_cycle = logs.len() % 2 == 1;
            let drawn = draws.find_map(|index| drawn(row, is_cycle, index));
            logs.push(drawn.expect("a row has lines and cycles"));
        }
        Logs {
            row: Some(row),
            logs,
        }
    }

    /// The row in words, as the first cells of a table.
    pub fn words(&self) -> String {
        match self.row {
            Some(row) => row.words(),
            None => "10 (P2) | 3 | 3 | near".to_string(),
        }
    }
}

/// A log of the row, if it is what is wanted.
fn drawn(row: Row, is_cycle: bool, index: u64) -> Option<Vec<u8>> {
    let open_at_most = if is_cycle { OPEN_IN_CYCLES } else { 1 };
    let mut maker = Maker {
        row,
        open_at_most,
        generator: Generator::new(row.records as u64, index),
        records: Vec::new(),
        open: Vec::new(),
        writes: Vec::new(),
        old: 0,
        writers: [0; ITEMS as usize],
    };
    maker.run();
    let log = log_of_records(&maker.records);
    let answer = tuned::verdict(&log, &mut [0; ANSWER_BYTES]);
    let is_wanted = match answer {
        Answer::Serial(_) => !is_cycle,
        Answer::Cycle(_) => is_cycle,
        Answer::Refused(refusal) => panic!("a log was made that does not pass: {refusal:?}"),
    };
    is_wanted.then_some(log)
}

impl Maker {
    /// Shares the records out among the transactions and lets them run, the first one alone where it writes what the others read.
    fn run(&mut self) {
        let mut numbers: Vec<u8> = (0..TRANSACTIONS).collect();
        self.generator.shuffle(&mut numbers);
        numbers.truncate(self.row.transactions());
        let mut room = self.row.records - numbers.len();
        if self.row.is_far {
            self.write_old_copies(numbers.pop().expect("4 transactions at least"));
            room -= self.old;
        }
        while !numbers.is_empty() || !self.open.is_empty() {
            if self.open.len() < self.open_at_most && !numbers.is_empty() {
                let owed = room / numbers.len();
                room -= owed;
                self.start(numbers.pop().expect("one is left"), owed);
            } else {
                self.step();
            }
        }
    }

    /// Starts a transaction.
    fn start(&mut self, number: u8, owed: usize) {
        self.open.push(Open {
            number,
            owed,
            wrote: Vec::new(),
        });
    }

    /// The transaction writes the copies that all reads go to, a quarter of the records at most, and commits.
    fn write_old_copies(&mut self, number: u8) {
        let (_, sites) = self.row.items_and_sites();
        let most = self.row.records / 4;
        self.start(number, 0);
        let copies =
            (0..self.first_new_item()).flat_map(|item| (0..sites).map(move |site| (item, site)));
        for copy in copies.take(most) {
            self.write(0, copy);
        }
        self.commit(0);
        self.old = self.writes.len();
    }

    /// Items below are only read after the first transaction.
    fn first_new_item(&self) -> u8 {
        if self.row.is_far {
            self.row.items_and_sites().0 / 2
        } else {
            0
        }
    }

    /// One record of any open transaction.
    fn step(&mut self) {
        let who = self.generator.below(self.open.len());
        if self.open[who].owed == 0 {
            self.commit(who);
            return;
        }
        self.open[who].owed -= 1;
        let found = if self.generator.chance(50) {
            self.readable(who)
        } else {
            None
        };
        match found {
            Some(copy) => self.add(who, READ, copy),
            None => self.write_any(who),
        }
    }

    /// A copy to read, if a few draws find one.
    fn readable(&mut self, who: usize) -> Option<Copy> {
        let (start, end) = if self.row.is_far {
            (0, self.old)
        } else {
            (self.writes.len().saturating_sub(NEAR), self.writes.len())
        };
        for _ in 0..NEAR.min(end) {
            let (copy, _) = self.writes[self.generator.between(start, end - 1)];
            if self.open[who].may_read(copy) && self.is_fresh(copy) {
                return Some(copy);
            }
        }
        None
    }

    /// The copy holds what the last writer of its item wrote, or there need be no line.
    fn is_fresh(&self, copy: Copy) -> bool {
        let mut latest = self.writes.iter().rev();
        let writer = latest.find(|write| write.0 == copy).map(|write| write.1);
        self.open_at_most > 1 || writer == Some(self.writers[usize::from(copy.0)])
    }

    /// A write of any copy that may be written.
    fn write_any(&mut self, who: usize) {
        let (items, sites) = self.row.items_and_sites();
        let first = usize::from(self.first_new_item());
        let item = self.generator.between(first, usize::from(items) - 1);
        let site = self.generator.below(usize::from(sites));
        self.write(who, (item as u8, site as u8));
    }

    fn write(&mut self, who: usize, copy: Copy) {
        let writer = self.open[who].number;
        self.open[who].wrote.push(copy);
        self.writes.push((copy, writer));
        self.writers[usize::from(copy.0)] = writer;
        self.add(who, WRITE, copy);
    }

    fn commit(&mut self, who: usize) {
        self.add(who, COMMIT, (0, 0));
        self.open.swap_remove(who);
    }

    fn add(&mut self, who: usize, kind: u8, (item, site): Copy) {
        self.records.push(Record {
            kind,
            transaction: self.open[who].number,
            item,
            site,
        });
    }
}
