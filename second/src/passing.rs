//! Histories that pass the checks, built record by record.

use crate::generator::Generator;
use crate::notation::log_of_records;
use crate::record::{Record, COMMIT, ITEMS, READ, SITES, TRANSACTIONS, WRITE};

/// How transactions are interleaved and where they write.
#[derive(Clone, Copy, Debug, PartialEq, Eq)]
enum Style {
    /// One transaction after the other; a write goes to some copies only, so
    /// that later reads may find an old one.
    OneByOne,
    /// Two or three transactions at a time.
    Few,
    /// All transactions at a time.
    Many,
    /// Several at a time, but no item is touched by two open transactions, and
    /// a write goes to all sites. Such a history is always serial.
    Locked,
}

/// What a history is drawn from.
struct Shape {
    style: Style,
    /// The transactions in the order of their start.
    transactions: Vec<u8>,
    items: Vec<u8>,
    sites: Vec<u8>,
    /// How many records are wanted at most, or exactly.
    length: usize,
    exact: bool,
    /// How many transactions may be open at a time.
    open_at_most: usize,
    read_percent: usize,
    /// One of so many steps is a commit.
    commit_one_in: usize,
    own_read_percent: usize,
    lone_commit_percent: usize,
    write_all_percent: usize,
    /// How many reads go only to copies that hold the last committed write of
    /// their item; the others may find an older one or one not committed.
    fresh_percent: usize,
}

/// An open transaction and what it has done so far.
struct Open {
    number: u8,
    wrote: Vec<(u8, u8)>,
    touched: Vec<u8>,
}

impl Open {
    /// Refusal 8 does not apply to a read of the copy by this transaction.
    fn may_read(&self, copy: (u8, u8)) -> bool {
        let wrote_the_item = self.wrote.iter().any(|&(item, _)| item == copy.0);
        !wrote_the_item || self.wrote.contains(&copy)
    }
}

/// A history in the making.
struct Builder<'a> {
    shape: Shape,
    generator: &'a mut Generator,
    records: Vec<Record>,
    /// Transactions not started, the next one last.
    waiting: Vec<u8>,
    open: Vec<Open>,
    /// The copies that some record has written, each with its last writer.
    written: Vec<((u8, u8), u8)>,
    /// For each item the writer that committed last.
    committed: Vec<Option<u8>>,
}

/// A passing log of mostly 4 to 60 records, sometimes fewer, sometimes some
/// hundreds, and rarely thousands.
pub fn passing(generator: &mut Generator) -> Vec<u8> {
    let length = match generator.below(1_000) {
        0..=29 => generator.between(0, 3),
        30..=896 => generator.between(4, 60),
        897..=996 => generator.between(61, 300),
        _ => generator.between(301, 4_096),
    };
    let shape = draw_shape(generator, length, false);
    build(shape, generator)
}

/// A passing log of 4 to 60 records at most.
pub fn passing_short(generator: &mut Generator) -> Vec<u8> {
    let length = generator.between(4, 60);
    let shape = draw_shape(generator, length, false);
    build(shape, generator)
}

/// A log of exactly so many records, one at least, that passes if its length
/// does.
pub fn passing_exact(generator: &mut Generator, length: usize) -> Vec<u8> {
    let shape = draw_shape(generator, length, true);
    build(shape, generator)
}

/// Draws the style and the parts of a history.
fn draw_shape(generator: &mut Generator, length: usize, exact: bool) -> Shape {
    let style = match generator.below(100) {
        0..=24 => Style::OneByOne,
        25..=59 => Style::Few,
        60..=74 => Style::Many,
        _ => Style::Locked,
    };
    let transactions = draw_transactions(generator);
    let open_at_most = match style {
        Style::OneByOne => 1,
        Style::Few => generator.between(2, 3),
        Style::Many => transactions.len(),
        Style::Locked => generator.between(2, 6),
    };
    let commit_one_in = draw_commit_one_in(generator, length / transactions.len(), exact);
    let item_count = few(generator, ITEMS);
    let site_count = few(generator, SITES);
    Shape {
        style,
        transactions,
        items: generator.labels(item_count, ITEMS),
        sites: generator.labels(site_count, SITES),
        length,
        exact,
        open_at_most,
        read_percent: generator.pick(&[10, 30, 50, 50, 70, 90]),
        commit_one_in,
        own_read_percent: generator.pick(&[0, 0, 10, 30]),
        lone_commit_percent: generator.pick(&[0, 0, 2, 10]),
        write_all_percent: generator.pick(&[0, 20, 50, 100]),
        fresh_percent: generator.pick(&[0, 50, 100, 100]),
    }
}

/// How rare commits are. In a long log an even share of its records for each
/// transaction keeps the last one from filling most of it.
fn draw_commit_one_in(generator: &mut Generator, even_share: usize, exact: bool) -> usize {
    let drawn = generator.pick(&[3, 5, 10, 20, 50]);
    if exact || generator.chance(50) {
        even_share.max(drawn)
    } else {
        drawn
    }
}

/// One to four mostly, so that transactions collide, sometimes up to the
/// limit.
fn few(generator: &mut Generator, limit: u8) -> usize {
    match generator.below(100) {
        0..=74 => generator.between(1, 4),
        75..=93 => generator.between(5, 10),
        _ => generator.between(11, usize::from(limit)),
    }
}

/// One to 64 transactions in the order of their start.
fn draw_transactions(generator: &mut Generator) -> Vec<u8> {
    let count = match generator.below(100) {
        0..=4 => 1,
        5..=49 => generator.between(2, 4),
        50..=77 => generator.between(5, 8),
        78..=91 => generator.between(9, 20),
        _ => generator.between(21, usize::from(TRANSACTIONS)),
    };
    let mut transactions = generator.labels(count, TRANSACTIONS);
    if generator.chance(70) {
        generator.shuffle(&mut transactions);
    } else {
        transactions.sort_unstable();
    }
    transactions
}

/// Builds a history of the shape and gives its log.
fn build(shape: Shape, generator: &mut Generator) -> Vec<u8> {
    let mut waiting = shape.transactions.clone();
    waiting.reverse();
    let mut builder = Builder {
        shape,
        generator,
        records: Vec::new(),
        waiting,
        open: Vec::new(),
        written: Vec::new(),
        committed: vec![None; usize::from(ITEMS)],
    };
    builder.run();
    log_of_records(&builder.records)
}

impl Builder<'_> {
    /// Takes steps until only the commits of the open transactions have room,
    /// then commits them in a random order. Each step starts or commits a
    /// transaction or adds a record, so the steps come to an end.
    fn run(&mut self) {
        while self.room() > 0 {
            if self.starts_one() {
                self.start();
            } else if self.open.is_empty() {
                break;
            } else {
                let who = self.generator.below(self.open.len());
                self.step(who);
            }
        }
        while !self.open.is_empty() {
            let who = self.generator.below(self.open.len());
            self.commit(who);
        }
    }

    /// How many records may still come beside the commits that are owed.
    fn room(&self) -> usize {
        self.shape.length - self.records.len() - self.open.len()
    }

    /// Whether a waiting transaction starts now.
    fn starts_one(&mut self) -> bool {
        !self.waiting.is_empty()
            && self.open.len() < self.shape.open_at_most
            && (self.open.is_empty() || self.generator.chance(40))
    }

    /// Opens the next waiting transaction; some only commit.
    fn start(&mut self) {
        if let Some(number) = self.waiting.pop() {
            self.open.push(Open {
                number,
                wrote: Vec::new(),
                touched: Vec::new(),
            });
            if self.may_commit() && self.generator.chance(self.shape.lone_commit_percent) {
                self.commit(self.open.len() - 1);
            }
        }
    }

    /// A commit now leaves somebody who can fill the log to an exact length.
    fn may_commit(&self) -> bool {
        !self.shape.exact || self.open.len() + self.waiting.len() > 1
    }

    /// One step of an open transaction: commit, read or write.
    fn step(&mut self, who: usize) {
        if self.may_commit() && self.generator.below(self.shape.commit_one_in) == 0 {
            self.commit(who);
        } else if self.generator.chance(self.shape.own_read_percent)
            && !self.open[who].wrote.is_empty()
        {
            let copy = self.generator.pick(&self.open[who].wrote);
            self.read(who, copy);
        } else {
            self.step_elsewhere(who);
        }
    }

    /// A read of what is written, if one is found, else a write, else, where
    /// all items are locked, the commit.
    fn step_elsewhere(&mut self, who: usize) {
        if self.generator.chance(self.shape.read_percent) {
            if let Some(copy) = self.readable(who) {
                self.read(who, copy);
                return;
            }
        }
        match self.writable(who) {
            Some(item) => self.write_item(who, item),
            None => self.commit(who),
        }
    }

    /// A written copy that the transaction may read, if a few draws find one.
    fn readable(&mut self, who: usize) -> Option<(u8, u8)> {
        if self.written.is_empty() {
            return None;
        }
        let fresh = self.generator.chance(self.shape.fresh_percent);
        for _ in 0..8 {
            let (copy, writer) = self.generator.pick(&self.written);
            let is_fresh = self.committed[usize::from(copy.0)] == Some(writer);
            let fits = is_fresh || !fresh || self.shape.style == Style::Locked;
            if fits && self.open[who].may_read(copy) && !self.is_locked(who, copy.0) {
                return Some(copy);
            }
        }
        None
    }

    /// An item that the transaction may write, the first ones more often.
    fn writable(&mut self, who: usize) -> Option<u8> {
        let item = self.generator.pick_early(&self.shape.items);
        if !self.is_locked(who, item) {
            return Some(item);
        }
        let items = self.shape.items.clone();
        items.into_iter().find(|&item| !self.is_locked(who, item))
    }

    /// In the locked style, another open transaction has touched the item.
    fn is_locked(&self, who: usize, item: u8) -> bool {
        self.shape.style == Style::Locked
            && self
                .open
                .iter()
                .enumerate()
                .any(|(other, open)| other != who && open.touched.contains(&item))
    }

    /// Writes the item at one site or at all. The locked style writes at all
    /// or, without the room for that, commits; the last one open for an exact
    /// length may write as it likes, since nobody reads after it.
    fn write_item(&mut self, who: usize, item: u8) {
        let locked = self.shape.style == Style::Locked;
        let sites = self.shape.sites.clone();
        let all = locked || self.generator.chance(self.shape.write_all_percent);
        if all && sites.len() <= self.room() {
            for site in sites {
                self.write(who, (item, site));
            }
        } else if locked && self.may_commit() {
            self.commit(who);
        } else {
            let site = self.generator.pick(&sites);
            self.write(who, (item, site));
        }
    }

    /// Adds a write record.
    fn write(&mut self, who: usize, copy: (u8, u8)) {
        let writer = self.open[who].number;
        match self.written.iter_mut().find(|(known, _)| *known == copy) {
            Some(entry) => entry.1 = writer,
            None => self.written.push((copy, writer)),
        }
        if !self.open[who].wrote.contains(&copy) {
            self.open[who].wrote.push(copy);
        }
        self.add(who, WRITE, copy);
    }

    /// Adds a read record.
    fn read(&mut self, who: usize, copy: (u8, u8)) {
        self.add(who, READ, copy);
    }

    /// Adds a read or a write of an open transaction.
    fn add(&mut self, who: usize, kind: u8, copy: (u8, u8)) {
        let open = &mut self.open[who];
        if !open.touched.contains(&copy.0) {
            open.touched.push(copy.0);
        }
        self.records.push(Record {
            kind,
            transaction: open.number,
            item: copy.0,
            site: copy.1,
        });
    }

    /// Commits an open transaction.
    fn commit(&mut self, who: usize) {
        let open = self.open.swap_remove(who);
        for &(item, _) in &open.wrote {
            self.committed[usize::from(item)] = Some(open.number);
        }
        self.records.push(Record {
            kind: COMMIT,
            transaction: open.number,
            item: 0,
            site: 0,
        });
    }
}

#[cfg(test)]
mod tests {
    use super::*;
    use crate::record::ANSWER_BYTES;
    use crate::verdict::{verdict, Answer};

    /// The locked style is two-phase locking with writes to all copies, which
    /// the chapter's theory says is always serial.
    #[test]
    fn locked_histories_are_serial() {
        for index in 0..3_000 {
            let mut generator = Generator::new(11, index);
            let length = generator.between(0, 120);
            let mut shape = draw_shape(&mut generator, length, false);
            shape.style = Style::Locked;
            shape.open_at_most = 4;
            let log = build(shape, &mut generator);
            let answer = verdict(&log, &mut [0; ANSWER_BYTES]);
            assert!(matches!(answer, Answer::Serial(_)), "{answer:?}");
        }
    }
}
