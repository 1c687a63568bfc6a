//! The first pass: the checks, the sources and the conflicts.

use super::sets::{bit, lowest, Rows, ROWS};
use second::check::Refusal;
use second::record::{COMMIT, READ, RECORDS, RECORD_BYTES, SITES, WRITE};

const SITE_COUNT: usize = SITES as usize;
const COPIES: usize = ROWS * SITE_COUNT;

/// A read or a write whose numbers are in their ranges has, plus 1, this of these bits: 1 and 2, plus 1, differ in the lowest alone.
const IN_RANGE: u32 = 2;
const RANGE_BITS: u32 = 0xF0C0_C0FE;

/// The bits of a commit that may be any.
const OF_TRANSACTION: u32 = 0x0000_3F00;

/// What the records fill.
pub struct Tables {
    /// For each copy those that read it, and then those that wrote it: a read and a write go the same way, to one of two entries side
    /// by side, since no processor knows beforehand which comes. The entries are there once a record is on the item.
    touched: Rows<u64, { 2 * COPIES }>,
    /// The last of each.
    last: Rows<u8, { 2 * COPIES }>,
    /// For each item those that write it.
    pub writers: Rows<u64, ROWS>,
    /// For each transaction those that have a conflict edge to it; it may be among them itself.
    pub conflicts: Rows<u64, ROWS>,
    /// The items that a record is on, as a set and with a byte for each, which is looked up sooner.
    pub items: u64,
    met: [bool; ROWS],
    /// The transactions in the order of their commits, and how many there are.
    pub order: Rows<u8, ROWS>,
    commits: usize,
    /// The reads, as records with the transaction of the source in place of the kind.
    pub reads: Rows<u32, RECORDS>,
}

impl Tables {
    #[inline(always)]
    pub fn new() -> Tables {
        Tables {
            touched: Rows::new(),
            last: Rows::new(),
            writers: Rows::cleared(),
            conflicts: Rows::cleared(),
            items: 0,
            met: [false; ROWS],
            order: Rows::new(),
            commits: 0,
            reads: Rows::new(),
        }
    }

    /// Clears the entries of the copies of an item, which is below 64.
    #[inline(always)]
    unsafe fn meet(&mut self, item: usize) {
        self.items |= bit(item);
        *self.met.get_unchecked_mut(item) = true;
        for place in 2 * SITE_COUNT * item..2 * SITE_COUNT * (item + 1) {
            self.touched.put(place, 0);
            self.last.put(place, 0);
        }
    }
}

/// What the records so far come to beside the tables.
pub struct Pass {
    pub members: u64,
    committed: u64,
    pub reads: usize,
}

/// Reads the records into the tables, or says for what the first is refused that is. There are at most 4,096.
#[inline(always)]
pub fn read(log: &[u8], tables: &mut Tables) -> Result<Pass, Refusal> {
    let mut pass = Pass {
        members: 0,
        committed: 0,
        reads: 0,
    };
    for place in 0..log.len() / RECORD_BYTES {
        // SAFETY: the log has so many records of 4 bytes; and a read, a write and a commit are only taken with numbers in their ranges.
        let number = unsafe {
            let record = log.as_ptr().cast::<u32>().add(place).read_unaligned();
            let record = u32::from_le(record);
            if record.wrapping_add(1) & RANGE_BITS == IN_RANGE {
                pass.read_or_write(record, tables)
            } else if record & !OF_TRANSACTION == u32::from(COMMIT) {
                pass.commit(record, tables)
            } else {
                malformed(record)
            }
        };
        if number != 0 {
            return Err(Refusal { number, place });
        }
    }
    if pass.members != pass.committed {
        return Err(without_commit(log, pass.members & !pass.committed));
    }
    Ok(pass)
}

impl Pass {
    /// Takes a read or a write, and gives the number that it is refused for, or 0.
    #[inline(always)]
    unsafe fn read_or_write(&mut self, record: u32, tables: &mut Tables) -> u32 {
        let is_write = (record >> 1 & 1) as usize;
        let transaction = (record >> 8 & 255) as usize;
        let item = (record >> 16 & 255) as usize;
        let copy = 2 * (SITE_COUNT * item + (record >> 24) as usize);
        let who = bit(transaction);
        if !tables.met.get_unchecked(item) {
            tables.meet(item);
        }
        // To a write nothing is unreadable: for it, all have written the copy.
        let to_write = 0u64.wrapping_sub(is_write as u64);
        let writers = tables.touched.at(copy | 1);
        let readable = writers | to_write;
        let beside_own = tables.writers.at(item) & who & !readable;
        if readable == 0 || (beside_own | (self.committed & who)) != 0 {
            return out_of_turn(self.committed & who != 0, writers != 0);
        }
        // A write also comes after the readers; a read, by the same step, after the writers once more.
        let entry = copy | is_write;
        tables
            .conflicts
            .add(transaction, writers | tables.touched.at(entry ^ 1));
        tables.touched.add(entry, who);
        tables.writers.add(item, who & to_write);
        let source = u32::from(tables.last.at(copy | 1));
        tables.last.put(entry, transaction as u8);
        tables.reads.put(self.reads, record & !255 | source);
        self.reads += 1 - is_write;
        self.members |= who;
        0
    }

    /// Takes a commit, and gives the number that it is refused for, or 0.
    #[inline(always)]
    unsafe fn commit(&mut self, record: u32, tables: &mut Tables) -> u32 {
        let transaction = (record >> 8) as usize;
        let who = bit(transaction);
        if self.committed & who != 0 {
            return 6;
        }
        self.members |= who;
        self.committed |= who;
        tables.order.put(tables.commits, transaction as u8);
        tables.commits += 1;
        0
    }
}

/// The number of a record that has an unknown kind, or a number outside its range.
#[cold]
fn malformed(record: u32) -> u32 {
    if [READ, WRITE, COMMIT].contains(&(record as u8)) {
        5
    } else {
        4
    }
}

/// The number of a read or a write that is refused for what stands before it.
#[cold]
fn out_of_turn(has_committed: bool, is_written: bool) -> u32 {
    match (has_committed, is_written) {
        (true, _) => 6,
        (false, false) => 7,
        (false, true) => 8,
    }
}

/// The refusal for the lowest-numbered of those without a commit.
#[cold]
fn without_commit(log: &[u8], open: u64) -> Refusal {
    let mut records = log.chunks_exact(RECORD_BYTES);
    let is_of_it = |record: &[u8]| usize::from(record[1]) == lowest(open);
    Refusal {
        number: 9,
        place: records.position(is_of_it).unwrap_or_default(),
    }
}
