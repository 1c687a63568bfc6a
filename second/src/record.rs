//! The log format: records of 4 bytes, their limits and the copies they name.

/// "There are at most 64 transactions (0 to 63)"
pub const TRANSACTIONS: u8 = 64;

/// "64 items (0 to 63)"
pub const ITEMS: u8 = 64;

/// "16 sites (0 to 15)"
pub const SITES: u8 = 16;

/// "and 4,096 records."
pub const RECORDS: usize = 4_096;

/// "A log is a run of records of 4 bytes, without a header"
pub const RECORD_BYTES: usize = 4;

/// "log longer than 16,384 bytes"
pub const LOG_BYTES: usize = 16_384;

/// "answer buffer shorter than 128 bytes"
pub const ANSWER_BYTES: usize = 128;

/// "Kinds: 1 read, 2 write, 3 commit."
pub const READ: u8 = 1;
/// "Kinds: 1 read, 2 write, 3 commit."
pub const WRITE: u8 = 2;
/// "Kinds: 1 read, 2 write, 3 commit."
pub const COMMIT: u8 = 3;

/// "A log is a run of records of 4 bytes, without a header: kind,
/// transaction, item, site."
///
/// The fields are the bytes as they stand, inside their ranges or not.
#[derive(Clone, Copy, Debug, PartialEq, Eq)]
pub struct Record {
    pub kind: u8,
    pub transaction: u8,
    pub item: u8,
    pub site: u8,
}

/// The record with these fields.
pub fn record(kind: u8, transaction: u8, item: u8, site: u8) -> Record {
    Record {
        kind,
        transaction,
        item,
        site,
    }
}

impl Record {
    /// The record is a read.
    pub fn is_read(self) -> bool {
        self.kind == READ
    }

    /// The record is a write.
    pub fn is_write(self) -> bool {
        self.kind == WRITE
    }

    /// The record is a commit.
    pub fn is_commit(self) -> bool {
        self.kind == COMMIT
    }

    /// The record is a read or a write. Only these are on a copy: the zeros
    /// that a commit has for item and site name none.
    pub fn is_on_a_copy(self) -> bool {
        self.is_read() || self.is_write()
    }

    /// "A copy is an item at a site; its copy number is item × 16 + site."
    pub fn copy_number(self) -> u16 {
        u16::from(self.item) * u16::from(SITES) + u16::from(self.site)
    }

    /// The two records are "both on the same copy".
    pub fn is_on_the_copy_of(self, other: Record) -> bool {
        self.is_on_a_copy() && other.is_on_a_copy() && self.copy_number() == other.copy_number()
    }

    /// The four bytes of the record.
    pub fn bytes(self) -> [u8; RECORD_BYTES] {
        [self.kind, self.transaction, self.item, self.site]
    }
}

/// "Records are counted from 0."
///
/// The records of a log in order. Bytes at the end that fill no record are
/// left out; such a log is refused before its records matter.
pub fn records(log: &[u8]) -> Vec<Record> {
    let mut records = Vec::with_capacity(log.len() / RECORD_BYTES);
    for bytes in log.chunks_exact(RECORD_BYTES) {
        records.push(Record {
            kind: bytes[0],
            transaction: bytes[1],
            item: bytes[2],
            site: bytes[3],
        });
    }
    records
}
