//! The refusals of a log: numbers 1, 2 and 4 to 9 of the table.

use crate::record::{
    records, Record, COMMIT, ITEMS, LOG_BYTES, READ, RECORD_BYTES, SITES, TRANSACTIONS, WRITE,
};

/// "a refusal has its own kind and place"
#[derive(Clone, Copy, Debug, PartialEq, Eq)]
pub struct Refusal {
    pub number: u32,
    pub place: usize,
}

impl Refusal {
    /// "`refused number place`"
    ///
    /// The line that is printed for the refusal, with a newline at its end.
    pub fn printed(self) -> String {
        format!("refused {} {}\n", self.number, self.place)
    }
}

/// "1 to 3 come first, in that order. Then records are taken from the first;
/// at each, 4 to 8 are tried in order, and the first that applies is the
/// answer. 9 comes after all records"
///
/// Without 3, which belongs to the verdict, and 10, which belongs to the two
/// questions.
pub fn check(log: &[u8]) -> Result<(), Refusal> {
    check_length(log)?;
    check_records(&records(log))
}

/// "1: log longer than 16,384 bytes, place 0. 2: length not a multiple of 4,
/// place 0."
pub fn check_length(log: &[u8]) -> Result<(), Refusal> {
    if log.len() > LOG_BYTES {
        return Err(Refusal {
            number: 1,
            place: 0,
        });
    }
    if log.len() % RECORD_BYTES != 0 {
        return Err(Refusal {
            number: 2,
            place: 0,
        });
    }
    Ok(())
}

/// "Then records are taken from the first; at each, 4 to 8 are tried in order,
/// and the first that applies is the answer. 9 comes after all records"
pub fn check_records(records: &[Record]) -> Result<(), Refusal> {
    for place in 0..records.len() {
        if let Some(number) = refusal_at(records, place) {
            return Err(Refusal { number, place });
        }
    }
    match first_record_without_commit(records) {
        Some(place) => Err(Refusal { number: 9, place }),
        None => Ok(()),
    }
}

/// "at each, 4 to 8 are tried in order, and the first that applies is the
/// answer"
fn refusal_at(records: &[Record], place: usize) -> Option<u32> {
    let record = records[place];
    let earlier = &records[..place];
    if kind_is_unknown(record) {
        Some(4)
    } else if number_is_outside_its_range(record) {
        Some(5)
    } else if has_committed(earlier, record.transaction) {
        Some(6)
    } else if reads_an_unwritten_copy(earlier, record) {
        Some(7)
    } else if reads_beside_its_own_write(earlier, record) {
        Some(8)
    } else {
        None
    }
}

/// "4: kind not 1, 2 or 3"
fn kind_is_unknown(record: Record) -> bool {
    record.kind != READ && record.kind != WRITE && record.kind != COMMIT
}

/// "5: a number outside its range for that kind"; "Each kind of record has its
/// own allowed ranges: a commit has item 0 and site 0."
fn number_is_outside_its_range(record: Record) -> bool {
    if record.transaction >= TRANSACTIONS {
        return true;
    }
    if record.is_commit() {
        record.item != 0 || record.site != 0
    } else {
        record.item >= ITEMS || record.site >= SITES
    }
}

/// "6: the transaction has committed earlier"
fn has_committed(earlier: &[Record], transaction: u8) -> bool {
    for record in earlier {
        if record.is_commit() && record.transaction == transaction {
            return true;
        }
    }
    false
}

/// "7: read of a copy that no earlier record writes"
fn reads_an_unwritten_copy(earlier: &[Record], read: Record) -> bool {
    if !read.is_read() {
        return false;
    }
    for record in earlier {
        if record.is_write() && record.is_on_the_copy_of(read) {
            return false;
        }
    }
    true
}

/// "8: read of an item that this transaction wrote earlier, at a site where it
/// did not write that item earlier"
fn reads_beside_its_own_write(earlier: &[Record], read: Record) -> bool {
    if !read.is_read() {
        return false;
    }
    let mut wrote_the_item = false;
    let mut wrote_it_at_the_site = false;
    for record in earlier {
        if record.is_write() && record.transaction == read.transaction && record.item == read.item {
            wrote_the_item = true;
            if record.site == read.site {
                wrote_it_at_the_site = true;
            }
        }
    }
    wrote_the_item && !wrote_it_at_the_site
}

/// "9: a transaction in the log has no commit; place: first record of the
/// lowest-numbered such transaction"
fn first_record_without_commit(records: &[Record]) -> Option<usize> {
    for transaction in 0..TRANSACTIONS {
        if let Some(place) = first_record_of(records, transaction) {
            if !has_committed(records, transaction) {
                return Some(place);
            }
        }
    }
    None
}

/// "A transaction is *in the log* if a record names it."
///
/// The place of the first record that does, or none.
pub fn first_record_of(records: &[Record], transaction: u8) -> Option<usize> {
    for (place, record) in records.iter().enumerate() {
        if record.transaction == transaction {
            return Some(place);
        }
    }
    None
}
