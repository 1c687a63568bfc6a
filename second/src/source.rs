//! The source of a read, the question "source of record k" and what is printed
//! for it.

use crate::check::{check, Refusal};
use crate::record::{records, Record};

/// "The source of a read becomes two numbers: the transaction, and the place of
/// the write record."
///
/// Places are those of records: "Records are counted from 0."
#[derive(Clone, Copy, Debug, PartialEq, Eq)]
pub struct Source {
    pub transaction: u8,
    pub place: usize,
}

/// "The *source* of a read record is the transaction of the last earlier write
/// record on the same copy. It may be the reader itself."; "The source of a
/// read becomes two numbers: the transaction, and the place of the write
/// record."
///
/// None for a write, for a commit, and for a read of a copy that nothing
/// wrote, which no log that passes has.
pub fn source(records: &[Record], place: usize) -> Option<Source> {
    let read = records[place];
    if !read.is_read() {
        return None;
    }
    for (place, record) in records[..place].iter().enumerate().rev() {
        if record.is_write() && record.is_on_the_copy_of(read) {
            return Some(Source {
                transaction: record.transaction,
                place,
            });
        }
    }
    None
}

/// The sources of all records, in order.
pub fn sources(records: &[Record]) -> Vec<Option<Source>> {
    let mut sources = Vec::with_capacity(records.len());
    for place in 0..records.len() {
        sources.push(source(records, place));
    }
    sources
}

/// The answers to "source of record k" for every record of the log, checked
/// once.
pub fn sources_of_log(log: &[u8]) -> Result<Vec<Option<Source>>, Refusal> {
    check(log)?;
    Ok(sources(&records(log)))
}

/// "*Source of record k*: the source, or "none" for a write or commit. Both
/// apply the same log checks first."; "10: a question names a record at or
/// past the end, place 0"; "All that asks for a source changes, the question in
/// document 01 included"
pub fn source_of_record(log: &[u8], k: u64) -> Result<Option<Source>, Refusal> {
    check(log)?;
    let records = records(log);
    if k >= records.len() as u64 {
        return Err(Refusal {
            number: 10,
            place: 0,
        });
    }
    Ok(source(&records, k as usize))
}

/// What a command prints for the question: the transaction and the place on one
/// line, with a space between them; or `none`; or `refused number place`.
///
/// The line ends with a newline.
pub fn printed_source(log: &[u8], k: u64) -> String {
    match source_of_record(log, k) {
        Ok(Some(source)) => format!("{} {}\n", source.transaction, source.place),
        Ok(None) => "none\n".to_string(),
        Err(refusal) => refusal.printed(),
    }
}
