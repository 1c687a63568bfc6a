//! The book's notation for histories, read into logs and written from them.
//!
//! Words are parted by blanks. Each word is one of:
//!
//! - `r1[xA]`, `w1[xA]`: a read or a write by transaction 1 of item x at site
//!   A. Items x, y, z are 0, 1, 2; sites A to P are 0 to 15.
//! - `r1[5,15]`, `w1[5,15]`: the same with item and site as numbers.
//! - `c1`: the commit of transaction 1.
//! - `(3,0,1,0)`: these bytes, one or more, as they are; for records that the
//!   other forms cannot write and for bytes that fill no record.
//!
//! All numbers go from 0 to 255, so that refused logs can be written as well.

use crate::record::{Record, COMMIT, READ, RECORD_BYTES, WRITE};

/// The log of a history, or the first word that is none of the forms.
pub fn parse(history: &str) -> Result<Vec<u8>, String> {
    let mut log = Vec::new();
    for word in history.split_whitespace() {
        match bytes_of_word(word) {
            Some(bytes) => log.extend(bytes),
            None => return Err(format!("not a word of the notation: {word}")),
        }
    }
    Ok(log)
}

/// The log of a history that is known to be well written.
pub fn log(history: &str) -> Vec<u8> {
    match parse(history) {
        Ok(log) => log,
        Err(message) => panic!("{message}"),
    }
}

/// The bytes that one word stands for.
fn bytes_of_word(word: &str) -> Option<Vec<u8>> {
    if let Some(rest) = word.strip_prefix('r') {
        operation(READ, rest)
    } else if let Some(rest) = word.strip_prefix('w') {
        operation(WRITE, rest)
    } else if let Some(rest) = word.strip_prefix('c') {
        Some(vec![COMMIT, number(rest)?, 0, 0])
    } else {
        let inside = word.strip_prefix('(')?.strip_suffix(')')?;
        inside.split(',').map(number).collect()
    }
}

/// The record of a read or a write, from the word after its first letter.
fn operation(kind: u8, rest: &str) -> Option<Vec<u8>> {
    let (transaction, copy) = rest.strip_suffix(']')?.split_once('[')?;
    let (item, site) = match copy.split_once(',') {
        Some((item, site)) => (number(item)?, number(site)?),
        None => lettered_copy(copy)?,
    };
    Some(vec![kind, number(transaction)?, item, site])
}

/// Item and site of a copy written as two letters.
fn lettered_copy(copy: &str) -> Option<(u8, u8)> {
    match copy.as_bytes() {
        [item @ b'x'..=b'z', site @ b'A'..=b'P'] => Some((item - b'x', site - b'A')),
        _ => None,
    }
}

/// A number of digits only: the standard reader would also take a sign.
fn number(digits: &str) -> Option<u8> {
    if !digits.bytes().all(|digit| digit.is_ascii_digit()) {
        return None;
    }
    digits.parse().ok()
}

/// Any log in the notation; `parse` gives its bytes back.
pub fn show(log: &[u8]) -> String {
    let mut words = Vec::new();
    for bytes in log.chunks(RECORD_BYTES) {
        words.push(word_of_bytes(bytes));
    }
    words.join(" ")
}

/// The word for the bytes of one record, or for the bytes left at the end.
fn word_of_bytes(bytes: &[u8]) -> String {
    match *bytes {
        [READ, transaction, item, site] => format!("r{transaction}[{}]", copy(item, site)),
        [WRITE, transaction, item, site] => format!("w{transaction}[{}]", copy(item, site)),
        [COMMIT, transaction, 0, 0] => format!("c{transaction}"),
        _ => {
            let numbers: Vec<String> = bytes.iter().map(u8::to_string).collect();
            format!("({})", numbers.join(","))
        }
    }
}

/// A copy in letters where there are letters for both parts, else in numbers.
fn copy(item: u8, site: u8) -> String {
    if item < 3 && site < 16 {
        format!("{}{}", char::from(b'x' + item), char::from(b'A' + site))
    } else {
        format!("{item},{site}")
    }
}

/// The log of the given records.
pub fn log_of_records(records: &[Record]) -> Vec<u8> {
    let mut log = Vec::with_capacity(records.len() * RECORD_BYTES);
    for record in records {
        log.extend(record.bytes());
    }
    log
}
