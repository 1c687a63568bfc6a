//! Every log of a few records over 2 transactions, 2 items and 2 sites.

use crate::record::{Record, COMMIT, READ, RECORD_BYTES, WRITE};

/// The longest logs that are wanted of this family, in records.
pub const LONGEST: usize = 5;

/// How many different records there are: 2 kinds × 2 transactions × 2 items ×
/// 2 sites, and 2 commits.
pub const ALPHABET: usize = 18;

/// The different records over 2 transactions, 2 items and 2 sites.
pub fn alphabet() -> [[u8; RECORD_BYTES]; ALPHABET] {
    let mut all = [[0; RECORD_BYTES]; ALPHABET];
    let mut count = 0;
    for transaction in 0..2 {
        for kind in [READ, WRITE] {
            for item in 0..2 {
                for site in 0..2 {
                    let record = Record {
                        kind,
                        transaction,
                        item,
                        site,
                    };
                    all[count] = record.bytes();
                    count += 1;
                }
            }
        }
        all[count] = [COMMIT, transaction, 0, 0];
        count += 1;
    }
    all
}

/// Hands every log of at most `longest` records to the callback, each once,
/// the shorter ones first. The log is the callback's only during the call.
pub fn for_each(longest: usize, mut callback: impl FnMut(&[u8])) {
    let alphabet = alphabet();
    let mut log = vec![0; longest * RECORD_BYTES];
    let mut choice = vec![0; longest];
    for count in 0..=longest {
        choice.fill(0);
        for place in 0..count {
            put(&mut log, place, alphabet[0]);
        }
        loop {
            callback(&log[..count * RECORD_BYTES]);
            if !advance(&alphabet, &mut choice[..count], &mut log) {
                break;
            }
        }
    }
}

/// Steps to the next log of the same length, as a counter steps to the next
/// number; says whether there was one.
fn advance(
    alphabet: &[[u8; RECORD_BYTES]; ALPHABET],
    choice: &mut [usize],
    log: &mut [u8],
) -> bool {
    for place in (0..choice.len()).rev() {
        choice[place] = (choice[place] + 1) % ALPHABET;
        put(log, place, alphabet[choice[place]]);
        if choice[place] != 0 {
            return true;
        }
    }
    false
}

/// Writes a record at a place of the log.
fn put(log: &mut [u8], place: usize, record: [u8; RECORD_BYTES]) {
    let start = place * RECORD_BYTES;
    log[start..start + RECORD_BYTES].copy_from_slice(&record);
}

/// How many logs `for_each` hands out: 18^0 + 18^1 + ... + 18^longest.
pub fn count(longest: usize) -> u64 {
    let mut sum = 0;
    for records in 0..=longest {
        sum += (ALPHABET as u64).pow(records as u32);
    }
    sum
}
