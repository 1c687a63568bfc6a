//! The maker of logs: families of logs, each log fixed by seed and index.

use crate::damage::{damage, damage_near_end};
use crate::generator::Generator;
use crate::passing::{passing, passing_exact, passing_short};
use crate::record::{COMMIT, LOG_BYTES, READ, RECORDS, RECORD_BYTES, WRITE};
use crate::ring::ring;

/// The families of logs.
#[derive(Clone, Copy, Debug, PartialEq, Eq)]
pub enum Family {
    /// Histories that pass.
    Passing,
    /// Histories that pass and whose edges form a ring, closed or broken, of up
    /// to 64 transactions.
    Ring,
    /// Histories that passed, damaged in one to five places.
    Damaged,
    /// Records whose bytes come from small ranges, so that many pass 4 and 5.
    NearlyGood,
    /// Random bytes of a random length.
    RandomBytes,
    /// Lengths that are no multiple of 4, rarely 16,381 to 16,383 bytes.
    Uneven,
    /// More than 16,384 bytes: often 4,097 records or 16,385 to 16,387 bytes.
    TooLong,
    /// Exactly 4,096 records, passing or damaged near the end.
    Full,
}

/// Every family with its share of ten thousand logs of the mix.
pub const SHARES: [(Family, usize); 8] = [
    (Family::Passing, 4_200),
    (Family::Ring, 500),
    (Family::Damaged, 3_200),
    (Family::NearlyGood, 1_200),
    (Family::RandomBytes, 600),
    (Family::Uneven, 220),
    (Family::TooLong, 70),
    (Family::Full, 10),
];

/// The log of the mix for seed and index. Of 10,000 logs about 4,200 are
/// passing histories, 500 rings, 3,200 damaged histories, 1,200 nearly good
/// records, 600 random bytes, 220 of uneven length, 70 too long and 10 full.
pub fn make(seed: u64, index: u64) -> Vec<u8> {
    let mut generator = Generator::new(seed, index);
    let family = draw_family(&mut generator);
    make_with(family, &mut generator)
}

/// The family of the log that `make` gives.
pub fn family(seed: u64, index: u64) -> Family {
    draw_family(&mut Generator::new(seed, index))
}

/// The name of the family of the log that `make` gives.
pub fn family_name(seed: u64, index: u64) -> &'static str {
    name_of(family(seed, index))
}

/// A log of the family for seed and index, so that the rare ones, the full and
/// the too long, can be had in any number.
pub fn make_of(family: Family, seed: u64, index: u64) -> Vec<u8> {
    let mut generator = Generator::new(seed, index);
    make_with(family, &mut generator)
}

/// The name of a family.
pub fn name_of(family: Family) -> &'static str {
    match family {
        Family::Passing => "passing",
        Family::Ring => "ring",
        Family::Damaged => "damaged",
        Family::NearlyGood => "nearly good",
        Family::RandomBytes => "random bytes",
        Family::Uneven => "uneven",
        Family::TooLong => "too long",
        Family::Full => "full",
    }
}

/// Draws a family by the shares of the mix.
fn draw_family(generator: &mut Generator) -> Family {
    let mut ticket = generator.below(10_000);
    for (family, share) in SHARES {
        if ticket < share {
            return family;
        }
        ticket -= share;
    }
    // The shares sum to ten thousand, so no ticket comes this far.
    Family::Passing
}

/// A log of the family from the generator.
fn make_with(family: Family, generator: &mut Generator) -> Vec<u8> {
    match family {
        Family::Passing => passing(generator),
        Family::Ring => ring(generator),
        Family::Damaged => {
            let mut log = passing_short(generator);
            damage(generator, &mut log);
            log
        }
        Family::NearlyGood => nearly_good(generator),
        Family::RandomBytes => {
            let length = generator.below(120);
            random_bytes(generator, length)
        }
        Family::Uneven => uneven(generator),
        Family::TooLong => too_long(generator),
        Family::Full => full(generator),
    }
}

/// So many random bytes.
fn random_bytes(generator: &mut Generator, length: usize) -> Vec<u8> {
    let mut log = Vec::with_capacity(length);
    for _ in 0..length {
        log.push(generator.byte());
    }
    log
}

/// Random records from small ranges, often after writes of every copy, so that
/// reads find something, and often before commits of all, so that 9 is not
/// the answer to each.
fn nearly_good(generator: &mut Generator) -> Vec<u8> {
    let transactions = generator.between(1, 5);
    let items = generator.between(1, 2);
    let sites = generator.between(1, 3);
    let mut log = Vec::new();
    if generator.chance(70) {
        for item in 0..items {
            for site in 0..sites {
                log.extend([WRITE, 0, item as u8, site as u8]);
            }
        }
    }
    for _ in 0..generator.below(16) {
        let record = nearly_good_record(generator, [transactions, items, sites]);
        log.extend(record);
    }
    if generator.chance(70) {
        commit_the_open(transactions, &mut log);
    }
    log
}

/// A record whose bytes come from small ranges; rarely one just outside them.
fn nearly_good_record(
    generator: &mut Generator,
    [transactions, items, sites]: [usize; 3],
) -> [u8; 4] {
    let transaction = generator.below(transactions) as u8;
    let item = generator.below(items) as u8;
    let site = generator.below(sites) as u8;
    let mut record = match generator.below(16) {
        0 => [COMMIT, transaction, 0, 0],
        1..=8 => [READ, transaction, item, site],
        _ => [WRITE, transaction, item, site],
    };
    if generator.chance(3) {
        let field = generator.below(RECORD_BYTES);
        record[field] = generator.pick(&[0, 3, 4, 15, 16, 63, 64, 255]);
    }
    record
}

/// Adds the commits of those transactions that have none in the log.
fn commit_the_open(transactions: usize, log: &mut Vec<u8>) {
    for transaction in 0..transactions as u8 {
        let committed = log
            .chunks_exact(RECORD_BYTES)
            .any(|record| record[0] == COMMIT && record[1] == transaction);
        if !committed {
            log.extend([COMMIT, transaction, 0, 0]);
        }
    }
}

/// A passing history that lost or won one to three bytes; rarely a full one
/// that lost them.
fn uneven(generator: &mut Generator) -> Vec<u8> {
    let bytes = generator.between(1, 3);
    if generator.chance(5) {
        let mut log = passing_exact(generator, RECORDS);
        log.truncate(LOG_BYTES - bytes);
        return log;
    }
    let mut log = passing_short(generator);
    if generator.chance(50) && log.len() > bytes {
        log.truncate(log.len() - bytes);
    } else {
        log.extend(random_bytes(generator, bytes));
    }
    log
}

/// A log past the limit that often has nothing else against it.
fn too_long(generator: &mut Generator) -> Vec<u8> {
    match generator.below(4) {
        0 => passing_exact(generator, RECORDS + 1),
        1 | 2 => {
            let mut log = passing_exact(generator, RECORDS);
            let more = generator.between(1, 3);
            log.extend(random_bytes(generator, more));
            log
        }
        _ => {
            let length = generator.between(LOG_BYTES + 1, LOG_BYTES + 4_000);
            random_bytes(generator, length)
        }
    }
}

/// A log of exactly 4,096 records, every other one damaged near the end.
fn full(generator: &mut Generator) -> Vec<u8> {
    let mut log = passing_exact(generator, RECORDS);
    if generator.chance(50) {
        damage_near_end(generator, &mut log);
    }
    log
}
