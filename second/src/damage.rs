//! Damage to logs: bytes changed, records dropped, doubled or exchanged, and
//! cuts.

use crate::generator::Generator;
use crate::record::RECORD_BYTES;

/// Values at and beside the limits of the format.
const EDGES: [u8; 12] = [0, 1, 2, 3, 4, 14, 15, 16, 62, 63, 64, 255];

/// Damages the log in one to five places.
pub fn damage(generator: &mut Generator, log: &mut Vec<u8>) {
    let times = generator.pick(&[1, 1, 1, 1, 2, 2, 3, 4, 5]);
    for _ in 0..times {
        damage_once(generator, log);
    }
}

/// Damages the log in one place.
pub fn damage_once(generator: &mut Generator, log: &mut Vec<u8>) {
    if log.len() < RECORD_BYTES {
        let byte = generator.pick(&EDGES);
        log.push(byte);
        return;
    }
    match generator.below(100) {
        0..=24 => change_byte(generator, log),
        25..=49 => borrow_byte(generator, log),
        50..=64 => drop_record(generator, log),
        65..=77 => double_record(generator, log),
        78..=94 => exchange_records(generator, log),
        _ => cut(generator, log),
    }
}

/// Damages one to four of the last records of the log, keeping its length.
pub fn damage_near_end(generator: &mut Generator, log: &mut [u8]) {
    let start = log.len() - (16 * RECORD_BYTES).min(log.len());
    let end = &mut log[start..];
    for _ in 0..generator.between(1, 4) {
        match generator.below(3) {
            0 => change_byte(generator, end),
            1 => borrow_byte(generator, end),
            _ => exchange_records(generator, end),
        }
    }
}

/// Changes any byte to a small value, a limit's neighbour, its own neighbour
/// or any value.
fn change_byte(generator: &mut Generator, log: &mut [u8]) {
    let place = generator.below(log.len());
    log[place] = match generator.below(5) {
        0 | 1 => generator.below(4) as u8,
        2 => generator.pick(&EDGES),
        3 => log[place].wrapping_add(generator.pick(&[1, 255])),
        _ => generator.byte(),
    };
}

/// Changes a field of a record to what the same field of another record holds,
/// so that most such records still pass 4 and 5. Transaction and site are the
/// fields that lead to 6 and 8.
fn borrow_byte(generator: &mut Generator, log: &mut [u8]) {
    let field = generator.pick(&[0, 1, 1, 2, 3, 3]);
    let from = any_record(generator, log) * RECORD_BYTES;
    let to = any_record(generator, log) * RECORD_BYTES;
    log[to + field] = log[from + field];
}

/// Takes a record out.
fn drop_record(generator: &mut Generator, log: &mut Vec<u8>) {
    let start = any_record(generator, log) * RECORD_BYTES;
    log.drain(start..start + RECORD_BYTES);
}

/// Puts a second one of a record before any record.
fn double_record(generator: &mut Generator, log: &mut Vec<u8>) {
    let from = any_record(generator, log) * RECORD_BYTES;
    let to = any_record(generator, log) * RECORD_BYTES;
    let record = log[from..from + RECORD_BYTES].to_vec();
    log.splice(to..to, record);
}

/// Exchanges two records, often neighbours.
fn exchange_records(generator: &mut Generator, log: &mut [u8]) {
    let one = any_record(generator, log);
    let neighbour = (one + 1) % (log.len() / RECORD_BYTES);
    let other = if generator.chance(50) {
        neighbour
    } else {
        any_record(generator, log)
    };
    for field in 0..RECORD_BYTES {
        log.swap(one * RECORD_BYTES + field, other * RECORD_BYTES + field);
    }
}

/// Cuts the log at any byte.
fn cut(generator: &mut Generator, log: &mut Vec<u8>) {
    let length = generator.below(log.len());
    log.truncate(length);
}

/// The place of any whole record; the log has one at least.
fn any_record(generator: &mut Generator, log: &[u8]) -> usize {
    generator.below(log.len() / RECORD_BYTES)
}
