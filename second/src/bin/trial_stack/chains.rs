//! Logs with a cycle, or a line, of any wanted length, in few records.

use second::generator::Generator;
use second::notation::log_of_records;
use second::record::{record, Record, COMMIT, ITEMS, READ, SITES, TRANSACTIONS, WRITE};

/// What gives the edge from the last member of a chain back to its first.
#[derive(Clone, Copy, PartialEq, Eq)]
enum Closing {
    Conflict,
    WriteOrder,
    /// Takes one transaction more, which is in the log and not in the cycle.
    ReadBefore,
}

/// So many different transactions, the lowest first.
fn members(count: usize, generator: &mut Generator) -> Vec<u8> {
    let mut members = generator.labels(count, TRANSACTIONS);
    members.sort_unstable();
    members
}

/// A log whose answer is a cycle of n transactions, n from 2 to 64.
///
/// One item goes through all members, from the highest to the lowest: each
/// writes it, or reads what the one before wrote. So every member has edges to
/// all writers below it, and the lowest predecessor of each is its neighbour:
/// the walk back from the lowest meets them all. The only edge upward is the
/// closing one, from the lowest to the highest, by another item.
pub fn cycle(n: usize, generator: &mut Generator) -> Vec<u8> {
    let closing = match n % 3 {
        0 => Closing::ReadBefore,
        1 => Closing::Conflict,
        _ => Closing::WriteOrder,
    };
    let mut members = members(n + usize::from(closing == Closing::ReadBefore), generator);
    let mut base = 0;
    if closing == Closing::ReadBefore {
        let place = generator.below(members.len());
        base = members.remove(place);
    }
    let items = generator.labels(2, ITEMS);
    let mut records = close(closing, [members[0], members[n - 1]], base, items[0]);
    records.extend(chain(&members, closing, items[1], generator));
    // The write order of the chain is its own; the lowest member is no writer
    // of it where its commit has to be the first.
    let mut commits: Vec<u8> = members.iter().rev().copied().collect();
    if closing == Closing::WriteOrder {
        commits.rotate_right(1);
    }
    for member in commits {
        records.push(record(COMMIT, member, 0, 0));
    }
    log_of_records(&records)
}

/// The records that give the edge from the lowest member to the highest.
fn close(closing: Closing, [lowest, highest]: [u8; 2], base: u8, item: u8) -> Vec<Record> {
    match closing {
        Closing::Conflict => vec![
            record(WRITE, lowest, item, 0),
            record(WRITE, highest, item, 0),
        ],
        Closing::WriteOrder => vec![
            record(WRITE, highest, item, 3),
            record(WRITE, lowest, item, 2),
        ],
        Closing::ReadBefore => vec![
            record(WRITE, base, item, 15),
            record(COMMIT, base, 0, 0),
            record(WRITE, highest, item, 7),
            record(READ, lowest, item, 15),
        ],
    }
}

/// A record of each member on the item, from the highest to the lowest: a write
/// at any of four sites, or a read of what the one before wrote.
fn chain(members: &[u8], closing: Closing, item: u8, generator: &mut Generator) -> Vec<Record> {
    let mut records: Vec<Record> = Vec::new();
    for (k, &member) in members.iter().enumerate().rev() {
        let reads = match (k, closing) {
            (0, Closing::WriteOrder) => true,
            (1, Closing::WriteOrder) => false,
            _ => generator.chance(40),
        };
        let next = match records.last() {
            Some(before) if before.is_write() && reads => record(READ, member, item, before.site),
            _ => record(WRITE, member, item, generator.below(4) as u8),
        };
        records.push(next);
    }
    records
}

/// A log whose answer is a line of n transactions, n from 1 to 64: commits in
/// any order, and before them some edges, for each of the reasons if there are
/// members enough, that all go along that order.
pub fn line(n: usize, generator: &mut Generator) -> Vec<u8> {
    let mut order = members(n, generator);
    generator.shuffle(&mut order);
    let items = generator.labels(2, ITEMS);
    let mut records = Vec::new();
    if n >= 2 {
        let site = generator.below(usize::from(SITES)) as u8;
        let (one, other) = (generator.below(n - 1), n - 1);
        records.push(record(WRITE, order[one], items[0], site));
        records.push(record(
            generator.pick(&[READ, WRITE]),
            order[other],
            items[0],
            site,
        ));
    }
    if n >= 3 {
        let first = generator.below(n - 2);
        let second = generator.between(first + 1, n - 2);
        let third = generator.between(second + 1, n - 1);
        records.push(record(WRITE, order[first], items[1], 0));
        records.push(record(WRITE, order[third], items[1], 1));
        records.push(record(READ, order[second], items[1], 0));
    }
    for member in order {
        records.push(record(COMMIT, member, 0, 0));
    }
    log_of_records(&records)
}
