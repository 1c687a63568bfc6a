//! Histories that pass and whose edges link transactions in a ring, for long
//! cycles and long lines with all three reasons.

use crate::generator::Generator;
use crate::notation::log_of_records;
use crate::record::{record, Record, COMMIT, ITEMS, READ, SITES, TRANSACTIONS, WRITE};

/// How one member of the ring has an edge to the next.
#[derive(Clone, Copy, Debug, PartialEq, Eq)]
enum Link {
    /// Reason 1: two records of these kinds on one copy.
    Conflict(u8, u8),
    /// Reason 2 alone: writes of one item at two sites.
    WriteOrder,
    /// Reason 3 alone: a read at one site, a write at another.
    ReadBefore,
    /// No edge.
    Missing,
}

/// The links that fit between neighbours whose commits stand in order; the
/// first three need no base.
const INNER: [Link; 5] = [
    Link::Conflict(WRITE, READ),
    Link::Conflict(WRITE, WRITE),
    Link::WriteOrder,
    Link::Conflict(READ, WRITE),
    Link::ReadBefore,
];

/// The links that fit from the last member back to the first, whose commit
/// stands earlier: two writes would give the ring a chord. The first one needs
/// no base.
const CLOSING: [Link; 3] = [
    Link::Conflict(WRITE, READ),
    Link::Conflict(READ, WRITE),
    Link::ReadBefore,
];

/// The parts that a ring is built from. Each link has an item of its own, and
/// each transaction touches an item once, so that 8 never applies.
struct Ring {
    members: Vec<u8>,
    /// Writes every copy before all others and commits, so that 7 never
    /// applies. Without a base every read follows the write of its link.
    base: Option<u8>,
    items: Vec<u8>,
    sites: [u8; 2],
    links: Vec<Link>,
}

/// A passing log whose edges form a ring of 2 to 64 transactions, mostly
/// closed, sometimes broken.
pub fn ring(generator: &mut Generator) -> Vec<u8> {
    let ring = draw_ring(generator);
    log_of_records(&records_of(&ring, generator))
}

/// Draws the parts of a ring.
fn draw_ring(generator: &mut Generator) -> Ring {
    let has_base = generator.chance(80);
    let largest = usize::from(TRANSACTIONS) - usize::from(has_base);
    let count = match generator.below(100) {
        0..=74 => generator.between(2, 8),
        75..=94 => generator.between(9, largest),
        _ => largest,
    };
    let mut members = generator.labels(count + usize::from(has_base), TRANSACTIONS);
    generator.shuffle(&mut members);
    let base = if has_base { members.pop() } else { None };
    let sites = generator.labels(2, SITES);
    Ring {
        members,
        base,
        items: generator.labels(count, ITEMS),
        sites: [sites[0], sites[1]],
        links: draw_links(generator, count, has_base),
    }
}

/// Draws the links of so many members, sometimes with one missing.
fn draw_links(generator: &mut Generator, count: usize, has_base: bool) -> Vec<Link> {
    let (inner, closing) = if has_base {
        (&INNER[..], &CLOSING[..])
    } else {
        (&INNER[..3], &CLOSING[..1])
    };
    let mut links: Vec<Link> = (1..count).map(|_| generator.pick(inner)).collect();
    links.push(generator.pick(closing));
    if generator.chance(40) {
        let broken = generator.below(count);
        links[broken] = Link::Missing;
    }
    links
}

/// The records of the ring: the base, two rounds of reads and writes, each in
/// a random order, and the commits in the order of the ring.
fn records_of(ring: &Ring, generator: &mut Generator) -> Vec<Record> {
    let mut records = records_of_base(ring);
    let (mut first, mut second) = (Vec::new(), Vec::new());
    for k in 0..ring.members.len() {
        if let Some((from, to)) = records_of_link(ring, k) {
            let either_way = !matches!(ring.links[k], Link::Conflict(..));
            if either_way && generator.chance(50) {
                first.push(to);
                second.push(from);
            } else {
                first.push(from);
                second.push(to);
            }
        }
    }
    generator.shuffle(&mut first);
    generator.shuffle(&mut second);
    records.extend(first);
    records.extend(second);
    for &member in &ring.members {
        records.push(record(COMMIT, member, 0, 0));
    }
    records
}

/// The writes of every copy by the base, if there is one, and its commit.
fn records_of_base(ring: &Ring) -> Vec<Record> {
    let mut records = Vec::new();
    if let Some(base) = ring.base {
        for &item in &ring.items {
            for site in ring.sites {
                records.push(record(WRITE, base, item, site));
            }
        }
        records.push(record(COMMIT, base, 0, 0));
    }
    records
}

/// The record of member k and that of the next member which make the edge.
fn records_of_link(ring: &Ring, k: usize) -> Option<(Record, Record)> {
    let from = ring.members[k];
    let to = ring.members[(k + 1) % ring.members.len()];
    let item = ring.items[k];
    let [here, there] = ring.sites;
    match ring.links[k] {
        Link::Conflict(one, other) => {
            Some((record(one, from, item, here), record(other, to, item, here)))
        }
        Link::WriteOrder => Some((
            record(WRITE, from, item, here),
            record(WRITE, to, item, there),
        )),
        Link::ReadBefore => Some((
            record(READ, from, item, here),
            record(WRITE, to, item, there),
        )),
        Link::Missing => None,
    }
}

#[cfg(test)]
mod tests {
    use super::*;
    use crate::record::ANSWER_BYTES;
    use crate::verdict::{verdict, Answer};

    /// A closed ring is a cycle of all its members, a broken one a line of
    /// them and the base, if there is one.
    #[test]
    fn rings_are_cycles_and_broken_rings_lines() {
        for index in 0..2_000 {
            let mut generator = Generator::new(12, index);
            let ring = draw_ring(&mut generator);
            let log = log_of_records(&records_of(&ring, &mut generator));
            let expected = if ring.links.contains(&Link::Missing) {
                Answer::Serial(ring.members.len() + usize::from(ring.base.is_some()))
            } else {
                Answer::Cycle(ring.members.len())
            };
            assert_eq!(verdict(&log, &mut [0; ANSWER_BYTES]), expected);
        }
    }
}
