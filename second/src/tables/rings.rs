//! Tables whose edges link members in rings, with tails that lead into the
//! rings and out of them.

use crate::generator::Generator;
use crate::record::TRANSACTIONS;
use crate::tables::parts::draw_so_many_members;
use crate::tables::Table;

/// A table of so many rings, at most 32, and of tails where there is room for
/// them: a ring may have all 64 transactions.
pub fn rings(generator: &mut Generator, count: usize) -> Table {
    let lengths: Vec<usize> = (0..count).map(|_| draw_length(generator, count)).collect();
    let in_rings: usize = lengths.iter().sum();
    let tails = draw_tails(generator, usize::from(TRANSACTIONS) - in_rings);
    let members = draw_so_many_members(generator, in_rings + tails);
    let mut table = Table::without_edges(&members);
    let (ringed, tails) = members.split_at(in_rings);
    let mut rest = ringed;
    for length in lengths {
        let (ring, others) = rest.split_at(length);
        add_ring(ring, &mut table);
        if !others.is_empty() {
            add_links(generator, [ring, others], &mut table);
        }
        rest = others;
    }
    add_tails(generator, [ringed, tails], &mut table);
    if generator.chance(30) {
        add_chords(generator, ringed, &mut table);
    }
    table
}

/// Draws the length of one of so many rings: mostly short, at times all that
/// fits.
fn draw_length(generator: &mut Generator, rings: usize) -> usize {
    let longest = usize::from(TRANSACTIONS) / rings;
    match generator.below(20) {
        0..=10 => generator.between(2, longest.min(6)),
        11..=18 => generator.between(2, longest),
        _ => longest,
    }
}

/// Draws how many members are in tails: at least one where there is room.
fn draw_tails(generator: &mut Generator, room: usize) -> usize {
    match room {
        0 => 0,
        _ if generator.chance(80) => generator.between(1, room.min(8)),
        _ => generator.between(1, room),
    }
}

/// An edge from each member to the next, and from the last to the first.
fn add_ring(ring: &[u8], table: &mut Table) {
    for (&here, &next) in ring.iter().zip(ring.iter().cycle().skip(1)) {
        table.add_edge(here, next);
    }
}

/// Up to two edges from the ring to the rings that come after it. None leads
/// back, so that no cycle goes through two rings.
fn add_links(generator: &mut Generator, [ring, later]: [&[u8]; 2], table: &mut Table) {
    for _ in 0..generator.below(3) {
        table.add_edge(generator.pick(ring), generator.pick(later));
    }
}

/// Puts each of the tails' members before a ring or after it; a few stay
/// without an edge. A tail mostly grows at its end, so that there are long
/// ones, and else begins at any member of a ring.
fn add_tails(generator: &mut Generator, [ringed, tails]: [&[u8]; 2], table: &mut Table) {
    let mut end_before = generator.pick(ringed);
    let mut end_after = generator.pick(ringed);
    for &member in tails {
        let begins = generator.chance(20);
        match generator.below(20) {
            0 => {}
            1..=7 => {
                if begins {
                    end_before = generator.pick(ringed);
                }
                table.add_edge(member, end_before);
                end_before = member;
            }
            _ => {
                if begins {
                    end_after = generator.pick(ringed);
                }
                table.add_edge(end_after, member);
                end_after = member;
            }
        }
    }
}

/// A few more edges between any members of the rings: they give a member more
/// predecessors than one, and some join two rings.
fn add_chords(generator: &mut Generator, ringed: &[u8], table: &mut Table) {
    for _ in 0..generator.between(1, 4) {
        let (from, to) = (generator.pick(ringed), generator.pick(ringed));
        if from != to {
            table.add_edge(from, to);
        }
    }
}

#[cfg(test)]
mod tests {
    use super::*;
    use crate::sort::Sorted;

    #[test]
    fn tails_and_links_close_no_ring() {
        let mut generator = Generator::new(21, 0);
        for _ in 0..300 {
            let members = draw_so_many_members(&mut generator, 30);
            let mut table = Table::without_edges(&members);
            let (ring, others) = members.split_at(5);
            add_ring(ring, &mut table);
            let (later, tails) = others.split_at(10);
            add_links(&mut generator, [ring, later], &mut table);
            add_tails(&mut generator, [ring, tails], &mut table);
            match table.sorted() {
                Sorted::Line(_) => panic!("the ring is closed"),
                Sorted::Cycle(cycle) => {
                    assert_eq!(cycle.len(), ring.len());
                    assert!(cycle.iter().all(|member| ring.contains(member)));
                }
            }
        }
    }
}
