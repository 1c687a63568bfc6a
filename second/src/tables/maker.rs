//! The maker of tables: families of tables, each table fixed by seed and index.

use crate::generator::Generator;
use crate::tables::parts::{add_ignored, bits, draw_density, draw_members};
use crate::tables::rings::rings;
use crate::tables::{bit, set_of, Table};

/// The families of tables.
#[derive(Clone, Copy, Debug, PartialEq, Eq)]
pub enum Family {
    /// Any edges between the members.
    Random,
    /// Edges along a line of the members only, so that no cycle is there.
    AlongALine,
    /// Each member has an edge to the next lower one, now and then a link is
    /// missing: the line is found from its far end.
    FallingChain,
    /// A ring of some members; the others are tails that lead into it or out
    /// of it, so that the walk often starts outside the ring.
    Ring,
    /// Several rings, with edges from one to another, and tails.
    Rings,
}

/// Every family with its share of a hundred tables of the mix.
pub const SHARES: [(Family, usize); 5] = [
    (Family::Random, 40),
    (Family::AlongALine, 30),
    (Family::FallingChain, 6),
    (Family::Ring, 14),
    (Family::Rings, 10),
];

/// The table of the mix for seed and index, and its family.
pub fn make(seed: u64, index: u64) -> (Family, Table) {
    let mut generator = Generator::new(seed, index);
    let family = draw_family(&mut generator);
    (family, make_with(family, &mut generator))
}

/// A table of the family for seed and index.
pub fn make_of(family: Family, seed: u64, index: u64) -> Table {
    make_with(family, &mut Generator::new(seed, index))
}

/// Draws a family by the shares of the mix.
fn draw_family(generator: &mut Generator) -> Family {
    let mut ticket = generator.below(100);
    for (family, share) in SHARES {
        if ticket < share {
            return family;
        }
        ticket -= share;
    }
    // The shares sum to a hundred, so no ticket comes this far.
    Family::Random
}

/// A table of the family from the generator.
fn make_with(family: Family, generator: &mut Generator) -> Table {
    let mut table = match family {
        Family::Random => random(generator),
        Family::AlongALine => along_a_line(generator),
        Family::FallingChain => falling_chain(generator),
        Family::Ring => rings(generator, 1),
        Family::Rings => {
            let count = generator.between(2, 6);
            rings(generator, count)
        }
    };
    add_ignored(generator, &mut table);
    table
}

/// Any edges between the members.
fn random(generator: &mut Generator) -> Table {
    let members = draw_members(generator);
    let density = draw_density(generator, members.len());
    let mut table = Table::without_edges(&members);
    for &member in &members {
        let others = table.set & !bit(member);
        table.rows[usize::from(member)] = bits(generator, density) & others;
    }
    table
}

/// Edges from members to later ones of a line only.
fn along_a_line(generator: &mut Generator) -> Table {
    let line = draw_members(generator);
    let density = draw_density(generator, line.len());
    let mut table = Table::without_edges(&line);
    for (place, &member) in line.iter().enumerate() {
        let later = set_of(&line[place + 1..]);
        table.rows[usize::from(member)] = bits(generator, density) & later;
    }
    table
}

/// Each member has an edge to the next lower one. In every other chain some
/// more edges go down, and in some a few links are missing.
fn falling_chain(generator: &mut Generator) -> Table {
    let mut chain = draw_members(generator);
    chain.sort_unstable();
    chain.reverse();
    let density = if generator.chance(50) {
        0
    } else {
        draw_density(generator, chain.len())
    };
    let missing = generator.pick(&[0, 0, 0, 5]);
    let mut table = Table::without_edges(&chain);
    for place in 1..chain.len() {
        if !generator.chance(missing) {
            table.add_edge(chain[place - 1], chain[place]);
        }
        let lower = set_of(&chain[place..]);
        table.rows[usize::from(chain[place - 1])] |= bits(generator, density) & lower;
    }
    table
}
