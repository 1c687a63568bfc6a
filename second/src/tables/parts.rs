//! What the makers of tables draw: members, how many edges there are, and edges
//! that a sort ignores.

use crate::generator::Generator;
use crate::record::TRANSACTIONS;
use crate::tables::{bit, Table};

/// The density at which there is every edge: a density of d stands for an edge
/// in d of so many cases.
const ALL: usize = 1_024;

/// The members of a set of any size, in an order that a table may follow.
/// Small sets come more often: they have room for every case of a few members,
/// and large ones take long to sort.
pub fn draw_members(generator: &mut Generator) -> Vec<u8> {
    let count = match generator.below(40) {
        0..=15 => generator.between(0, 6),
        16..=32 => generator.between(7, 16),
        33..=38 => generator.between(0, usize::from(TRANSACTIONS)),
        _ => usize::from(TRANSACTIONS),
    };
    draw_so_many_members(generator, count)
}

/// So many different transactions: mostly any, sometimes the lowest or the
/// highest; mostly in any order, sometimes in rising or falling numbers.
pub fn draw_so_many_members(generator: &mut Generator, count: usize) -> Vec<u8> {
    let mut members: Vec<u8> = (0..TRANSACTIONS).collect();
    match generator.below(10) {
        0 => {}
        1 => members.reverse(),
        _ => {
            for place in 0..count {
                let other = generator.between(place, members.len() - 1);
                members.swap(place, other);
            }
        }
    }
    members.truncate(count);
    match generator.below(10) {
        0 | 1 => members.sort_unstable(),
        2 | 3 => members.sort_unstable_by(|one, other| other.cmp(one)),
        _ => generator.shuffle(&mut members),
    }
    members
}

/// In how many of 1,024 cases there is an edge: half the time any number, else
/// one that gives each of so many members three edges at most, on average.
pub fn draw_density(generator: &mut Generator, members: usize) -> usize {
    if generator.chance(50) {
        generator.between(0, ALL)
    } else {
        let three_each = (3 * ALL / members.max(1)).min(ALL);
        generator.between(0, three_each)
    }
}

/// 64 bits, each of which is set in so many of 1,024 cases.
///
/// A step halves the chance that a bit is set, and adds a half where the digit
/// is 1. So the digits, from the lowest to the highest, make up the density.
pub fn bits(generator: &mut Generator, density: usize) -> u64 {
    if density >= ALL {
        return u64::MAX;
    }
    let mut bits = 0;
    for digit in 0..ALL.trailing_zeros() {
        let random = generator.bits();
        bits = if (density >> digit) & 1 == 1 {
            bits | random
        } else {
            bits & random
        };
    }
    bits
}

/// Adds edges that a sort ignores, of each kind in some of the tables: from a
/// member to itself, from outside the set and to outside.
pub fn add_ignored(generator: &mut Generator, table: &mut Table) {
    let to_themselves = generator.chance(40);
    let from_outside = generator.chance(40);
    let to_outside = generator.chance(40);
    for transaction in 0..TRANSACTIONS {
        let member = table.has_member(transaction);
        let mut ignored = 0;
        if !member && from_outside {
            ignored = u64::MAX;
        }
        if member && to_outside {
            ignored |= !table.set;
        }
        if member && to_themselves {
            ignored |= bit(transaction);
        }
        if ignored != 0 {
            table.rows[usize::from(transaction)] |= generator.bits() & ignored;
        }
    }
}

#[cfg(test)]
mod tests {
    use super::*;

    #[test]
    fn bits_are_set_as_often_as_the_density_says() {
        let mut generator = Generator::new(22, 0);
        for density in [0, 1, 16, 200, 512, 1_000, 1_023, ALL] {
            let words = 20_000;
            let set: u32 = (0..words)
                .map(|_| bits(&mut generator, density).count_ones())
                .sum();
            let share = f64::from(set) / f64::from(64 * words);
            let wanted = density as f64 / ALL as f64;
            assert!((share - wanted).abs() < 0.002, "{density} {share}");
        }
        assert_eq!(bits(&mut generator, 0), 0);
        assert_eq!(bits(&mut generator, ALL), u64::MAX);
    }
}
