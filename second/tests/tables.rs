//! What the tables of the makers hold.

use std::collections::{BTreeMap, BTreeSet};

use second::sort::Sorted;
use second::tables::maker::{make, make_of, Family, SHARES};
use second::tables::plain::plain_tables;
use second::tables::small::{self, Place};
use second::tables::{bit, members_of, Table, ROWS};

/// How many edges there are between different members.
fn edges(table: &Table) -> usize {
    members_of(table.set)
        .map(|i| (table.row(i) & table.set & !bit(i)).count_ones() as usize)
        .sum()
}

/// The table without the edges that a sort ignores.
fn without_ignored(table: &Table) -> Table {
    let mut rest = Table::without_edges(&table.members());
    for i in members_of(table.set) {
        rest.rows[usize::from(i)] = table.row(i) & table.set & !bit(i);
    }
    rest
}

#[test]
fn tables_are_fixed_by_seed_and_index() {
    for index in 0..2_000 {
        assert_eq!(make(5, index), make(5, index));
    }
    assert_ne!(make(5, 0), make(6, 0));
    assert_eq!(SHARES.iter().map(|&(_, share)| share).sum::<usize>(), 100);
}

#[test]
fn tables_along_a_line_have_lines_of_every_length() {
    for family in [Family::AlongALine, Family::FallingChain] {
        let mut lengths = BTreeSet::new();
        for index in 0..6_000 {
            match make_of(family, 5, index).sorted() {
                Sorted::Line(line) => lengths.insert(line.len()),
                Sorted::Cycle(cycle) => panic!("{family:?} {index}: {cycle:?}"),
            };
        }
        assert!(lengths.into_iter().eq(0..=ROWS), "{family:?}");
    }
}

/// Where no link is missing, the line falls from the highest number.
#[test]
fn chains_fall() {
    let mut whole = 0;
    for index in 0..2_000 {
        let table = make_of(Family::FallingChain, 5, index);
        let mut falling = table.members();
        falling.reverse();
        let mut links = falling.windows(2);
        if links.all(|two| table.has_edge(two[0], two[1])) {
            assert_eq!(table.sorted(), Sorted::Line(falling));
            whole += 1;
        }
    }
    assert!(whole > 1_000 && whole < 2_000, "{whole}");
}

#[test]
fn rings_have_cycles_of_every_length() {
    for (family, longest) in [(Family::Ring, ROWS), (Family::Rings, ROWS / 2)] {
        let mut lengths = BTreeSet::new();
        for index in 0..6_000 {
            match make_of(family, 5, index).sorted() {
                Sorted::Line(line) => panic!("{family:?} {index}: {line:?}"),
                Sorted::Cycle(cycle) => lengths.insert(cycle.len()),
            };
        }
        assert!((2..=longest).all(|length| lengths.contains(&length)));
    }
}

#[test]
fn random_tables_are_of_every_size_and_density() {
    let mut sizes = BTreeSet::new();
    let mut tenths = BTreeSet::new();
    let (mut lines, mut cycles) = (0, 0);
    for index in 0..10_000 {
        let table = make_of(Family::Random, 5, index);
        let size = table.size();
        sizes.insert(size);
        if size >= 20 {
            tenths.insert(10 * edges(&table) / (size * (size - 1)));
        }
        match table.sorted() {
            Sorted::Line(_) => lines += 1,
            Sorted::Cycle(_) => cycles += 1,
        }
    }
    assert!(sizes.into_iter().eq(0..=ROWS));
    assert!(tenths.into_iter().eq(0..=10), "from none to all edges");
    assert!(lines > 2_000 && cycles > 2_000, "{lines} {cycles}");
}

#[test]
fn edges_that_are_ignored_are_in_many_tables_and_change_no_answer() {
    let mut with = 0;
    for index in 0..5_000 {
        let (_, table) = make(5, index);
        let rest = without_ignored(&table);
        assert_eq!(table.sorted(), rest.sorted());
        with += u32::from(table != rest);
    }
    assert!(with > 2_000 && with < 4_500, "{with}");
}

/// All tables at the lowest numbers are different ones, and each is moved once.
#[test]
fn every_small_table_comes() {
    let mut whole = BTreeSet::new();
    let mut parts = BTreeMap::new();
    let mut moved = 0;
    small::for_each(small::LARGEST, 5, |place, table| match place {
        Place::Lowest => assert!(whole.insert((table.set, table.rows[..4].to_vec()))),
        Place::LowestInPart => *parts.entry(table.set).or_insert(0) += 1,
        Place::Highest | Place::Spread => moved += 1,
    });
    let all: u32 = (0..=small::LARGEST).map(small::count).sum();
    assert_eq!(all, 66_067);
    assert_eq!((whole.len(), moved), (all as usize, all));
    // 15 of the 16 sets of 4 transactions are not all of them.
    assert!(parts.keys().copied().eq(0..15));
    assert!(parts.values().all(|&count| count > 4_000), "{parts:?}");
}

#[test]
fn plain_tables_have_none_or_every_edge() {
    let tables = plain_tables(5);
    assert_eq!(tables.len(), 3 * 64 + 65 * 3 * 2);
    for table in tables {
        let size = table.size();
        if size > 1 {
            assert!([0, size * (size - 1)].contains(&edges(&table)));
        }
    }
}
