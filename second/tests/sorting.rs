//! The line or the cycle of random edges, against all permutations.

use std::collections::BTreeSet;

use second::generator::Generator;
use second::lines::smallest_line;
use second::sort::{sort, Sorted};

type Edges = Vec<Vec<bool>>;

fn random_edges(generator: &mut Generator, percent: usize) -> Edges {
    (0..64)
        .map(|_| (0..64).map(|_| generator.chance(percent)).collect())
        .collect()
}

fn random_members(generator: &mut Generator, count: usize) -> BTreeSet<u8> {
    let span = generator.pick(&[8, 64]);
    let mut members = BTreeSet::new();
    while members.len() < count.min(span) {
        members.insert(generator.below(span) as u8);
    }
    members
}

fn holds(edges: &Edges, i: u8, j: u8) -> bool {
    edges[usize::from(i)][usize::from(j)]
}

fn keeps_every_edge(line: &[u8], edges: &Edges) -> bool {
    for (place, &later) in line.iter().enumerate() {
        for &earlier in &line[..place] {
            if holds(edges, later, earlier) {
                return false;
            }
        }
    }
    true
}

fn assert_cycle(cycle: &[u8], members: &BTreeSet<u8>, edges: &Edges) {
    assert!(cycle.len() >= 2 && cycle.len() <= members.len());
    let different: BTreeSet<u8> = cycle.iter().copied().collect();
    assert_eq!(different.len(), cycle.len());
    assert!(different.is_subset(members));
    assert_eq!(different.iter().next(), cycle.first());
    for (k, &here) in cycle.iter().enumerate() {
        assert!(holds(edges, here, cycle[(k + 1) % cycle.len()]));
    }
}

#[test]
fn lines_are_the_smallest_and_cycles_are_cycles() {
    let (mut lines, mut cycles) = (0, 0);
    for index in 0..4_000 {
        let mut generator = Generator::new(1, index);
        let count = generator.below(7);
        let members = random_members(&mut generator, count);
        let percent = generator.pick(&[2, 10, 20, 30, 50]);
        let edges = random_edges(&mut generator, percent);
        let list: Vec<u8> = members.iter().copied().collect();
        let smallest = smallest_line(&list, |line| keeps_every_edge(line, &edges));
        match sort(&members, |i, j| holds(&edges, i, j)) {
            Sorted::Line(line) => {
                assert_eq!(Some(line), smallest);
                lines += 1;
            }
            Sorted::Cycle(cycle) => {
                assert_eq!(smallest, None);
                assert_cycle(&cycle, &members, &edges);
                cycles += 1;
            }
        }
    }
    assert!(lines > 1_000 && cycles > 500, "{lines} {cycles}");
}

#[test]
fn large_sets_give_lines_and_cycles_too() {
    for index in 0..500 {
        let mut generator = Generator::new(2, index);
        let count = generator.between(20, 64);
        let members = random_members(&mut generator, count);
        let edges = random_edges(&mut generator, 2);
        match sort(&members, |i, j| holds(&edges, i, j)) {
            Sorted::Line(line) => {
                assert_eq!(line.len(), members.len());
                assert!(keeps_every_edge(&line, &edges));
            }
            Sorted::Cycle(cycle) => assert_cycle(&cycle, &members, &edges),
        }
    }
}

#[test]
fn edges_to_itself_and_outside_are_ignored() {
    let members = BTreeSet::from([1, 4]);
    let edge = |i: u8, j: u8| i == j || i == 9 || j == 9 || (i, j) == (4, 1);
    assert_eq!(sort(&members, edge), Sorted::Line(vec![4, 1]));
    assert_eq!(sort(&BTreeSet::new(), |_, _| true), Sorted::Line(vec![]));
}

/// The walk from the lowest one left may pass transactions outside the cycle,
/// and the cycle starts with its own lowest number.
#[test]
fn the_walk_leaves_its_tail_behind() {
    let members = BTreeSet::from([0, 1, 2, 3, 5]);
    // 5 -> 3 -> 2 -> 5 is the cycle, 2 -> 0 hangs on it, 1 is free.
    let edges = [(5, 3), (3, 2), (2, 5), (2, 0)];
    let sorted = sort(&members, |i, j| edges.contains(&(i, j)));
    assert_eq!(sorted, Sorted::Cycle(vec![2, 5, 3]));
}
