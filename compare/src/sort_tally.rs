//! How many tables the comparison of sorts met, by where they come from and by their kinds.

use crate::sort_kinds::{Case, Kind, OF_CYCLES, OF_LINES, OF_TABLES};
use crate::tally::Met;
use second::sort::Sorted;
use second::tables::maker::Family;
use second::tables::small::Place;
use second::tables::Table;

/// Where a table comes from.
#[derive(Clone, Copy, PartialEq, Eq)]
pub enum Origin {
    /// Without an edge, with every edge, or of a single member.
    Plain,
    /// One of all that have up to 4 transactions.
    Small(Place),
    /// From the maker.
    Made(Family),
}

const ORIGINS: [Origin; 10] = [
    Origin::Plain,
    Origin::Small(Place::Lowest),
    Origin::Small(Place::LowestInPart),
    Origin::Small(Place::Highest),
    Origin::Small(Place::Spread),
    Origin::Made(Family::Random),
    Origin::Made(Family::AlongALine),
    Origin::Made(Family::FallingChain),
    Origin::Made(Family::Ring),
    Origin::Made(Family::Rings),
];

impl Origin {
    pub fn name(self) -> &'static str {
        match self {
            Origin::Plain => "without an edge, full or of a single member",
            Origin::Small(Place::Lowest) => "small graphs, every one",
            Origin::Small(Place::LowestInPart) => "small graphs, the set a part of each",
            Origin::Small(Place::Highest) => "small graphs at the highest numbers",
            Origin::Small(Place::Spread) => "small graphs at any numbers",
            Origin::Made(Family::Random) => "random graphs",
            Origin::Made(Family::AlongALine) => "random graphs along a line",
            Origin::Made(Family::FallingChain) => "falling chains",
            Origin::Made(Family::Ring) => "rings with tails",
            Origin::Made(Family::Rings) => "several rings with tails",
        }
    }
}

#[derive(Default)]
pub struct SortTally {
    origins: [u64; ORIGINS.len()],
    tables: [u64; OF_TABLES.len()],
    lines: [u64; OF_LINES.len()],
    cycles: [u64; OF_CYCLES.len()],
}

impl SortTally {
    /// Counts a table with the second checker's answer.
    pub fn count(&mut self, origin: Origin, table: &Table, sorted: &Sorted) {
        for (count, of) in self.origins.iter_mut().zip(ORIGINS) {
            *count += u64::from(of == origin);
        }
        let (answer, counts, kinds): (_, &mut [u64], &[Kind]) = match sorted {
            Sorted::Line(line) => (line, &mut self.lines, &OF_LINES),
            Sorted::Cycle(cycle) => (cycle, &mut self.cycles, &OF_CYCLES),
        };
        let case = Case::new(table, answer);
        count_kinds(&case, &mut self.tables, &OF_TABLES);
        count_kinds(&case, counts, kinds);
    }

    pub fn met(&self) -> Vec<Met> {
        let mut met = met_of_kinds(&self.tables, &OF_TABLES);
        for (&count, origin) in self.origins.iter().zip(ORIGINS) {
            met.push(Met(count, origin.name().to_string()));
        }
        met.extend(met_of_kinds(&self.lines, &OF_LINES));
        met.extend(met_of_kinds(&self.cycles, &OF_CYCLES));
        met
    }
}

fn count_kinds(case: &Case, counts: &mut [u64], kinds: &[Kind]) {
    for (count, (_, is_of_it)) in counts.iter_mut().zip(kinds) {
        *count += u64::from(is_of_it(case));
    }
}

fn met_of_kinds(counts: &[u64], kinds: &[Kind]) -> Vec<Met> {
    counts
        .iter()
        .zip(kinds)
        .map(|(&count, (name, _))| Met(count, name.to_string()))
        .collect()
}
