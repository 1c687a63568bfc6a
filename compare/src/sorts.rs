//! The sort by itself, of tables that no log stands behind. Each answer of the proved checker is
//! held to the second checker's, to what a line and a cycle are, and where the set is small to a
//! search through every line.

use crate::buffers::random_fill;
use crate::meaning::{against_smallest, keeps_every_edge, objection};
use crate::proved::{self, Coded};
use crate::sort_tally::Origin;
use crate::tally::Tally;
use second::generator::Generator;
use second::lines::smallest_line;
use second::sort::Sorted;
use second::tables::maker::make;
use second::tables::plain::plain_tables;
use second::tables::{bit, members_of, small, Table, ROWS};

/// How many tables of the maker are compared.
const MADE: u64 = 100_000;

/// The most members of a set whose lines are all tried: 6 members have 720.
pub const MOST_TO_TRY: usize = 6;

/// What the proved checker answered.
type Answer = Result<Sorted, Coded>;

/// Sorts every table of the run.
pub fn compare(seed: u64, tally: &mut Tally) {
    // No table has this index, so that what fills the buffer is not what made a table.
    let mut fills = Generator::new(seed, u64::MAX);
    // The small ones first: a difference shows best in a small table.
    small::for_each(small::LARGEST, seed, |place, table| {
        compare_one(Origin::Small(place), table, &mut fills, tally);
    });
    for table in plain_tables(seed) {
        compare_one(Origin::Plain, &table, &mut fills, tally);
    }
    for index in 0..MADE {
        let (family, table) = make(seed, index);
        compare_one(Origin::Made(family), &table, &mut fills, tally);
    }
}

/// Sorts one table by both checkers, and counts it.
fn compare_one(origin: Origin, table: &Table, fills: &mut Generator, tally: &mut Tally) {
    let fill = random_fill(fills);
    let expected = table.sorted();
    let found = difference(table, &expected, &fill);
    tally.sorts.count(origin, table, &expected);
    tally
        .tables
        .count(origin.name(), found, || show(table, &expected));
}

/// Everything that is wrong with the proved checker's answer, in words.
fn difference(table: &Table, expected: &Sorted, fill: &[u8; ROWS]) -> Option<String> {
    let mut members = *fill;
    let got = proved::sort(table, &mut members);
    let wrong: Vec<String> = [
        against_second(&got, expected),
        against_fill(&got, fill, &members),
        against_meaning(&got, table),
        against_every_line(&got, table),
    ]
    .into_iter()
    .flatten()
    .collect();
    if wrong.is_empty() {
        return None;
    }
    Some(format!("sort: proved {got:?}: {}", wrong.join("; ")))
}

fn against_second(got: &Answer, expected: &Sorted) -> Option<String> {
    match got {
        Ok(sorted) if sorted == expected => None,
        _ => Some("not the second checker's".to_string()),
    }
}

/// "and all other bytes keep their content." Where the length is no length, no byte is looked at.
fn against_fill(got: &Answer, fill: &[u8; ROWS], members: &[u8; ROWS]) -> Option<String> {
    let written = match got {
        Ok(Sorted::Line(numbers) | Sorted::Cycle(numbers)) => numbers.len(),
        Err(_) => return None,
    };
    let byte = (written..ROWS).find(|&byte| members[byte] != fill[byte])?;
    Some(format!("byte {byte} was written, which is past the end"))
}

fn against_meaning(got: &Answer, table: &Table) -> Option<String> {
    match got {
        Ok(sorted) => objection(table, sorted).map(str::to_string),
        Err(_) => Some("neither a line nor a cycle".to_string()),
    }
}

fn against_every_line(got: &Answer, table: &Table) -> Option<String> {
    if table.size() > MOST_TO_TRY {
        return None;
    }
    let smallest = smallest_line(&table.members(), |line| keeps_every_edge(table, line));
    against_smallest(got.as_ref().ok(), smallest)
}

/// A table on which the two checkers differ: the second checker's answer, the set, and of each
/// member the members that it has an edge to, and whether it has edges from and to outside.
fn show(table: &Table, expected: &Sorted) -> String {
    let numbers = |set| members_of(set).collect::<Vec<u8>>();
    let mut text = format!("second {expected:?}\n  set {:?}", numbers(table.set));
    let from_outside = members_of(!table.set).fold(0, |all, i| all | table.row(i));
    for i in members_of(table.set) {
        text += &format!("\n  {i} -> {:?}", numbers(table.row(i) & table.set));
        if table.row(i) & !table.set != 0 {
            text += ", and to outside";
        }
        if from_outside & bit(i) != 0 {
            text += ", and from outside";
        }
    }
    text
}
