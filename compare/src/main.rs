//! Holds the proved checker to the second checker, question by question, on every log of three
//! sets, and its sort alone on tables that no log stands behind.
//!
//! The sets of logs: those that document 01 names, with the answers that it states; every log of up
//! to 5 records over 2 transactions, 2 items and 2 sites; and 120,000 logs of the maker from a
//! stated seed. The questions:
//!
//! - of each log the check, and the source of every record, its transaction and its place (of a long log, of some records and of the
//!   last), of one past the end and of the largest number;
//! - of a log that passes the edge from each of its transactions to each (of more than 8, among 8 of them), to and from one that is not
//!   in it, and to and from a number above 63; of every named one and of a share of the others all 64 × 64 edges;
//! - of a share of the logs that do not pass three edges, each of which has to be refused as the check is;
//! - of each log the verdict: of every named and made one, of every small one that passes and of one in 11 of the other small ones, over
//!   300,000 in all, with answer buffers of 0, 127, 128, 129 and 400 bytes, and of the other small ones with one of these in turn. The
//!   buffer and what stands around it are filled anew for each log, and every byte is looked at;
//! - of each verdict on a log that passes what demand 3 asks, by the records alone: where there are at most 6 transactions a search
//!   through all lines, and otherwise whether the line given meets the conditions. A cycle's edges are held to their lowest reasons.
//!
//! The tables: every one of up to 4 transactions, also moved to other numbers; those without an
//! edge and with every edge; and 100,000 of the maker of tables.
//!
//! A kind of answer that was never met was not tried, and counts as a failure. The last line is
//! `N passed, M failed`, a log or a table each.

mod buffers;
mod demand;
mod edges;
mod graph;
mod meaning;
mod proved;
mod share;
mod sort_kinds;
mod sort_tally;
mod sorts;
mod source_kinds;
mod sources;
mod stated;
mod tally;
mod verdict_tally;
mod verdicts;

use buffers::Lender;
use graph::Graph;
use second::check::check;
use second::maker::{family_name, make};
use second::named::{named, Named};
use second::small;
use share::Share;
use tally::Tally;

/// The makers' seed; another one makes other logs and tables.
const SEED: u64 = 8_191;

/// How many logs of the maker are compared.
const MADE: u64 = 120_000;

/// Of the small logs and of the made ones that pass, one in so many is asked the edge of all 64 × 64 pairs; of those that do not
/// pass, one in so many is asked an edge at all. Primes, so that no share falls in step with the order in which the logs come.
const SMALL_SHARE: u64 = 509;
const MADE_SHARE: u64 = 1_009;
const REFUSED_SHARE: u64 = 11;

/// Of the small logs that do not pass, one in so many is judged with all five buffers: with the made ones these are over 300,000 logs.
const BUFFERS_SHARE: u64 = 11;

/// The first answer on which the two checkers differ, in words.
fn difference(
    log: &[u8],
    share: &mut Share,
    lender: &mut Lender,
    tally: &mut Tally,
) -> Option<String> {
    let expected = check(log);
    let got = proved::check(log);
    tally.check(expected);
    if got != expected {
        return Some(format!("check: proved {got:?}, second {expected:?}"));
    }
    let graph = Graph::of_log(log);
    sources::difference(log, &mut tally.sources)
        .or_else(|| edges::difference(log, &graph, share, &mut tally.edges))
        .or_else(|| verdicts::difference(log, &graph, lender, &mut tally.verdicts))
}

/// Says of a named log how it fared, since document 01's readers look for them by name.
fn show_named(case: &Named, found: &Option<String>) {
    let how = if found.is_none() {
        "as stated"
    } else {
        "DIFFERENT"
    };
    let stated = stated::verdict(&case.stated);
    println!("named: {}: {}: {how}", case.name, stated.words());
}

/// The named logs are few, so that each that passes is asked all 64 × 64 pairs.
fn compare_named(tally: &mut Tally) {
    let mut share = Share::all();
    let mut lender = Lender::one_in(1, SEED);
    for case in named() {
        let found = stated::difference(&case, &lender.memory())
            .or_else(|| difference(&case.log, &mut share, &mut lender, tally));
        show_named(&case, &found);
        tally.log(case.name, &case.log, found);
    }
}

fn compare_small(tally: &mut Tally) {
    let mut share = Share::one_in(SMALL_SHARE, REFUSED_SHARE);
    let mut lender = Lender::one_in(BUFFERS_SHARE, SEED);
    small::for_each(small::LONGEST, |log| {
        let found = difference(log, &mut share, &mut lender, tally);
        tally.log("small", log, found);
    });
}

fn compare_made(tally: &mut Tally) {
    let mut share = Share::one_in(MADE_SHARE, REFUSED_SHARE);
    let mut lender = Lender::one_in(1, SEED);
    for index in 0..MADE {
        let log = make(SEED, index);
        let found = difference(&log, &mut share, &mut lender, tally);
        tally.log(family_name(SEED, index), &log, found);
    }
}

fn main() {
    let mut tally = Tally::default();
    compare_named(&mut tally);
    compare_small(&mut tally);
    compare_made(&mut tally);
    sorts::compare(SEED, &mut tally);
    tally.print();
    let untried = tally.untried();
    for what in &untried {
        println!("{what} was never met, so it was not tried");
    }
    let differing = tally.logs.differing + tally.tables.differing;
    let passed = tally.logs.all + tally.tables.all - differing;
    let failed = differing + untried.len() as u64;
    println!("{passed} passed, {failed} failed");
    if failed > 0 {
        std::process::exit(1);
    }
}
