//! Sources with both their numbers: "the transaction, and the place of the
//! write record."
//!
//! The answers are worked out by hand from documents 01 and 02.

mod common;

use common::at;
use second::check::Refusal;
use second::edges::all_reasons;
use second::history::History;
use second::maker::make;
use second::notation::{log, show};
use second::record::{records, RECORDS};
use second::source::{source_of_record, sources_of_log, Source};

/// Holds every record of a log to its source: those listed have one, all others
/// have none, and the record after the last is refused.
fn assert_sources(history: &str, stated: &[(usize, Option<Source>)]) {
    let log = log(history);
    let mut sources = vec![None; log.len() / 4];
    for &(k, source) in stated {
        sources[k] = source;
    }
    for (k, &source) in sources.iter().enumerate() {
        let answer = source_of_record(&log, k as u64);
        assert_eq!(answer, Ok(source), "record {k} of {history}");
    }
    let past_the_end = Refusal {
        number: 10,
        place: 0,
    };
    assert_eq!(
        source_of_record(&log, sources.len() as u64),
        Err(past_the_end)
    );
    assert_eq!(sources_of_log(&log), Ok(sources));
}

#[test]
fn sources_of_logs_that_document_01_names() {
    assert_sources(
        "w0[xA] w0[xB] w0[yC] c0 r1[yC] w1[xA] c1 r2[xB] w2[yC] c2",
        &[(4, at(0, 2)), (7, at(0, 1))],
    );
    assert_sources(
        "w0[xA] c0 r1[xA] w1[xA] r1[xA] c1",
        &[(2, at(0, 0)), (4, at(1, 3))],
    );
    assert_sources("w0[xA] r0[xA] c0", &[(1, at(0, 0))]);
    assert_sources(
        "w0[xA] w0[xB] c0 w1[xA] c1 r2[xA] r2[xB] c2",
        &[(5, at(1, 3)), (6, at(0, 1))],
    );
    assert_sources(
        "w0[xA] w0[xB] w0[yC] w0[yD] c0 r1[xA] r2[yD] w1[yC] c1 w2[xB] c2",
        &[(5, at(0, 0)), (6, at(0, 3))],
    );
    assert_sources(
        "w3[zA] c3 r1[zA] w0[zA] w0[xA] w2[xA] w2[yA] w1[yA] c0 c2 c1",
        &[(2, at(3, 0))],
    );
}

/// "the last earlier write record on the same copy"
#[test]
fn the_later_of_two_writes_is_named() {
    assert_sources("w0[xA] w0[xA] c0 r1[xA] c1", &[(3, at(0, 1))]);
    assert_sources(
        "w0[xA] r0[xA] w0[xA] r0[xA] r0[xA] c0",
        &[(1, at(0, 0)), (3, at(0, 2)), (4, at(0, 2))],
    );
    assert_sources("w0[xA] w1[xA] w0[xA] r2[xA] c0 c1 c2", &[(3, at(0, 2))]);
    assert_sources("w0[xA] w1[xA] c0 c1 r2[xA] c2", &[(4, at(1, 1))]);
}

/// An earlier write it is: one after the read is another read's.
#[test]
fn a_write_after_the_read_is_not_named() {
    assert_sources(
        "w0[xA] r1[xA] w0[xA] r1[xA] c0 c1",
        &[(1, at(0, 0)), (3, at(0, 2))],
    );
}

/// "on the same copy": a write of the item at another site is not, nor is a
/// write of another item at the site.
#[test]
fn a_write_of_another_copy_is_not_named() {
    assert_sources(
        "w0[xA] w0[xB] w0[xC] c0 r1[xA] r1[xB] r1[xC] c1",
        &[(4, at(0, 0)), (5, at(0, 1)), (6, at(0, 2))],
    );
    assert_sources("w0[xA] w0[xB] w1[xB] c0 c1 r2[xA] c2", &[(5, at(0, 0))]);
    assert_sources("w0[xA] w0[yA] w1[yA] r2[xA] c0 c1 c2", &[(3, at(0, 0))]);
}

/// A commit and a write of x at A have the same zeros; reads and commits write
/// nothing.
#[test]
fn a_read_or_a_commit_is_not_named() {
    assert_sources(
        "c2 w0[xA] c0 r1[xA] c1 c3 r4[xA] c4",
        &[(3, at(0, 1)), (6, at(0, 1))],
    );
}

/// The highest numbers, and places that do not go into a byte.
#[test]
fn sources_at_the_limits() {
    let many = "w63[63,15] ".repeat(RECORDS - 2);
    let last = format!("{many}r63[63,15] c63");
    assert_eq!(
        source_of_record(&log(&last), RECORDS as u64 - 2),
        Ok(at(63, 4_093))
    );
    let others = "w0[63,14] ".repeat(RECORDS - 5);
    let first = format!("c1 w63[63,15] {others}r63[63,15] c63 c0");
    assert_eq!(
        source_of_record(&log(&first), RECORDS as u64 - 3),
        Ok(at(63, 1))
    );
}

/// The sentence itself, for the logs of the mix: the record at the place is a
/// write of that transaction, on the copy of the read and before it, and no
/// write on the copy stands between.
#[test]
fn the_record_named_is_the_last_earlier_write() {
    let mut reads = 0;
    for index in 0..20_000 {
        let log = make(8, index);
        let sources = match sources_of_log(&log) {
            Ok(sources) if log.len() < 1_200 => sources,
            _ => continue,
        };
        let records = records(&log);
        assert_eq!(sources.len(), records.len());
        for (k, (&record, source)) in records.iter().zip(sources).enumerate() {
            assert_eq!(source.is_some(), record.is_read(), "{}", show(&log));
            if let Some(Source { transaction, place }) = source {
                let named = records[place];
                assert!(place < k && named.is_write() && named.is_on_the_copy_of(record));
                assert_eq!(named.transaction, transaction);
                let mut between = records[place + 1..k].iter();
                assert!(!between.any(|one| one.is_write() && one.is_on_the_copy_of(record)));
                reads += 1;
            }
        }
    }
    println!("{reads} reads");
    assert!(reads > 50_000, "{reads}");
}

/// "edges and verdict do not": with any other places the edges are the same.
#[test]
fn edges_do_not_ask_for_the_place() {
    let mut passed = 0;
    for index in 0..3_000 {
        let log = make(10, index);
        let mut history = match History::of_log(&log) {
            Ok(history) if log.len() < 1_200 => history,
            _ => continue,
        };
        let reasons = all_reasons(&history);
        for source in history.sources.iter_mut().flatten() {
            source.place = usize::MAX;
        }
        assert_eq!(all_reasons(&history), reasons, "{}", show(&log));
        passed += 1;
    }
    assert!(passed > 1_000, "{passed}");
}
