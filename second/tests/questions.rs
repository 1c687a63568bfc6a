//! The two questions: order of their checks, their answers and their lines.

mod common;

use common::at;
use second::check::{check, Refusal};
use second::edges::{all_reasons, edge, printed_edge, reason, reasons, write_order};
use second::history::History;
use second::maker::make;
use second::notation::log;
use second::source::{printed_source, source_of_record, sources_of_log};

const TEN: Refusal = Refusal {
    number: 10,
    place: 0,
};

#[test]
fn a_source_is_found_at_the_same_copy_only() {
    let log = log("w0[xA] w0[xB] c0 w1[xA] r1[xA] c1 r2[xA] r2[xB] c2");
    let sources: Vec<_> = (0..9).map(|k| source_of_record(&log, k).unwrap()).collect();
    assert_eq!(
        sources,
        [
            None,
            None,
            None,
            None,
            at(1, 3),
            None,
            at(1, 3),
            at(0, 1),
            None
        ]
    );
    assert_eq!(sources_of_log(&log), Ok(sources));
}

#[test]
fn ten_comes_after_the_checks_of_the_log() {
    let good = log("w0[xA] c0");
    for k in [2, 3, 1 << 32, 1 << 63, u64::MAX] {
        assert_eq!(source_of_record(&good, k), Err(TEN));
    }
    assert_eq!(source_of_record(&[], 0), Err(TEN));
    for (i, j) in [
        (64, 0),
        (0, 64),
        (64, 64),
        (u64::MAX, 0),
        (0, 256),
        (1 << 32, 1),
    ] {
        assert_eq!(edge(&good, i, j), Err(TEN));
        assert_eq!(edge(&[], i, j), Err(TEN));
    }
    for index in 0..5_000 {
        let log = make(6, index);
        if let Err(refusal) = check(&log) {
            assert_eq!(source_of_record(&log, u64::MAX), Err(refusal));
            assert_eq!(edge(&log, 64, u64::MAX), Err(refusal));
        }
    }
}

#[test]
fn edges_of_p12_and_pairs_without_one() {
    let log = log("w0[xA] w0[xB] w0[yC] w0[yD] c0 r1[xA] r2[yD] w1[yC] c1 w2[xB] c2");
    assert_eq!(edge(&log, 0, 1), Ok(1));
    assert_eq!(edge(&log, 1, 0), Ok(0));
    assert_eq!(edge(&log, 1, 2), Ok(3));
    assert_eq!(edge(&log, 2, 1), Ok(3));
    assert_eq!(edge(&log, 1, 1), Ok(0));
    assert_eq!(edge(&log, 5, 63), Ok(0));
    let history = History::of_log(&log).unwrap();
    assert_eq!(reasons(&history, 0, 1), [true, true, false]);
    assert_eq!(reasons(&history, 0, 0), [false; 3]);
    assert_eq!(write_order(&history, 0), [0, 2]);
    assert_eq!(write_order(&history, 1), [0, 1]);
    assert_eq!(write_order(&history, 2), []);
}

#[test]
fn the_line_for_a_source() {
    let p2 = log("w0[xA] w0[xB] w0[yC] c0 r1[yC] w1[xA] c1 r2[xB] w2[yC] c2");
    assert_eq!(printed_source(&p2, 4), "0 2\n");
    assert_eq!(printed_source(&p2, 7), "0 1\n");
    for k in [0, 1, 2, 3, 5, 6, 8, 9] {
        assert_eq!(printed_source(&p2, k), "none\n");
    }
    for k in [10, 11, 1 << 32, u64::MAX] {
        assert_eq!(printed_source(&p2, k), "refused 10 0\n");
    }
    assert_eq!(printed_source(&[], 0), "refused 10 0\n");
}

#[test]
fn the_line_for_an_edge() {
    let p2 = log("w0[xA] w0[xB] w0[yC] c0 r1[yC] w1[xA] c1 r2[xB] w2[yC] c2");
    assert_eq!(printed_edge(&p2, 1, 2), "1\n");
    assert_eq!(printed_edge(&p2, 2, 1), "3\n");
    let p4 = log("w0[xA] w1[xA] c1 c0");
    assert_eq!(printed_edge(&p4, 0, 1), "1\n");
    assert_eq!(printed_edge(&p4, 1, 0), "2\n");
    for (i, j) in [(1, 0), (2, 0), (1, 1), (0, 3), (3, 0), (63, 63)] {
        assert_eq!(printed_edge(&p2, i, j), "0\n");
    }
    for (i, j) in [(64, 0), (0, 64), (64, 64), (u64::MAX, 1)] {
        assert_eq!(printed_edge(&p2, i, j), "refused 10 0\n");
    }
    assert_eq!(printed_edge(&[], 0, 1), "0\n");
}

/// A refusal of the log is printed for every record and every pair, also for
/// those that 10 would refuse.
#[test]
fn the_line_for_a_refused_log() {
    for (refused, line) in [
        (vec![0; 16_385], "refused 1 0\n"),
        (log("(3,0,0)"), "refused 2 0\n"),
        (log("c0 (0,0,0,0)"), "refused 4 1\n"),
        (log("(3,0,1,0)"), "refused 5 0\n"),
        (log("c0 c0"), "refused 6 1\n"),
        (log("r0[xA] c0"), "refused 7 0\n"),
        (log("w0[xA] w0[xB] c0 w1[xA] r1[xB] c1"), "refused 8 4\n"),
        (log("w1[xA] w0[xA]"), "refused 9 1\n"),
    ] {
        for k in [0, 4, u64::MAX] {
            assert_eq!(printed_source(&refused, k), line);
        }
        for (i, j) in [(0, 0), (0, 1), (64, u64::MAX)] {
            assert_eq!(printed_edge(&refused, i, j), line);
        }
    }
}

/// The zeros of a commit are no copy: x at A is copy 0 too.
#[test]
fn a_commit_conflicts_with_nothing() {
    let log = log("c1 w0[xA] c0 c2");
    for i in 0..3 {
        for j in 0..3 {
            assert_eq!(edge(&log, i, j), Ok(0));
        }
    }
}

#[test]
fn the_ways_to_ask_for_a_reason_agree() {
    for index in 0..3_000 {
        let log = make(7, index);
        let history = match History::of_log(&log) {
            Ok(history) => history,
            Err(_) => continue,
        };
        let all = all_reasons(&history);
        for (i, row) in all.iter().enumerate() {
            for (j, &of_pair) in row.iter().enumerate() {
                let applies = reasons(&history, i as u8, j as u8);
                let lowest = applies.iter().position(|&one| one).map_or(0, |k| k + 1);
                assert_eq!(usize::from(of_pair), lowest);
                assert_eq!(reason(&history, i as u8, j as u8), of_pair);
            }
        }
        if log.len() < 400 {
            let (i, j) = (index % 64, index / 64 % 64);
            assert_eq!(edge(&log, i, j), Ok(all[i as usize][j as usize]));
        }
    }
}
