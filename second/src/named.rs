//! The logs that document 01 names, each with the answer that it states.
//!
//! The answers are typed from the document, never computed here.

use crate::notation::log;
use crate::record::{ANSWER_BYTES, RECORDS};

/// An answer as the document states it.
#[derive(Clone, Debug, PartialEq, Eq)]
pub enum Stated {
    /// A serial line of these transactions.
    Serial(Vec<u8>),
    /// A cycle of these transactions, each with the reason of its edge to the
    /// next.
    Cycle(Vec<(u8, u8)>),
    /// A refusal of this number at this place.
    Refused(u32, usize),
}

/// A log with its name, the length of the answer buffer to lend and the stated
/// answer.
#[derive(Clone, Debug)]
pub struct Named {
    pub name: &'static str,
    pub log: Vec<u8>,
    pub buffer: usize,
    pub stated: Stated,
}

/// All named logs: P1 to P14, "Run only", and those of "Errors a tester would
/// like to make" that are given as logs.
pub fn named() -> Vec<Named> {
    let mut all = proved_first();
    all.extend(proved_second());
    all.extend(run_only_small());
    all.extend(run_only_limits());
    all.extend(run_only_lengths());
    all.extend(tester_errors());
    all
}

/// A named log in the notation, with a buffer of the usual length.
fn case(name: &'static str, history: &str, stated: Stated) -> Named {
    Named {
        name,
        log: log(history),
        buffer: ANSWER_BYTES,
        stated,
    }
}

/// A stated serial line.
fn serial(line: &[u8]) -> Stated {
    Stated::Serial(line.to_vec())
}

/// A stated cycle: its transactions and, beside them, the reasons.
fn cycle(transactions: &[u8], reasons: &[u8]) -> Stated {
    let mut records = Vec::new();
    for (&transaction, &reason) in transactions.iter().zip(reasons) {
        records.push((transaction, reason));
    }
    Stated::Cycle(records)
}

/// P1 to P7.
fn proved_first() -> Vec<Named> {
    vec![
        case("P1", "", serial(&[])),
        case(
            "P2",
            "w0[xA] w0[xB] w0[yC] c0 r1[yC] w1[xA] c1 r2[xB] w2[yC] c2",
            cycle(&[1, 2], &[1, 3]),
        ),
        case(
            "P3",
            "w0[xA] w0[xB] w0[yC] c0 r1[yC] w1[xA] c1 w2[yC] c2",
            serial(&[0, 1, 2]),
        ),
        case("P4", "w0[xA] w1[xA] c1 c0", cycle(&[0, 1], &[1, 2])),
        case("P5", "w0[xA] r0[xA] c0", serial(&[0])),
        case(
            "P6",
            "w0[xA] w0[xB] c0 w1[xA] r1[xB] c1",
            Stated::Refused(8, 4),
        ),
        case("P7", "r0[xA] c0", Stated::Refused(7, 0)),
    ]
}

/// P8 to P14.
fn proved_second() -> Vec<Named> {
    vec![
        case(
            "P8",
            "w0[xA] w0[xB] c0 w1[xA] c1 r2[xA] r2[xB] c2",
            cycle(&[1, 2], &[1, 3]),
        ),
        case("P9", "w5[xA] c5 w3[xB] c3", serial(&[5, 3])),
        case("P10", "w5[xA] c5 w3[yA] c3", serial(&[3, 5])),
        case("P11", "w0[xA]", Stated::Refused(9, 0)),
        case(
            "P12",
            "w0[xA] w0[xB] w0[yC] w0[yD] c0 r1[xA] r2[yD] w1[yC] c1 w2[xB] c2",
            cycle(&[1, 2], &[3, 3]),
        ),
        case(
            "P13",
            "w3[zA] c3 r1[zA] w0[zA] w0[xA] w2[xA] w2[yA] w1[yA] c0 c2 c1",
            cycle(&[0, 2, 1], &[1, 1, 1]),
        ),
        case("P14", "c0 c0", Stated::Refused(6, 1)),
    ]
}

/// "c7 gives serial 7; 3 bytes give refusal 2; kind 0 gives refusal 4; a
/// commit with item 1 gives refusal 5"
///
/// The place of 4 and 5 is "the record", here the only one.
fn run_only_small() -> Vec<Named> {
    vec![
        case("c7", "c7", serial(&[7])),
        case("3 bytes", "(3,0,0)", Stated::Refused(2, 0)),
        case("kind 0", "(0,0,0,0)", Stated::Refused(4, 0)),
        case("a commit with item 1", "(3,0,1,0)", Stated::Refused(5, 0)),
    ]
}

/// "transaction 63 passes and 64 is refused 5; site 15 passes and 16 is
/// refused 5"
fn run_only_limits() -> Vec<Named> {
    vec![
        case("transaction 63", "c63", serial(&[63])),
        case("transaction 64", "c64", Stated::Refused(5, 0)),
        case("site 15", "w0[0,15] c0", serial(&[0])),
        case("site 16", "w0[0,16] c0", Stated::Refused(5, 0)),
    ]
}

/// "4,096 records pass and 4,097 are refused 1; buffers of 127 and 128 bytes."
///
/// Writes by one transaction and its commit, so that the line is seen at once.
fn run_only_lengths() -> Vec<Named> {
    let of_records = |count: usize| "w0[xA] ".repeat(count - 1) + "c0";
    let of_buffer = |name, buffer, stated| Named {
        buffer,
        ..case(name, "w5[xA] c5 w3[xB] c3", stated)
    };
    vec![
        case("4,096 records", &of_records(RECORDS), serial(&[0])),
        case(
            "4,097 records",
            &of_records(RECORDS + 1),
            Stated::Refused(1, 0),
        ),
        of_buffer("a buffer of 127 bytes", 127, Stated::Refused(3, 0)),
        of_buffer("a buffer of 128 bytes", 128, serial(&[5, 3])),
    ]
}

/// "P3 with w3[yC] c3 put in front, which is serial 3 0 1 2"; "and w0[xA] c0
/// r1[xA] w1[xA] r1[xA] c1 is serial 0 1."
fn tester_errors() -> Vec<Named> {
    vec![
        case(
            "P3 with w3[yC] c3 in front",
            "w3[yC] c3 w0[xA] w0[xB] w0[yC] c0 r1[yC] w1[xA] c1 w2[yC] c2",
            serial(&[3, 0, 1, 2]),
        ),
        case(
            "two reads of one item with different sources",
            "w0[xA] c0 r1[xA] w1[xA] r1[xA] c1",
            serial(&[0, 1]),
        ),
    ]
}
