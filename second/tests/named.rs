//! The logs that document 01 names against the answers that it states.

mod common;

use std::collections::BTreeSet;

use second::edges::{is_conflict, reason};
use second::history::History;
use second::named::{named, Named, Stated};
use second::notation::{log, parse, show};
use second::record::ANSWER_BYTES;
use second::sort::{sort, Sorted};
use second::verdict::printed;

fn by_name(name: &str) -> Named {
    named()
        .into_iter()
        .find(|named| named.name == name)
        .unwrap()
}

#[test]
fn every_named_log_has_its_stated_answer() {
    let all = named();
    assert_eq!(all.len(), 14 + 4 + 4 + 4 + 2);
    for case in all {
        let answer = common::full_answer(&case.log, case.buffer);
        assert_eq!(answer, case.stated, "{}", case.name);
    }
}

#[test]
fn the_program_prints_what_is_stated() {
    assert_eq!(printed(&by_name("P2").log), "cycle 2\n1 1\n2 3\n");
    assert_eq!(printed(&by_name("P1").log), "serial 0\n");
    assert_eq!(printed(&by_name("P9").log), "serial 2\n5\n3\n");
    assert_eq!(printed(&by_name("P6").log), "refused 8 4\n");
    assert_eq!(printed(&vec![0; 1_000_000]), "refused 1 0\n");
    for case in named() {
        if case.buffer == ANSWER_BYTES {
            assert_eq!(printed(&case.log), printed_stated(&case.stated));
        }
    }
}

fn printed_stated(stated: &Stated) -> String {
    let lines: Vec<String> = match stated {
        Stated::Serial(line) => std::iter::once(format!("serial {}", line.len()))
            .chain(line.iter().map(u8::to_string))
            .collect(),
        Stated::Cycle(cycle) => std::iter::once(format!("cycle {}", cycle.len()))
            .chain(cycle.iter().map(|(who, why)| format!("{who} {why}")))
            .collect(),
        Stated::Refused(number, place) => vec![format!("refused {number} {place}")],
    };
    lines.join("\n") + "\n"
}

/// "Sorting the conflict edges alone. P12 has no cycle among conflicts."
#[test]
fn conflicts_alone_leave_p12_without_a_cycle() {
    let history = History::of_log(&by_name("P12").log).unwrap();
    let sorted = sort(&history.transactions(), |i, j| is_conflict(&history, i, j));
    assert!(matches!(sorted, Sorted::Line(_)));
}

/// "Taking the latest write of the *item*, at any site, as the source of a
/// read. P2 would then pass."
#[test]
fn sources_by_item_would_let_p2_pass() {
    let mut history = History::of_log(&by_name("P2").log).unwrap();
    assert_eq!(history.sources[7], common::at(0, 1));
    history.sources[7] = common::at(1, 5);
    let sorted = sort(&history.transactions(), |i, j| reason(&history, i, j) != 0);
    assert_eq!(sorted, Sorted::Line(vec![0, 1, 2]));
}

/// "Giving a read-before edge to a writer that comes *before* the source. P3
/// with w3[yC] c3 put in front, which is serial 3 0 1 2, would turn cyclic."
#[test]
fn read_before_an_earlier_writer_would_make_a_cycle() {
    let case = by_name("P3 with w3[yC] c3 in front");
    let history = History::of_log(&case.log).unwrap();
    let members: BTreeSet<u8> = history.transactions();
    assert!(matches!(
        sort(&members, |i, j| reason(&history, i, j) != 0
            || (i, j) == (1, 3)),
        Sorted::Cycle(_)
    ));
}

#[test]
fn the_notation_is_read_and_written() {
    let bytes = log("w0[xA] r12[zP] w0[5,15] c63 (3,0,1,0) (7,8,9)");
    assert_eq!(
        bytes,
        [2, 0, 0, 0, 1, 12, 2, 15, 2, 0, 5, 15, 3, 63, 0, 0, 3, 0, 1, 0, 7, 8, 9]
    );
    assert_eq!(
        show(&bytes),
        "w0[xA] r12[zP] w0[5,15] c63 (3,0,1,0) (7,8,9)"
    );
    for wrong in [
        "x", "w0", "w[xA]", "w0[aA]", "w0[xQ]", "c", "c256", "c+1", "()", "w0[1,]",
    ] {
        assert!(parse(wrong).is_err(), "{wrong}");
    }
    for index in 0..20_000 {
        let log = second::maker::make(5, index);
        assert_eq!(parse(&show(&log)).as_deref(), Ok(&log[..]));
    }
}
