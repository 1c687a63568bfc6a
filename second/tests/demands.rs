//! The verdict against lines found by trying all permutations, where a line is
//! tested from the log alone by three conditions and never by edges.

mod common;

use second::check::check;
use second::conditions::Conditions;
use second::edges::{all_reasons, reasons};
use second::history::History;
use second::maker::{make, make_of, Family};
use second::named::Stated;
use second::notation::show;
use second::record::ANSWER_BYTES;
use second::small;

/// Compares the verdict with the smallest line that meets the conditions and
/// says whether it was serial.
fn compare(log: &[u8]) -> bool {
    let conditions = Conditions::of_log(log);
    match (
        common::full_answer(log, ANSWER_BYTES),
        conditions.smallest_line(),
    ) {
        (Stated::Serial(line), Some(smallest)) => {
            assert_eq!(line, smallest, "{}", show(log));
            assert_eq!(conditions.copy_not_written_last(&line), None);
            true
        }
        (Stated::Cycle(_), None) => false,
        (answer, smallest) => panic!("{answer:?} {smallest:?} {}", show(log)),
    }
}

#[test]
fn a_line_exists_exactly_where_the_verdict_is_serial() {
    let (mut serial, mut cyclic) = (0, 0);
    for index in 0..12_000 {
        let log = make_of(Family::Passing, 3, index);
        assert_eq!(check(&log), Ok(()));
        let commits = log.chunks_exact(4).filter(|row| row[0] == 3).count();
        if commits <= 6 && log.len() <= 400 {
            if compare(&log) {
                serial += 1;
            } else {
                cyclic += 1;
            }
        }
    }
    println!("brute force: {serial} serial, {cyclic} cyclic");
    assert!(serial > 2_000 && cyclic > 2_000, "{serial} {cyclic}");
}

#[test]
fn the_same_for_every_small_log() {
    let mut passed = 0;
    let mut met = 0;
    small::for_each(small::LONGEST, |log| {
        met += 1;
        if check(log).is_ok() {
            passed += 1;
            compare(log);
        }
    });
    println!("small logs: {met}, of which {passed} pass");
    assert_eq!(met, small::count(small::LONGEST));
    assert_eq!(met, 2_000_719);
}

#[test]
fn answers_agree_with_the_edges() {
    let mut alone = [[0; 3]; 2];
    for index in 0..20_000 {
        let log = make(4, index);
        if log.len() > 1_200 {
            continue;
        }
        let history = match History::of_log(&log) {
            Ok(history) => history,
            Err(_) => continue,
        };
        let all = all_reasons(&history);
        let edge = |i: u8, j: u8| all[usize::from(i)][usize::from(j)];
        match common::full_answer(&log, ANSWER_BYTES) {
            Stated::Serial(line) => {
                let members: Vec<u8> = history.transactions().into_iter().collect();
                let mut sorted = line.clone();
                sorted.sort_unstable();
                assert_eq!(sorted, members);
                for (k, &later) in line.iter().enumerate() {
                    assert!(line[..k].iter().all(|&earlier| edge(later, earlier) == 0));
                }
                count_alone(&history, &mut alone[0]);
            }
            Stated::Cycle(cycle) => {
                for (k, &(here, reason)) in cycle.iter().enumerate() {
                    let next = cycle[(k + 1) % cycle.len()].0;
                    assert!((1..=3).contains(&reason));
                    assert_eq!(edge(here, next), reason);
                }
                count_alone(&history, &mut alone[1]);
            }
            Stated::Refused(..) => panic!("a history was made of it"),
        }
    }
    println!("edges of one reason alone, serial: {:?}", alone[0]);
    println!("edges of one reason alone, cyclic: {:?}", alone[1]);
    assert!(alone.iter().flatten().all(|&count| count > 500));
}

fn count_alone(history: &History, alone: &mut [u32; 3]) {
    let members = history.transactions();
    for &i in &members {
        for &j in &members {
            let applies = reasons(history, i, j);
            if applies.iter().filter(|&&one| one).count() == 1 {
                let which = applies.iter().position(|&one| one).unwrap();
                alone[which] += 1;
            }
        }
    }
}
