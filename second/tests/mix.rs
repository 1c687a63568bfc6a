//! What the mix of the maker holds, and how long it takes.

use std::collections::BTreeMap;
use std::time::{Duration, Instant};

use second::check::check;
use second::maker::{family_name, make, make_of, Family, SHARES};
use second::named::Stated;
use second::record::{ANSWER_BYTES, RECORDS, RECORD_BYTES};
use second::source::sources_of_log;

mod common;

const LOGS: u64 = 100_000;

#[test]
fn every_refusal_is_met_and_many_logs_pass() {
    let start = Instant::now();
    let mut refused = BTreeMap::new();
    let mut passed = 0;
    let mut reads = 0;
    for index in 0..LOGS {
        match sources_of_log(&make(1, index)) {
            Ok(sources) => {
                passed += 1;
                reads += sources.iter().flatten().count();
            }
            Err(refusal) => *refused.entry(refusal.number).or_insert(0) += 1,
        }
    }
    println!("{LOGS} logs, check and sources: {:?}", start.elapsed());
    println!("passed {passed} ({reads} reads), refused {refused:?}");
    assert!(passed >= 30_000);
    for number in [1, 2, 4, 5, 6, 7, 8, 9] {
        assert!(refused.get(&number) >= Some(&300), "{number}");
    }
}

#[test]
fn the_verdicts_of_the_mix() {
    let start = Instant::now();
    let mut answers: BTreeMap<(&str, String), u32> = BTreeMap::new();
    let mut cycles: BTreeMap<usize, u32> = BTreeMap::new();
    let mut lines: BTreeMap<usize, u32> = BTreeMap::new();
    let mut reasons: BTreeMap<u8, u32> = BTreeMap::new();
    for index in 0..LOGS {
        let log = make(1, index);
        let answer = match common::full_answer(&log, ANSWER_BYTES) {
            Stated::Serial(line) => {
                *lines.entry(line.len()).or_default() += 1;
                "serial".to_string()
            }
            Stated::Cycle(cycle) => {
                *cycles.entry(cycle.len()).or_default() += 1;
                for (_, reason) in cycle {
                    *reasons.entry(reason).or_default() += 1;
                }
                "cycle".to_string()
            }
            Stated::Refused(number, _) => format!("refused {number}"),
        };
        *answers.entry((family_name(1, index), answer)).or_default() += 1;
    }
    println!("{LOGS} logs, verdict: {:?}", start.elapsed());
    for ((family, answer), count) in &answers {
        println!("{family:>14} {answer:<10} {count}");
    }
    println!("lines by length: {lines:?}");
    println!("cycles by length: {cycles:?}");
    println!("reasons in cycles: {reasons:?}");
    assert!(cycles.contains_key(&64) && lines.contains_key(&64));
    assert!((1..=3).all(|reason| reasons.get(&reason) >= Some(&1_000)));
}

#[test]
fn the_passing_family_passes_and_is_fixed_by_seed_and_index() {
    for index in 0..30_000 {
        let log = make_of(Family::Passing, 2, index);
        assert_eq!(check(&log), Ok(()));
        assert_eq!(log, make_of(Family::Passing, 2, index));
    }
    assert_ne!(make(1, 0), make(2, 0));
    assert_eq!(
        SHARES.iter().map(|&(_, share)| share).sum::<usize>(),
        10_000
    );
}

#[test]
fn full_logs_are_bearable() {
    let mut passed = 0;
    let mut longest = [Duration::ZERO; 2];
    for index in 0..100 {
        let log = make_of(Family::Full, 1, index);
        assert_eq!(log.len(), RECORDS * RECORD_BYTES);
        let start = Instant::now();
        passed += u32::from(sources_of_log(&log).is_ok());
        longest[0] = longest[0].max(start.elapsed());
        let start = Instant::now();
        common::full_answer(&log, ANSWER_BYTES);
        longest[1] = longest[1].max(start.elapsed());
    }
    println!("full logs: {passed} of 100 pass");
    println!("longest check and sources, longest verdict: {longest:?}");
    assert!((50..=95).contains(&passed));
}

#[test]
fn the_limit_families_have_their_lengths() {
    for length in [16_385, 16_386, 16_387, 16_388] {
        assert!((0..400).any(|index| make_of(Family::TooLong, 1, index).len() == length));
    }
    for length in [16_381, 16_382, 16_383] {
        assert!((0..1_000).any(|index| make_of(Family::Uneven, 1, index).len() == length));
    }
}

/// How often logs that pass hold what makes the rules differ.
#[test]
fn passing_logs_hold_the_rare_things() {
    let mut met = [0; 6];
    for index in 0..10_000 {
        let log = make_of(Family::Passing, 9, index);
        let rows: Vec<&[u8]> = log.chunks_exact(RECORD_BYTES).collect();
        let sources = sources_of_log(&log).unwrap();
        let own = rows
            .iter()
            .zip(sources)
            .any(|(row, source)| source.map(|source| source.transaction) == Some(row[1]));
        let lone = |who| rows.iter().filter(|row| row[1] == who).count() == 1;
        let repeated = rows
            .iter()
            .enumerate()
            .any(|(k, row)| rows[..k].contains(row));
        met[0] += u32::from(own);
        met[1] += u32::from(rows.iter().any(|row| lone(row[1])));
        met[2] += u32::from(repeated);
        met[3] += u32::from(rows.iter().any(|row| row[1] == 63));
        met[4] += u32::from(rows.iter().any(|row| row[2] == 63));
        met[5] += u32::from(rows.iter().any(|row| row[3] == 15));
    }
    println!("own reads, lone commits, repeats, transaction 63, item 63, site 15: {met:?}");
    assert!(met.iter().all(|&count| count >= 500));
}
