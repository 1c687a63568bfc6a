//! The kinds of logs that the trial stack must hold, each with its number.

use std::collections::{BTreeMap, BTreeSet};

use second::verdict::Answer;

use crate::{judge, Lent, BUFFERS};

/// What was met in a stack.
#[derive(Default)]
struct Met {
    lines: BTreeMap<usize, usize>,
    cycles: BTreeMap<usize, usize>,
    reasons: BTreeMap<u8, usize>,
    /// For each number its logs and their places.
    refused: BTreeMap<u32, (usize, BTreeSet<usize>)>,
    buffers: BTreeMap<usize, usize>,
}

/// Counts the logs by their answers and buffers.
fn met(logs: &[Lent]) -> Met {
    let mut met = Met::default();
    for lent in logs {
        *met.buffers.entry(lent.buffer).or_default() += 1;
        let (answer, buffer) = judge(lent);
        match answer {
            Answer::Serial(n) => *met.lines.entry(n).or_default() += 1,
            Answer::Cycle(n) => {
                *met.cycles.entry(n).or_default() += 1;
                for k in 0..n {
                    *met.reasons.entry(buffer[2 * k + 1]).or_default() += 1;
                }
            }
            Answer::Refused(refusal) => {
                let entry = met.refused.entry(refusal.number).or_default();
                entry.0 += 1;
                entry.1.insert(refusal.place);
            }
        }
    }
    met
}

/// Prints what is there.
pub fn show(logs: &[Lent]) {
    let met = met(logs);
    println!("{} logs", logs.len());
    println!("lines by length: {:?}", met.lines);
    println!("cycles by length: {:?}", met.cycles);
    println!("edges of cycles by reason: {:?}", met.reasons);
    println!("refused, by number, with places: {:?}", met.refused);
    println!("buffers by length: {:?}", met.buffers);
}

/// Stops where a kind is missing.
pub fn check(logs: &[Lent]) {
    let met = met(logs);
    assert!(logs.len() >= 280, "{} logs", logs.len());
    assert!(
        (0..=64).all(|n| met.lines.contains_key(&n)),
        "a length of lines is missing"
    );
    assert!(
        (2..=64).all(|n| met.cycles.contains_key(&n)),
        "a length of cycles is missing"
    );
    assert!(
        (1..=3).all(|reason| met.reasons.get(&reason) >= Some(&100)),
        "a reason is rare"
    );
    assert!(
        BUFFERS
            .iter()
            .all(|buffer| met.buffers.get(buffer) >= Some(&4)),
        "a buffer is rare"
    );
    for number in 1..=9 {
        let (count, places) = &met.refused[&number];
        let (logs_wanted, places_wanted) = match number {
            1 => (1, 1),
            2 | 3 => (8, 1),
            _ => (6, 5),
        };
        assert!(
            *count >= logs_wanted && places.len() >= places_wanted,
            "refusal {number} is rare"
        );
    }
}
