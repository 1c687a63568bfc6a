//! The maker of the trial stack: some 300 logs of every kind in one file, and
//! what the program prints for each.
//!
//! A Rattle program judges the stack and is held to the answers, which are the
//! second checker's. Both files are made again by
//!
//!     cargo run --release --offline --manifest-path second/Cargo.toml --bin trial_stack -- stack > crates/trial/stdin
//!     cargo run --release --offline --manifest-path second/Cargo.toml --bin trial_stack -- answers > crates/trial/stdout
//!
//! and `-- check crates/trial` holds the two files in that folder to what would
//! be made. They are fixed by `SEED` alone.
//!
//! In the stack stand for each log: 2 bytes, the low one first, with its
//! length; 2 bytes, likewise, with the length of the answer buffer to lend; its
//! bytes. In the answers stand for each log: a line `log K`, K counted from 0;
//! the answer as the program prints it.

use std::collections::BTreeSet;
use std::env;
use std::fs;
use std::io::{self, Write};
use std::path::Path;
use std::process::ExitCode;

use second::generator::Generator;
use second::maker::{make, make_of, Family};
use second::named::named;
use second::record::ANSWER_BYTES;
use second::small;
use second::verdict::{printed_answer, verdict, Answer};

mod chains;
mod kinds;

/// Fixes every log that is drawn.
const SEED: u64 = 300;

/// So many logs of the mix are looked through.
const MIX: u64 = 20_000;

/// The stack stays below this, so that a program can read it into one buffer of
/// 65,536 bytes and see its end.
const STACK_BYTES: usize = 65_000;

/// Lengths of answer buffers: none, just too short, just enough, one more, far
/// more.
const BUFFERS: [usize; 5] = [0, 127, 128, 129, 400];

/// A log and the length of the answer buffer to lend with it.
pub struct Lent {
    pub log: Vec<u8>,
    pub buffer: usize,
}

/// The verdict on a lent log, and the answer buffer after it.
pub fn judge(lent: &Lent) -> (Answer, Vec<u8>) {
    let mut answer = vec![0; lent.buffer];
    (verdict(&lent.log, &mut answer), answer)
}

/// All logs of the stack, in order. The one log of 4,097 records is the only
/// one that is refused 1: each would cost a quarter of the stack.
fn logs() -> Vec<Lent> {
    let mut all: Vec<Lent> = Vec::new();
    for one in named() {
        all.push(Lent {
            log: one.log,
            buffer: one.buffer,
        });
    }
    let mut add = |log| {
        all.push(Lent {
            log,
            buffer: ANSWER_BYTES,
        })
    };
    (2..=64).for_each(|n| add(chains::cycle(n, &mut Generator::new(SEED, n as u64))));
    (1..=64).for_each(|n| add(chains::line(n, &mut Generator::new(SEED, 100 + n as u64))));
    refused().into_iter().for_each(&mut add);
    uneven().into_iter().for_each(&mut add);
    passing().into_iter().for_each(&mut add);
    some_small().into_iter().for_each(&mut add);
    all.extend(other_buffers());
    all
}

/// For each of the refusals 4 to 9 a short log at each place that the mix has
/// in short logs, and a longer one with a place further on.
fn refused() -> Vec<Vec<u8>> {
    const FAR: usize = 20;
    let mut logs = Vec::new();
    let mut met = BTreeSet::new();
    for index in 0..MIX {
        let log = make(SEED, index);
        if let Answer::Refused(refusal) = verdict(&log, &mut [0; ANSWER_BYTES]) {
            let place = refusal.place.min(FAR);
            let longest = if place == FAR { 120 } else { 32 };
            if refusal.number >= 4 && log.len() <= longest && met.insert((refusal.number, place)) {
                logs.push(log);
            }
        }
    }
    logs
}

/// Logs whose length is no multiple of 4, from the maker: each of the first
/// lengths once.
fn uneven() -> Vec<Vec<u8>> {
    let mut logs: Vec<Vec<u8>> = Vec::new();
    for index in 0..2_000 {
        let log = make_of(Family::Uneven, SEED, index);
        if log.len() <= 24 && logs.iter().all(|other| other.len() != log.len()) {
            logs.push(log);
        }
    }
    logs
}

/// Short lines and cycles from the mix: as many of the one as of the other.
fn passing() -> Vec<Vec<u8>> {
    const OF_EACH: usize = 20;
    let (mut lines, mut cycles) = (Vec::new(), Vec::new());
    for index in 0..MIX {
        let log = make(SEED, index);
        let kept = match verdict(&log, &mut [0; ANSWER_BYTES]) {
            Answer::Serial(n) if n > 1 => &mut lines,
            Answer::Cycle(_) => &mut cycles,
            _ => continue,
        };
        if (16..=40).contains(&log.len()) && kept.len() < OF_EACH {
            kept.push(log);
        }
    }
    lines.append(&mut cycles);
    lines
}

/// Every 300th of all logs of at most 3 records over 2 transactions, 2 items
/// and 2 sites.
fn some_small() -> Vec<Vec<u8>> {
    let mut logs = Vec::new();
    let mut index = 0;
    small::for_each(3, |log| {
        if index % 300 == 299 {
            logs.push(log.to_vec());
        }
        index += 1;
    });
    logs
}

/// Every length of buffer with the empty log, a line, a cycle, a ragged log and
/// one of a wrong kind: 2 comes before 3, and 3 before 4.
fn other_buffers() -> Vec<Lent> {
    let wanted = ["P1", "P9", "P4", "3 bytes", "kind 0"];
    let mut logs = Vec::new();
    for one in named().iter().filter(|one| wanted.contains(&one.name)) {
        for buffer in BUFFERS {
            logs.push(Lent {
                log: one.log.clone(),
                buffer,
            });
        }
    }
    logs
}

/// The stack as bytes.
fn stack_of(logs: &[Lent]) -> Vec<u8> {
    let mut stack = Vec::new();
    for lent in logs {
        for length in [lent.log.len(), lent.buffer] {
            stack.extend([(length % 256) as u8, (length / 256) as u8]);
        }
        stack.extend(&lent.log);
    }
    assert!(stack.len() < STACK_BYTES, "{} bytes", stack.len());
    stack
}

/// The answers as text.
fn answers_of(logs: &[Lent]) -> Vec<u8> {
    let mut text = String::new();
    for (k, lent) in logs.iter().enumerate() {
        let (answer, buffer) = judge(lent);
        text += &format!("log {k}\n{}", printed_answer(answer, &buffer));
    }
    text.into_bytes()
}

/// Holds a file to what it should be, and says so.
fn is_made(path: &Path, made: &[u8]) -> bool {
    let same = fs::read(path).map_or(false, |stored| stored == made);
    if !same {
        println!("failed: {} is not what trial_stack makes", path.display());
    }
    same
}

/// Holds the two files in a folder to what would be made; the last line is `N
/// passed, M failed`.
fn check(folder: &Path, logs: &[Lent]) -> bool {
    let good = [
        is_made(&folder.join("stdin"), &stack_of(logs)),
        is_made(&folder.join("stdout"), &answers_of(logs)),
    ];
    let passed = good.iter().filter(|&&one| one).count();
    println!("{passed} passed, {} failed", good.len() - passed);
    passed == good.len()
}

fn main() -> ExitCode {
    let logs = logs();
    kinds::check(&logs);
    let words: Vec<String> = env::args().skip(1).collect();
    let words: Vec<&str> = words.iter().map(String::as_str).collect();
    let good = match words[..] {
        ["stack"] => io::stdout().write_all(&stack_of(&logs)).is_ok(),
        ["answers"] => io::stdout().write_all(&answers_of(&logs)).is_ok(),
        ["check", folder] => check(Path::new(folder), &logs),
        ["kinds"] => {
            kinds::show(&logs);
            true
        }
        _ => {
            eprintln!("one of: stack, answers, kinds, check FOLDER");
            false
        }
    };
    if good {
        ExitCode::SUCCESS
    } else {
        ExitCode::FAILURE
    }
}

#[cfg(test)]
mod tests {
    use super::*;

    #[test]
    fn the_stack_has_every_kind_and_stays_short() {
        let logs = logs();
        kinds::check(&logs);
        let bytes: usize = logs.iter().map(|lent| 4 + lent.log.len()).sum();
        assert_eq!(stack_of(&logs).len(), bytes);
    }
}
