//! The two questions, asked of stored logs: for each log that is named, the
//! arguments of a question and the line that is printed for it, one question to
//! a line, with tabs between the log's name, the arguments and the answer.
//!
//!     questions FILE ..

use second::edges::printed_edge;
use second::record::RECORD_BYTES;
use second::source::printed_source;

/// Of a log with more records, the first and the last few are asked.
const MANY: usize = 24;
const FEW: usize = 4;

/// The records that are asked: all of a short log; one past the end; and a
/// number that no record has.
fn records_asked(log: &[u8]) -> Vec<u64> {
    let past = log.len() / RECORD_BYTES;
    let mut asked: Vec<u64> = Vec::new();
    for k in 0..=past {
        if past <= MANY || k < FEW || k + FEW >= past {
            asked.push(k as u64);
        }
    }
    asked.push(100_000);
    asked
}

/// The edges that are asked: between some transactions of the log, each to each
/// and to itself; to one that is seldom in a log; and from and to the first
/// number that is no transaction.
fn edges_asked(log: &[u8]) -> Vec<(u64, u64)> {
    let mut some = Vec::new();
    for record in log.chunks_exact(RECORD_BYTES).take(MANY) {
        let transaction = u64::from(record[1]);
        if transaction < 64 && some.len() < FEW && !some.contains(&transaction) {
            some.push(transaction);
        }
    }
    let mut asked = vec![(0, 64), (64, 0), (0, 9)];
    for &i in &some {
        for &j in &some {
            asked.push((i, j));
        }
    }
    asked
}

fn main() {
    for name in std::env::args().skip(1) {
        let log = match std::fs::read(&name) {
            Ok(log) => log,
            Err(error) => {
                eprintln!("questions: {name}: {error}");
                std::process::exit(1);
            }
        };
        for k in records_asked(&log) {
            print!("{name}\t--source {k}\t{}", printed_source(&log, k));
        }
        for (i, j) in edges_asked(&log) {
            print!("{name}\t--edge {i} {j}\t{}", printed_edge(&log, i, j));
        }
    }
}
