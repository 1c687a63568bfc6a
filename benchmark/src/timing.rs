//! How long a verdict takes.

use crate::check::Verdict;
use second::record::ANSWER_BYTES;
use std::time::{Duration, Instant};

/// How many rounds there are; in each, one checker after the other judges all logs of a row.
pub const ROUNDS: usize = 25;

/// The second checker takes part in one round in so many: it takes a thousand times as long.
const SLOW_ROUNDS: usize = 5;

/// How long a checker is kept at it in a round, at least.
const AT_LEAST: Duration = Duration::from_millis(1);

/// A checker, and whether it is a slow one.
pub struct Checker {
    pub judge: Verdict,
    pub is_slow: bool,
}

/// For each checker the microseconds that a log takes in the fastest round: what else the machine does only ever adds to a time.
pub fn fastest(checkers: &[Checker; 3], logs: &[Vec<u8>]) -> [f64; 3] {
    let mut fastest = [f64::INFINITY; 3];
    for round in 0..ROUNDS {
        for (least, checker) in fastest.iter_mut().zip(checkers) {
            if !checker.is_slow || round % SLOW_ROUNDS == 0 {
                *least = least.min(microseconds(checker.judge, logs));
            }
        }
    }
    fastest
}

/// The microseconds that a log takes, the logs judged in turn, so that no processor learns one by heart.
fn microseconds(judge: Verdict, logs: &[Vec<u8>]) -> f64 {
    let mut answer = [0; ANSWER_BYTES];
    let mut judged = 0;
    let start = Instant::now();
    loop {
        for log in logs {
            opaque(judge(opaque(log), &mut answer));
        }
        judged += logs.len();
        let took = start.elapsed();
        if took >= AT_LEAST {
            return took.as_secs_f64() * 1e6 / judged as f64;
        }
    }
}

/// The value itself, of which the compiler then knows nothing. (`std::hint::black_box` is not in Rust 1.63.)
fn opaque<T: Copy>(value: T) -> T {
    // SAFETY: a reference is good to be read.
    unsafe { std::ptr::read_volatile(&value) }
}
