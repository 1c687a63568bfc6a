//! Holds what is timed to the second checker: a time for a wrong answer would be worth nothing.

use crate::logs::Logs;
use second::generator::Generator;
use second::maker::make;
use second::named::named;
use second::notation::show;
use second::record::ANSWER_BYTES;
use second::small;
use second::verdict::{verdict, Answer};

/// The maker's seed, which is not that of the comparison.
const SEED: u64 = 131_071;

/// The buffers: too short, just long enough, and longer.
const ROOMS: [usize; 3] = [ANSWER_BYTES - 1, ANSWER_BYTES, ANSWER_BYTES + 12];

/// How many differences are shown.
const SHOWN: u64 = 10;

/// A verdict on a log, its records in the buffer.
pub type Verdict = fn(&[u8], &mut [u8]) -> Answer;

/// How many logs a checker judges as the second checker does, with every buffer, and how many not.
#[derive(Default)]
pub struct Tally {
    pub passed: u64,
    pub failed: u64,
}

impl Tally {
    /// Judges a log by both, and counts it.
    fn log(&mut self, log: &[u8], judge: Verdict, fill: &mut Generator) {
        let mut buffer = [0; ANSWER_BYTES + 12];
        buffer.fill_with(|| fill.byte());
        let agree = ROOMS.iter().all(|&room| {
            let (mut one, mut other) = (buffer, buffer);
            let expected = verdict(log, &mut one[..room]);
            judge(log, &mut other[..room]) == expected && one == other
        });
        if agree {
            self.passed += 1;
            return;
        }
        self.failed += 1;
        if self.failed <= SHOWN {
            println!("DIFFERENT from the second checker: {}", show(log));
        }
    }
}

/// The logs that are timed.
pub fn rows(rows: &[Logs], judge: Verdict, tally: &mut Tally) {
    let mut fill = Generator::new(SEED, u64::MAX);
    for log in rows.iter().flat_map(|row| &row.logs) {
        tally.log(log, judge, &mut fill);
    }
}

/// The logs that document 01 names, every one of up to 3 records over 2 transactions, 2 items and 2 sites, and so many made ones.
pub fn more(made: u64, judge: Verdict, tally: &mut Tally) {
    let mut fill = Generator::new(SEED, u64::MAX);
    for case in named() {
        tally.log(&case.log, judge, &mut fill);
    }
    small::for_each(3, |log| tally.log(log, judge, &mut fill));
    for index in 0..made {
        tally.log(&make(SEED, index), judge, &mut fill);
    }
}
