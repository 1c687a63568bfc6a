//! The verdict on a log and what the program prints for it.

use crate::check::{check_length, check_records, Refusal};
use crate::edges::all_reasons;
use crate::history::History;
use crate::record::{records, ANSWER_BYTES, LOG_BYTES};
use crate::sort::{sort, Sorted};

/// "An answer is a serial line, a cycle or a refusal, and a refusal has its
/// own kind and place."
///
/// A line and a cycle carry their length n; their records stand in the answer
/// buffer.
#[derive(Clone, Copy, Debug, PartialEq, Eq)]
pub enum Answer {
    Serial(usize),
    Cycle(usize),
    Refused(Refusal),
}

/// "1 to 3 come first, in that order. Then records are taken from the first";
/// "The first 2n bytes are written, n the length of line or cycle, and all
/// other bytes keep their content."; "Every refusal leaves the answer buffer
/// untouched."
pub fn verdict(log: &[u8], answer: &mut [u8]) -> Answer {
    match history_for_verdict(log, answer.len()) {
        Err(refusal) => Answer::Refused(refusal),
        Ok(history) => answer_for(&history, answer),
    }
}

/// "1 to 3 come first, in that order. Then records are taken from the first";
/// "3: answer buffer shorter than 128 bytes, place 0"
fn history_for_verdict(log: &[u8], answer_bytes: usize) -> Result<History, Refusal> {
    check_length(log)?;
    if answer_bytes < ANSWER_BYTES {
        return Err(Refusal {
            number: 3,
            place: 0,
        });
    }
    let records = records(log);
    check_records(&records)?;
    Ok(History::of_checked(records))
}

/// "Answer record k, 2 bytes, is the transaction and 0."; "Answer record k is
/// the transaction and the reason of its edge to the next; the last one's edge
/// goes back to the first."
fn answer_for(history: &History, answer: &mut [u8]) -> Answer {
    let reasons = all_reasons(history);
    let reason = |i: u8, j: u8| reasons[usize::from(i)][usize::from(j)];
    match sort(&history.transactions(), |i, j| reason(i, j) != 0) {
        Sorted::Line(line) => {
            for (k, &transaction) in line.iter().enumerate() {
                answer[2 * k] = transaction;
                answer[2 * k + 1] = 0;
            }
            Answer::Serial(line.len())
        }
        Sorted::Cycle(cycle) => {
            for (k, &transaction) in cycle.iter().enumerate() {
                let next = cycle[(k + 1) % cycle.len()];
                answer[2 * k] = transaction;
                answer[2 * k + 1] = reason(transaction, next);
            }
            Answer::Cycle(cycle.len())
        }
    }
}

/// "It reads a log from standard input. It reads one byte past the limit, so
/// that a long input gives `refused 1 0`."
///
/// Exactly what the program prints for the input.
pub fn printed(input: &[u8]) -> String {
    let read = input.len().min(LOG_BYTES + 1);
    let mut buffer = [0; ANSWER_BYTES];
    let answer = verdict(&input[..read], &mut buffer);
    printed_answer(answer, &buffer)
}

/// "First line: `serial n`, `cycle n`, or `refused number place`. Then one
/// line an answer record: the transaction alone for a serial line, the
/// transaction, a space and the reason for a cycle."
///
/// Every line ends with a newline, the last one too.
pub fn printed_answer(answer: Answer, buffer: &[u8]) -> String {
    let mut text = String::new();
    match answer {
        Answer::Serial(n) => {
            text += &format!("serial {n}\n");
            for k in 0..n {
                text += &format!("{}\n", buffer[2 * k]);
            }
        }
        Answer::Cycle(n) => {
            text += &format!("cycle {n}\n");
            for k in 0..n {
                text += &format!("{} {}\n", buffer[2 * k], buffer[2 * k + 1]);
            }
        }
        Answer::Refused(refusal) => text += &refusal.printed(),
    }
    text
}
