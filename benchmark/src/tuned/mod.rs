//! A tuned checker without proofs: what a verdict costs where speed alone counts.
//!
//! One pass over the records and one over the reads. Sets of transactions and of items are the bits of a number, the last writer of
//! each copy is kept, nothing is allocated, and of the tables only what a log needs is cleared.

mod graph;
mod read;
mod sets;
mod sort;

use graph::Graph;
use read::Tables;
use second::check::Refusal;
use second::record::{ANSWER_BYTES, LOG_BYTES, RECORD_BYTES};
use second::verdict::Answer;

/// The verdict.
#[inline(never)]
pub fn verdict(log: &[u8], answer: &mut [u8]) -> Answer {
    if log.len() > LOG_BYTES {
        refused(1)
    } else if log.len() % RECORD_BYTES != 0 {
        refused(2)
    } else if answer.len() < ANSWER_BYTES {
        refused(3)
    } else {
        judged(log, answer)
    }
}

fn refused(number: u32) -> Answer {
    Answer::Refused(Refusal { number, place: 0 })
}

/// The verdict on whole records, and with room for any answer.
#[inline(always)]
fn judged(log: &[u8], answer: &mut [u8]) -> Answer {
    let mut tables = Tables::new();
    let pass = match read::read(log, &mut tables) {
        Ok(pass) => pass,
        Err(refusal) => return Answer::Refused(refusal),
    };
    let mut graph = Graph::new();
    // SAFETY: the pass has filled the tables.
    unsafe {
        graph.fill(&tables, &pass);
        sort::sort(&tables, &graph, pass.members, answer)
    }
}
