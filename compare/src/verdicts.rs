//! The verdict: the first buffer with which the two checkers differ on a log, in the answer or in any byte of the memory.

use crate::buffers::{Lender, Memory};
use crate::graph::Graph;
use crate::verdict_tally::VerdictTally;
use crate::{demand, proved};
use second::check::Refusal;
use second::record::ANSWER_BYTES;
use second::verdict::{printed_answer, verdict, Answer};

/// An answer with the bytes that it writes to the front of the buffer.
#[derive(Clone)]
pub struct Verdict {
    pub answer: Answer,
    pub bytes: Vec<u8>,
}

impl Verdict {
    fn of_second(log: &[u8], room: usize) -> Verdict {
        let mut bytes = vec![0; room];
        let answer = verdict(log, &mut bytes);
        bytes.truncate(match answer {
            Answer::Serial(n) | Answer::Cycle(n) => 2 * n,
            Answer::Refused(_) => 0,
        });
        Verdict { answer, bytes }
    }

    /// What the program would print, on one line.
    pub fn words(&self) -> String {
        words(self.answer, &self.bytes)
    }
}

/// What the program would print for an answer, on one line.
pub fn words(answer: Answer, buffer: &[u8]) -> String {
    let printed = printed_answer(answer, buffer);
    printed.trim_end().replace('\n', ", ")
}

/// The first thing on which the two checkers differ, in words, or that demand 3 has against the answer.
pub fn difference(
    log: &[u8],
    graph: &Result<Graph, Refusal>,
    lender: &mut Lender,
    tally: &mut VerdictTally,
) -> Option<String> {
    let rooms = lender.rooms(graph.is_ok());
    let memory = lender.memory();
    // No answer depends on how much longer than 128 bytes the buffer is, and the second checker's takes long: one serves them all.
    let mut with_room = None;
    let found = rooms.iter().find_map(|&room| {
        let expected = if room < ANSWER_BYTES {
            Verdict::of_second(log, room)
        } else {
            let known = with_room.get_or_insert_with(|| Verdict::of_second(log, room));
            known.clone()
        };
        tally.count(room, &expected, graph.as_ref().err());
        difference_with(log, room, &memory, ("second", &expected))
    });
    tally.count_log(rooms);
    found.or_else(|| match graph {
        Ok(graph) => demand::objection(log, graph, &mut tally.demand),
        Err(_) => None,
    })
}

/// What is wrong with the proved verdict with a buffer of so many bytes, in words. All of the memory is looked at: what is to be
/// written, the rest of the buffer and what stands around it.
pub fn difference_with(
    log: &[u8],
    room: usize,
    memory: &Memory,
    (whose, expected): (&str, &Verdict),
) -> Option<String> {
    let mut found = memory.clone();
    let got = proved::verdict(log, found.lent(room));
    let byte = found.objection(&memory.with(&expected.bytes));
    if got == Ok(expected.answer) && byte.is_none() {
        return None;
    }
    let proved = match got {
        Ok(answer) => words(answer, found.lent(room)),
        Err(judged) => format!("{judged:?}"),
    };
    let second = expected.words();
    let byte = byte.map_or(String::new(), |byte| format!("; {byte}"));
    Some(format!(
        "verdict with a buffer of {room} bytes: proved {proved}; {whose} {second}{byte}"
    ))
}
