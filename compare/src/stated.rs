//! The answers that document 01 states of the logs that it names, held to the proved checker's.

use crate::buffers::Memory;
use crate::proved;
use crate::verdicts::{difference_with, Verdict};
use second::check::Refusal;
use second::named::{Named, Stated};
use second::verdict::Answer;

/// What document 01 states of a named log's check: lines and cycles are of logs that pass, and number 3 is the verdict's alone.
pub fn check(stated: &Stated) -> Result<(), Refusal> {
    match *stated {
        Stated::Refused(number, place) if number != 3 => Err(Refusal { number, place }),
        _ => Ok(()),
    }
}

/// What document 01 states of a named log's edges, as from, to and reason: along a cycle the reasons that it gives, and back in a
/// line none, which is 0.
fn edges(stated: &Stated) -> Vec<(u8, u8, u8)> {
    let mut edges = Vec::new();
    match stated {
        Stated::Serial(line) => {
            for (place, &later) in line.iter().enumerate() {
                edges.extend(line[..place].iter().map(|&earlier| (later, earlier, 0)));
            }
        }
        Stated::Cycle(cycle) => {
            let nexts = cycle.iter().cycle().skip(1);
            for (&(i, reason), &(j, _)) in cycle.iter().zip(nexts) {
                edges.push((i, j, reason));
            }
        }
        Stated::Refused(..) => {}
    }
    edges
}

/// What document 01 states of a named log's verdict: "Answer record k, 2 bytes, is the transaction and 0" of a line, and the
/// transaction and the reason of a cycle.
pub fn verdict(stated: &Stated) -> Verdict {
    match stated {
        Stated::Serial(line) => Verdict {
            answer: Answer::Serial(line.len()),
            bytes: line.iter().flat_map(|&member| [member, 0]).collect(),
        },
        Stated::Cycle(cycle) => Verdict {
            answer: Answer::Cycle(cycle.len()),
            bytes: cycle.iter().flat_map(|&(i, reason)| [i, reason]).collect(),
        },
        &Stated::Refused(number, place) => Verdict {
            answer: Answer::Refused(Refusal { number, place }),
            bytes: Vec::new(),
        },
    }
}

/// The first answer on which the proved checker differs from document 01, in words. The verdict is asked with the stated buffer.
pub fn difference(case: &Named, memory: &Memory) -> Option<String> {
    let stated = check(&case.stated);
    let got = proved::check(&case.log);
    if got != stated {
        return Some(format!("check: proved {got:?}, document 01 {stated:?}"));
    }
    for (i, j, reason) in edges(&case.stated) {
        let got = proved::edge_between(&case.log, usize::from(i), usize::from(j));
        if got != Ok(reason) {
            return Some(format!(
                "edge from {i} to {j}: proved {got:?}, document 01 {reason}"
            ));
        }
    }
    let stated = verdict(&case.stated);
    difference_with(&case.log, case.buffer, memory, ("document 01", &stated))
}
