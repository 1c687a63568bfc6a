//! What demand 3 asks of the proved verdict on a log that passes: of a line its conditions, of a cycle its edges, and never the rule
//! that yields them. Of every log with at most 6 transactions all lines are tried; of the others the line given has to meet the
//! conditions, and the cycle given has to be one.

use crate::graph::Graph;
use crate::meaning::{against_smallest, objection as objection_to_sorted};
use crate::proved;
use crate::sorts::MOST_TO_TRY;
use crate::verdict_tally::DemandTally;
use crate::verdicts::words;
use second::conditions::Conditions;
use second::record::ANSWER_BYTES;
use second::sort::Sorted;
use second::verdict::Answer;

/// The first thing that demand 3 has against the proved verdict, in words.
pub fn objection(log: &[u8], graph: &Graph, tally: &mut DemandTally) -> Option<String> {
    // No answer has this byte, so that one that was not written shows.
    let mut buffer = [u8::MAX; ANSWER_BYTES];
    let answer = match proved::verdict(log, &mut buffer) {
        Ok(answer) => answer,
        Err(judged) => return Some(format!("verdict: proved {judged:?}")),
    };
    let wrong = match sorted(answer, &buffer) {
        Some(sorted) => objection_to_sorted(&graph.table(), &sorted)
            .map(str::to_string)
            .or_else(|| against_reasons(graph, &sorted, &buffer))
            .or_else(|| against_conditions(log, &sorted, tally))?,
        None => "the log passes".to_string(),
    };
    let proved = words(answer, &buffer);
    Some(format!("verdict: proved {proved}: {wrong}"))
}

/// The transactions of a line or of a cycle; a refusal has none.
fn sorted(answer: Answer, buffer: &[u8]) -> Option<Sorted> {
    let transactions = |n: usize| buffer[..2 * n].iter().step_by(2).copied().collect();
    match answer {
        Answer::Serial(n) => Some(Sorted::Line(transactions(n))),
        Answer::Cycle(n) => Some(Sorted::Cycle(transactions(n))),
        Answer::Refused(_) => None,
    }
}

/// "a cycle of the graph is given, each edge with its true reason", the lowest that applies; a line has 0 in its place.
fn against_reasons(graph: &Graph, sorted: &Sorted, buffer: &[u8]) -> Option<String> {
    let reasons: Vec<u8> = match sorted {
        Sorted::Line(line) => vec![0; line.len()],
        Sorted::Cycle(cycle) => {
            let nexts = cycle.iter().cycle().skip(1);
            let edges = cycle.iter().zip(nexts);
            edges.map(|(&i, &j)| graph.reason(i, j)).collect()
        }
    };
    let k = (0..reasons.len()).find(|&k| buffer[2 * k + 1] != reasons[k])?;
    Some(format!("the reason of record {k} has to be {}", reasons[k]))
}

/// The conditions of a line, by the records alone.
fn against_conditions(log: &[u8], sorted: &Sorted, tally: &mut DemandTally) -> Option<String> {
    let conditions = Conditions::of_log(log);
    let are_few = conditions.members.len() <= MOST_TO_TRY;
    tally.count(sorted, are_few);
    if are_few {
        let found = against_smallest(Some(sorted), conditions.smallest_line());
        if found.is_some() {
            return found;
        }
    }
    match sorted {
        Sorted::Line(line) if !conditions.fits(line) => {
            Some("the line does not meet the conditions".to_string())
        }
        Sorted::Line(line) => conditions
            .copy_not_written_last(line)
            .map(|copy| format!("copy {copy} was not written last by the last writer in the line")),
        Sorted::Cycle(_) => None,
    }
}
