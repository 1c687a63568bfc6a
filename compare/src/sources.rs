//! The question "source of record k": the records that are asked of a log, and the first answer on which the two checkers differ.

use crate::proved;
use crate::source_kinds::Case;
use crate::tally::SourceTally;
use second::check::Refusal;
use second::record::{records, Record, RECORD_BYTES};
use second::source::{source_of_record, sources_of_log, Source};

/// What the second checker answers to "source of record k", for every k.
struct Sources(Result<Vec<Option<Source>>, Refusal>);

impl Sources {
    fn at(&self, log: &[u8], k: usize) -> Result<Option<Source>, Refusal> {
        match &self.0 {
            Ok(sources) if k < sources.len() => Ok(sources[k]),
            Ok(_) => source_of_record(log, k as u64),
            Err(refusal) => Err(*refusal),
        }
    }
}

/// The most records of a long log that are asked, apart from its last. A log is read anew for each question, so that all records
/// of every log would take too long.
const MOST_ASKED: usize = 64;

/// The records that are asked: every one of a short log, and of a long one each so many further on, from a place that its content
/// decides; the last; one past the end; and the largest number.
fn asked(log: &[u8]) -> impl Iterator<Item = usize> {
    let past = log.len() / RECORD_BYTES;
    let step = past / MOST_ASKED + 1;
    let start = log.iter().map(|&byte| usize::from(byte)).sum::<usize>() % step;
    let last = past.saturating_sub(1);
    (start..last).step_by(step).chain([last, past, usize::MAX])
}

/// The first source on which the two checkers differ, by its transaction or by its place, in words.
pub fn difference(log: &[u8], tally: &mut SourceTally) -> Option<String> {
    let sources = Sources(sources_of_log(log));
    let records = records(log);
    for k in asked(log) {
        let expected = sources.at(log, k);
        let got = proved::source_of_record(log, k);
        if got != expected {
            return Some(format!(
                "source of record {k}: proved {got:?}, second {expected:?}"
            ));
        }
        if sources.0.is_ok() {
            count(&records, k, expected, tally);
        }
    }
    None
}

/// Counts an answer of a log that passes by what it says.
fn count(
    records: &[Record],
    k: usize,
    answer: Result<Option<Source>, Refusal>,
    tally: &mut SourceTally,
) {
    match answer {
        Ok(None) => tally.none += 1,
        Ok(Some(source)) => {
            if source.transaction == records[k].transaction {
                tally.own += 1;
            } else {
                tally.other += 1;
            }
            tally.count_kinds(&Case { records, k, source });
        }
        Err(_) => tally.past_the_end += 1,
    }
}
