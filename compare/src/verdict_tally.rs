//! How many verdicts the comparison met, by the buffer and by the answer.

use crate::buffers::ROOMS;
use crate::tally::{Met, NUMBERS, REASONS};
use crate::verdicts::Verdict;
use second::check::Refusal;
use second::sort::Sorted;
use second::tables::ROWS;
use second::verdict::Answer;

/// The lengths of lines and of cycles that are told apart: each of few transactions, then many, and all 64.
const LENGTHS: [(usize, usize); 9] = [
    (0, 0),
    (1, 1),
    (2, 2),
    (3, 3),
    (4, 4),
    (5, 5),
    (6, 6),
    (7, ROWS - 1),
    (ROWS, ROWS),
];

/// The shortest cycle's place in `LENGTHS`.
const OF_CYCLES: usize = 2;

/// The verdicts by the second checker's answers.
#[derive(Default)]
pub struct VerdictTally {
    with_all_buffers: u64,
    rooms: [u64; ROOMS.len()],
    refused: [u64; NUMBERS],
    /// Refused for the buffer where the records would be refused too, and for the length where the buffer would be too.
    buffer_before_records: u64,
    length_before_buffer: u64,
    lines: [u64; LENGTHS.len()],
    cycles: [u64; LENGTHS.len()],
    /// The reasons in cycles.
    reasons: [u64; REASONS],
    pub demand: DemandTally,
}

impl VerdictTally {
    /// Counts a log by the buffers that were lent to it.
    pub fn count_log(&mut self, rooms: &[usize]) {
        self.with_all_buffers += u64::from(rooms.len() == ROOMS.len());
    }

    /// Counts a verdict with a buffer of so many bytes; the refusal is the check's.
    pub fn count(&mut self, room: usize, verdict: &Verdict, refusal: Option<&Refusal>) {
        for (count, of) in self.rooms.iter_mut().zip(ROOMS) {
            *count += u64::from(of == room);
        }
        match verdict.answer {
            Answer::Serial(n) => count_length(&mut self.lines, n),
            Answer::Cycle(n) => {
                count_length(&mut self.cycles, n);
                for record in verdict.bytes.chunks_exact(2) {
                    self.reasons[usize::from(record[1])] += 1;
                }
            }
            Answer::Refused(Refusal { number, .. }) => {
                self.refused[number as usize] += 1;
                self.buffer_before_records += u64::from(number == 3 && refusal.is_some());
                self.length_before_buffer += u64::from(number < 3 && room < 2 * ROWS);
            }
        }
    }

    pub fn met(&self) -> Vec<Met> {
        let mut met = vec![Met(
            self.with_all_buffers,
            "logs with all five buffers".to_string(),
        )];
        for (&count, room) in self.rooms.iter().zip(ROOMS) {
            met.push(Met(count, format!("with a buffer of {room} bytes")));
        }
        for number in 1..NUMBERS - 1 {
            met.push(Met(self.refused[number], format!("refused {number}")));
        }
        met.push(Met(
            self.buffer_before_records,
            "refused 3 where the records are refused too".to_string(),
        ));
        met.push(Met(
            self.length_before_buffer,
            "refused 1 or 2 where the buffer is too short too".to_string(),
        ));
        met.extend(met_of_lengths("lines", &self.lines, 0));
        met.extend(met_of_lengths("cycles", &self.cycles, OF_CYCLES));
        for reason in 1..REASONS {
            let what = format!("edges of reason {reason} in cycles");
            met.push(Met(self.reasons[reason], what));
        }
        met
    }
}

fn count_length(counts: &mut [u64], length: usize) {
    for (count, (least, most)) in counts.iter_mut().zip(LENGTHS) {
        *count += u64::from((least..=most).contains(&length));
    }
}

fn met_of_lengths(what: &str, counts: &[u64], first: usize) -> Vec<Met> {
    let lengths = counts.iter().zip(LENGTHS).skip(first);
    lengths
        .map(|(&count, (least, most))| {
            let length = if least == most {
                least.to_string()
            } else {
                format!("{least} to {most}")
            };
            Met(count, format!("{what} of {length}"))
        })
        .collect()
}

/// The verdicts that were held to demand 3 without the second checker's rule.
#[derive(Default)]
pub struct DemandTally {
    /// Of few transactions, where every line was tried; and of more.
    lines: [u64; 2],
    cycles: [u64; 2],
}

impl DemandTally {
    pub fn count(&mut self, sorted: &Sorted, are_few: bool) {
        let counts = match sorted {
            Sorted::Line(_) => &mut self.lines,
            Sorted::Cycle(_) => &mut self.cycles,
        };
        counts[usize::from(!are_few)] += 1;
    }

    pub fn met(&self) -> Vec<Met> {
        let named = [
            (self.lines[0], "lines found by trying every line"),
            (self.cycles[0], "cycles where trying every line finds none"),
            (
                self.lines[1],
                "lines of more than 6 that meet the conditions",
            ),
            (self.cycles[1], "cycles among more than 6"),
        ];
        let met = named.into_iter();
        met.map(|(count, what)| Met(count, what.to_string()))
            .collect()
    }
}
