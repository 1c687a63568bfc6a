//! The table of times, in Markdown.

use crate::check::Verdict;
use crate::logs::Logs;
use crate::proved_verdict;
use crate::rows::Row;
use crate::timing::{fastest, Checker, ROUNDS};
use crate::tuned;
use second::verdict::verdict;

/// The heads of the columns.
const HEADS: [&str; 13] = [
    "records",
    "copies",
    "transactions",
    "reads",
    "logs",
    "proved",
    "tuned",
    "second",
    "proved / tuned",
    "records grow",
    "proved grows",
    "tuned grows",
    "second grows",
];

/// A row with the times of the proved, the tuned and the second checker.
struct Timed {
    row: Option<Row>,
    times: [f64; 3],
}

/// Takes the times and prints them, row by row.
pub fn print(rows: &[Logs]) {
    println!("Microseconds a log, in the fastest of {ROUNDS} rounds. The logs of a row are judged in turn, half of");
    println!("them lines and half cycles; P2 is a single log. The answer buffer has 128 bytes, and is not cleared.");
    println!("\"Grows\": from the row of the same kind with the next fewer records.");
    println!();
    println!("| {} |", HEADS.join(" | "));
    println!("|{}", "---:|".repeat(HEADS.len()));
    let checkers = [
        checker(proved_verdict, false),
        checker(tuned::verdict, false),
        checker(verdict, true),
    ];
    let mut all: Vec<Timed> = Vec::new();
    for row in rows {
        let times = fastest(&checkers, &row.logs);
        let timed = Timed {
            row: row.row,
            times,
        };
        print_row(row, &timed, &all);
        all.push(timed);
    }
    let largest = all.iter().map(Timed::ratio).fold(0.0, f64::max);
    println!();
    println!("The largest of the ratios proved / tuned is {largest:.2}.");
}

fn checker(judge: Verdict, is_slow: bool) -> Checker {
    Checker { judge, is_slow }
}

impl Timed {
    fn ratio(&self) -> f64 {
        self.times[0] / self.times[1]
    }

    /// How much longer each takes than with fewer records.
    fn growth(&self, before: &Timed) -> String {
        let grown = self.times.iter().zip(before.times);
        let cells: Vec<String> = grown
            .map(|(now, before)| format!("× {:.1}", now / before))
            .collect();
        cells.join(" | ")
    }
}

fn print_row(row: &Logs, timed: &Timed, earlier: &[Timed]) {
    let [proved, tuned, second] = timed.times;
    let shorter = timed.row.and_then(Row::shorter);
    let before = earlier
        .iter()
        .find(|earlier| shorter.is_some() && earlier.row == shorter);
    let growth = match (timed.row, shorter, before) {
        (Some(row), Some(shorter), Some(before)) => format!(
            "× {} | {}",
            row.records / shorter.records,
            timed.growth(before)
        ),
        _ => " | | | ".to_string(),
    };
    println!(
        "| {} | {} | {proved:.3} | {tuned:.3} | {second:.1} | {:.2} | {growth} |",
        row.words(),
        row.logs.len(),
        timed.ratio()
    );
}
