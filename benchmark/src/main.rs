//! Times the proved verdict beside the second checker and beside a tuned one without proofs, on the same logs in one run, and prints
//! a table in Markdown. It says how long things take, and asks nothing of the times.
//!
//! Before, the three have to agree, answer and bytes. With `--check` that is all, of the tuned checker alone and on more logs, and the
//! last line is `N passed, M failed`.

mod check;
mod logs;
mod rows;
mod table;
mod timing;
mod tuned;

/// The declarations are those of the comparison, which also uses the others of the library's functions.
#[allow(dead_code)]
#[path = "../../compare/src/proved.rs"]
mod proved;

use check::Tally;
use logs::Logs;
use second::verdict::Answer;

/// How many made logs the tuned checker is held to before the times are taken, and where nothing else is done.
const MADE_BEFORE: u64 = 5_000;
const MADE_ALONE: u64 = 20_000;

/// The proved verdict; four numbers that the header rules out are no verdict to time.
fn proved_verdict(log: &[u8], answer: &mut [u8]) -> Answer {
    match proved::verdict(log, answer) {
        Ok(verdict) => verdict,
        Err(judged) => panic!("the header rules out {judged:?}"),
    }
}

fn main() {
    let only_check = match std::env::args().nth(1).as_deref() {
        None => false,
        Some("--check") => true,
        Some(other) => {
            eprintln!("benchmark [--check], and not {other}");
            std::process::exit(2);
        }
    };
    let rows = Logs::all();
    let mut tally = Tally::default();
    check::rows(&rows, tuned::verdict, &mut tally);
    if only_check {
        check::more(MADE_ALONE, tuned::verdict, &mut tally);
        println!("{} passed, {} failed", tally.passed, tally.failed);
    } else {
        check::more(MADE_BEFORE, tuned::verdict, &mut tally);
        check::rows(&rows, proved_verdict, &mut tally);
    }
    if tally.failed > 0 {
        std::process::exit(1);
    }
    if !only_check {
        table::print(&rows);
    }
}
