//! What the comparison met: how many logs and tables, how many of each answer, and those on which
//! the two checkers differ.

use crate::sort_tally::SortTally;
use crate::source_kinds::{Case, OF_SOURCES};
use crate::verdict_tally::VerdictTally;
use second::check::Refusal;
use second::notation::show;

/// How many logs that differ are shown, and how many tables.
const SHOWN: u64 = 10;

/// One past the highest refusal number of document 01.
pub const NUMBERS: usize = 11;

/// One past the highest reason of an edge.
pub const REASONS: usize = 4;

/// How often the comparison met something, in words.
pub struct Met(pub u64, pub String);

/// How many logs or tables were compared, and on how many the two checkers differ.
#[derive(Default)]
pub struct Compared {
    pub all: u64,
    pub differing: u64,
}

impl Compared {
    /// Counts one, and shows it where the two checkers differ on it.
    pub fn count(&mut self, name: &str, difference: Option<String>, show: impl FnOnce() -> String) {
        self.all += 1;
        if let Some(difference) = difference {
            self.differing += 1;
            if self.differing <= SHOWN {
                println!("DIFFERENT {name}: {difference}\n  {}", show());
            }
        }
    }
}

/// The source questions of logs that pass, by their answers.
#[derive(Default)]
pub struct SourceTally {
    pub other: u64,
    pub own: u64,
    pub none: u64,
    pub past_the_end: u64,
    /// By the kind of the source. They are counted in `other` or `own` too.
    kinds: [u64; OF_SOURCES.len()],
}

impl SourceTally {
    /// Counts a source by its kinds.
    pub fn count_kinds(&mut self, case: &Case) {
        for (count, (_, is_of_it)) in self.kinds.iter_mut().zip(OF_SOURCES) {
            *count += u64::from(is_of_it(case));
        }
    }

    fn met(&self) -> Vec<Met> {
        let asked = self.other + self.own + self.none + self.past_the_end;
        let mut met = vec![
            Met(asked, "asked of logs that pass".to_string()),
            Met(self.other, "of another transaction".to_string()),
            Met(self.own, "own".to_string()),
            Met(self.none, "none".to_string()),
            Met(self.past_the_end, "refused 10".to_string()),
        ];
        for (&count, (name, _)) in self.kinds.iter().zip(OF_SOURCES) {
            met.push(Met(count, name.to_string()));
        }
        met
    }
}

/// The edge questions that both checkers answered: those of logs that do not pass, and those of logs that pass by their answers.
#[derive(Default)]
pub struct EdgeTally {
    pub refused_log: u64,
    pub above_63: u64,
    pub not_in_the_log: u64,
    pub itself: u64,
    /// Of two transactions in the log, by the reason that is the answer: at 0 those without an edge.
    pub lowest: [u64; REASONS],
    /// Those of them to which no other reason applies. They are counted in `lowest` too.
    pub alone: [u64; REASONS],
}

impl EdgeTally {
    fn met(&self) -> Vec<Met> {
        let apart = self.refused_log + self.above_63 + self.not_in_the_log + self.itself;
        let asked = apart + self.lowest.iter().sum::<u64>();
        let mut met = vec![
            Met(asked, "asked".to_string()),
            Met(self.refused_log, "of logs that do not pass".to_string()),
            Met(self.above_63, "refused 10".to_string()),
            Met(self.not_in_the_log, "not in the log".to_string()),
            Met(self.itself, "to itself".to_string()),
            Met(self.lowest[0], "no edge".to_string()),
        ];
        for reason in 1..REASONS {
            met.push(Met(self.lowest[reason], format!("reason {reason}")));
            met.push(Met(self.alone[reason], format!("reason {reason} alone")));
        }
        met
    }
}

#[derive(Default)]
pub struct Tally {
    pub logs: Compared,
    pub tables: Compared,
    pub checks: [u64; NUMBERS],
    pub sources: SourceTally,
    pub edges: EdgeTally,
    pub verdicts: VerdictTally,
    pub sorts: SortTally,
}

impl Tally {
    /// Counts an answer of a check: at 0 the logs that pass.
    pub fn check(&mut self, answer: Result<(), Refusal>) {
        let number = answer.map_or_else(|refusal| refusal.number as usize, |()| 0);
        self.checks[number] += 1;
    }

    /// Counts a log, and shows it where the two checkers differ on it.
    pub fn log(&mut self, name: &str, log: &[u8], difference: Option<String>) {
        self.logs
            .count(name, difference, || format!("log: {}", show(log)));
    }

    fn met_by_checks(&self) -> Vec<Met> {
        let mut met = vec![Met(self.checks[0], "passed".to_string())];
        for number in [1, 2, 4, 5, 6, 7, 8, 9] {
            met.push(Met(self.checks[number], format!("refused {number}")));
        }
        met
    }

    /// All that the comparison has to meet, by what was asked.
    fn met(&self) -> [(&'static str, Vec<Met>); 6] {
        [
            ("checks", self.met_by_checks()),
            ("sources", self.sources.met()),
            ("edges", self.edges.met()),
            ("verdicts", self.verdicts.met()),
            ("demand 3", self.verdicts.demand.met()),
            ("sorts", self.sorts.met()),
        ]
    }

    /// Prints the counts.
    pub fn print(&self) {
        for (question, met) in self.met() {
            for Met(count, what) in met {
                println!("{question}: {count} {what}");
            }
        }
    }

    /// What was never met. A checker could be wrong there and nothing would show it, so that a
    /// count of 0 is a failure.
    pub fn untried(&self) -> Vec<String> {
        let mut untried = Vec::new();
        for (question, met) in self.met() {
            for Met(count, what) in met {
                if count == 0 {
                    untried.push(format!("{question}: {what}"));
                }
            }
        }
        untried
    }
}
