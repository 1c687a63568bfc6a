//! The graph of a log, by the second checker.

use second::check::Refusal;
use second::edges::{all_reasons, edge, Reasons};
use second::history::History;
use second::tables::Table;
use std::collections::BTreeSet;

/// Two numbers, the i and the j of a question.
pub type Pair = (usize, usize);

/// The graph of a log that passes: the log is read once, and not for each question.
pub struct Graph {
    pub history: History,
    pub members: BTreeSet<usize>,
    reasons: Reasons,
}

impl Graph {
    pub fn of_log(log: &[u8]) -> Result<Graph, Refusal> {
        let history = History::of_log(log)?;
        Ok(Graph {
            members: history
                .transactions()
                .into_iter()
                .map(usize::from)
                .collect(),
            reasons: all_reasons(&history),
            history,
        })
    }

    /// The answer to "edge from i to j". A number above 63 is refused whatever the log holds, so long as it passes: the empty one
    /// is asked, which takes no time.
    pub fn edge(&self, (i, j): Pair) -> Result<u8, Refusal> {
        match self.reasons.get(i).and_then(|row| row.get(j)) {
            Some(&reason) => Ok(reason),
            None => edge(&[], i as u64, j as u64),
        }
    }

    /// The lowest reason of the edge between two members, 0 where there is none.
    pub fn reason(&self, i: u8, j: u8) -> u8 {
        self.reasons[usize::from(i)][usize::from(j)]
    }

    /// The edges without their reasons.
    pub fn table(&self) -> Table {
        let members = self.history.transactions();
        let mut table = Table::without_edges(&members.iter().copied().collect::<Vec<u8>>());
        for &i in &members {
            let successors = members.iter().filter(|&&j| self.reason(i, j) != 0);
            successors.for_each(|&j| table.add_edge(i, j));
        }
        table
    }
}
