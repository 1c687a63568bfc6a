//! What several tests share: the answer as lists, and a source in short.
#![allow(dead_code)]

use second::check::Refusal;
use second::named::Stated;
use second::source::Source;
use second::verdict::{verdict, Answer};

/// The byte that fills a buffer before a verdict.
pub const FILL: u8 = 0xA5;

/// The source that is this transaction's write record at this place.
pub fn at(transaction: u8, place: usize) -> Option<Source> {
    Some(Source { transaction, place })
}

/// The verdict with its records, after a look at the bytes it must keep.
pub fn full_answer(log: &[u8], buffer: usize) -> Stated {
    let mut answer = vec![FILL; buffer];
    let given = verdict(log, &mut answer);
    let written = match given {
        Answer::Serial(n) | Answer::Cycle(n) => 2 * n,
        Answer::Refused(_) => 0,
    };
    assert!(answer[written..].iter().all(|&byte| byte == FILL));
    let pairs: Vec<(u8, u8)> = answer[..written]
        .chunks_exact(2)
        .map(|pair| (pair[0], pair[1]))
        .collect();
    match given {
        Answer::Serial(_) => {
            assert!(pairs.iter().all(|&(_, zero)| zero == 0));
            Stated::Serial(pairs.iter().map(|&(transaction, _)| transaction).collect())
        }
        Answer::Cycle(_) => Stated::Cycle(pairs),
        Answer::Refused(Refusal { number, place }) => Stated::Refused(number, place),
    }
}
