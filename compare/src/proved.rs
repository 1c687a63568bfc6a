//! The proved checker, called through the C face that include/fruscalenta.h declares.

use second::check::Refusal;
use second::sort::Sorted;
use second::source::Source;
use second::tables::{Table, ROWS};
use second::verdict::Answer as Verdict;

/// `struct fruscalenta_answer`.
#[repr(C)]
struct Answer {
    number: u64,
    place: u64,
    value: u64,
}

/// `struct fruscalenta_source`.
#[repr(C)]
struct CodedSource {
    number: u64,
    place: u64,
    transaction: u64,
    record: u64,
}

/// `struct fruscalenta_sorted`.
#[repr(C)]
#[derive(Debug)]
pub struct Coded {
    cycle: u64,
    length: u64,
}

/// `struct fruscalenta_judged`.
#[repr(C)]
#[derive(Debug, PartialEq, Eq)]
pub struct Judged {
    number: u64,
    place: u64,
    cycle: u64,
    length: u64,
}

/// `FRUSCALENTA_NONE`.
const NONE: u64 = 4_096;

/// No refusal of document 01's.
const NO_ANSWER: Refusal = Refusal {
    number: u32::MAX,
    place: 0,
};

extern "C" {
    fn fruscalenta_check(log: *const u8, len: usize) -> Answer;
    fn fruscalenta_source_of_record(log: *const u8, len: usize, k: usize) -> CodedSource;
    fn fruscalenta_edge_between(log: *const u8, len: usize, i: usize, j: usize) -> Answer;
    fn fruscalenta_sort(table: *const u64, set: u64, members: *mut u8) -> Coded;
    fn fruscalenta_verdict(log: *const u8, len: usize, answer: *mut u8, room: usize) -> Judged;
}

/// A refusal in document 01's numbers. A number beyond those of the type shows as one that document 01 has not.
fn refusal(number: u64, place: u64) -> Refusal {
    Refusal {
        number: u32::try_from(number).unwrap_or(NO_ANSWER.number),
        place: place as usize,
    }
}

/// The value of an answer, or its refusal. Three numbers that the header rules out show as a refusal that document 01 has not, so
/// that each of the three is compared.
fn value(answer: Answer) -> Result<u64, Refusal> {
    match answer {
        Answer {
            number: 0,
            place: 0,
            value,
        } => Ok(value),
        Answer {
            number,
            place,
            value: 0,
        } if number != 0 => Err(refusal(number, place)),
        _ => Err(NO_ANSWER),
    }
}

/// A number that the header keeps below 256: one beyond shows as the refusal that document 01 has not, and not as its lowest byte.
fn byte(value: u64) -> Result<u8, Refusal> {
    u8::try_from(value).map_err(|_| NO_ANSWER)
}

/// The source of an answer, or its refusal. Four numbers that the header rules out show as a refusal that document 01 has not, so
/// that each of the four is compared.
fn source(answer: CodedSource) -> Result<Option<Source>, Refusal> {
    let CodedSource {
        number,
        place,
        transaction,
        record,
    } = answer;
    match (number, place, transaction, record) {
        (0, 0, NONE, NONE) => Ok(None),
        (0, 0, NONE, _) | (0, 0, _, NONE) => Err(NO_ANSWER),
        (0, 0, _, _) => Ok(Some(Source {
            transaction: byte(transaction)?,
            place: record as usize,
        })),
        (1.., _, 0, 0) => Err(refusal(number, place)),
        _ => Err(NO_ANSWER),
    }
}

/// The proved check.
pub fn check(log: &[u8]) -> Result<(), Refusal> {
    // SAFETY: a slice is len readable bytes, which is all that the header asks.
    match value(unsafe { fruscalenta_check(log.as_ptr(), log.len()) })? {
        0 => Ok(()),
        _ => Err(NO_ANSWER),
    }
}

/// The proved answer to "source of record k".
pub fn source_of_record(log: &[u8], k: usize) -> Result<Option<Source>, Refusal> {
    // SAFETY: as above.
    source(unsafe { fruscalenta_source_of_record(log.as_ptr(), log.len(), k) })
}

/// The proved answer to "edge from i to j".
pub fn edge_between(log: &[u8], i: usize, j: usize) -> Result<u8, Refusal> {
    // SAFETY: as above.
    byte(value(unsafe {
        fruscalenta_edge_between(log.as_ptr(), log.len(), i, j)
    })?)
}

/// The proved sort of a table. It writes the members of the line or of the cycle to the front of
/// the buffer. Two numbers that the header rules out show as they are.
pub fn sort(table: &Table, members: &mut [u8; ROWS]) -> Result<Sorted, Coded> {
    // SAFETY: the header asks for 64 rows to read and 64 bytes to write.
    let coded = unsafe { fruscalenta_sort(table.rows.as_ptr(), table.set, members.as_mut_ptr()) };
    let written = usize::try_from(coded.length)
        .ok()
        .and_then(|length| members.get(..length));
    match (coded.cycle, written) {
        (0, Some(line)) => Ok(Sorted::Line(line.to_vec())),
        (1, Some(cycle)) => Ok(Sorted::Cycle(cycle.to_vec())),
        _ => Err(coded),
    }
}

/// The proved verdict. It writes the records of the line or of the cycle to the front of the buffer. Four numbers that the header
/// rules out show as they are.
pub fn verdict(log: &[u8], answer: &mut [u8]) -> Result<Verdict, Judged> {
    // SAFETY: two slices are len bytes to read and room bytes to write, which is all that the header asks.
    let judged =
        unsafe { fruscalenta_verdict(log.as_ptr(), log.len(), answer.as_mut_ptr(), answer.len()) };
    let length = usize::try_from(judged.length)
        .ok()
        .filter(|&length| length <= answer.len() / 2);
    match (judged.number, judged.place, judged.cycle, length) {
        (0, 0, 0, Some(length)) => Ok(Verdict::Serial(length)),
        (0, 0, 1, Some(length)) => Ok(Verdict::Cycle(length)),
        (number, place, 0, Some(0)) if number != 0 => Ok(Verdict::Refused(refusal(number, place))),
        _ => Err(judged),
    }
}
