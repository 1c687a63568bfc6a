//! The kinds of sources that the comparison has to meet: those beside which stands another write, which a wrong rule would name, and
//! those whose place is no byte. A checker that is wrong about one of them might be right everywhere else.

use second::record::Record;
use second::source::Source;

/// A read of a log that passes, with its source.
pub struct Case<'a> {
    pub records: &'a [Record],
    pub k: usize,
    pub source: Source,
}

/// A kind's name, and whether a case is of it.
pub type Kind = (&'static str, fn(&Case) -> bool);

/// Where the other write is of the same transaction as the source, the place alone tells the two apart.
pub const OF_SOURCES: [Kind; 7] = [
    ("with an earlier write of the copy", |case| {
        case.earlier().next().is_some()
    }),
    (
        "with an earlier write of the copy by the same transaction",
        |case| case.earlier().any(|write| case.is_by_the_same(write)),
    ),
    ("with the item written at another site since", |case| {
        case.elsewhere_since().next().is_some()
    }),
    (
        "with the item written at another site since by the same transaction",
        |case| {
            case.elsewhere_since()
                .any(|write| case.is_by_the_same(write))
        },
    ),
    ("with the copy written after the read", |case| {
        case.later().next().is_some()
    }),
    (
        "with the copy written after the read by the same transaction",
        |case| case.later().any(|write| case.is_by_the_same(write)),
    ),
    ("at a place above 255", |case| case.source.place > 255),
];

impl Case<'_> {
    /// The writes of the copy before the source: the first write of the copy is one of them, if the source is not.
    fn earlier(&self) -> impl Iterator<Item = &Record> {
        self.of_the_copy(&self.records[..self.source.place])
    }

    /// The writes of the item between the source and the read. Were one of them on the copy, it would be the source.
    fn elsewhere_since(&self) -> impl Iterator<Item = &Record> {
        let item = self.records[self.k].item;
        self.records[self.source.place + 1..self.k]
            .iter()
            .filter(move |record| record.is_write() && record.item == item)
    }

    /// The writes of the copy after the read.
    fn later(&self) -> impl Iterator<Item = &Record> {
        self.of_the_copy(&self.records[self.k + 1..])
    }

    fn of_the_copy<'b>(&self, records: &'b [Record]) -> impl Iterator<Item = &'b Record> {
        let read = self.records[self.k];
        records
            .iter()
            .filter(move |record| record.is_write() && record.is_on_the_copy_of(read))
    }

    fn is_by_the_same(&self, write: &Record) -> bool {
        write.transaction == self.source.transaction
    }
}
