//! Tables without an edge and with every edge, for sets of every size, and sets
//! of a single transaction.

use crate::generator::Generator;
use crate::record::TRANSACTIONS;
use crate::tables::parts::draw_so_many_members;
use crate::tables::{Table, ROWS};

/// The tables, the smallest sets first. The seed decides which transactions are
/// in a set that holds neither the lowest nor the highest numbers.
pub fn plain_tables(seed: u64) -> Vec<Table> {
    let mut generator = Generator::new(seed, 0);
    let mut tables = Vec::new();
    for transaction in 0..TRANSACTIONS {
        let mut table = Table::without_edges(&[transaction]);
        tables.push(table.clone());
        table.rows = [u64::MAX; ROWS];
        tables.push(table.clone());
        table.rows = [(); ROWS].map(|()| generator.bits());
        tables.push(table);
    }
    for count in 0..=TRANSACTIONS {
        let lowest: Vec<u8> = (0..count).collect();
        let highest: Vec<u8> = (TRANSACTIONS - count..TRANSACTIONS).collect();
        let any = draw_so_many_members(&mut generator, usize::from(count));
        for members in [lowest, highest, any] {
            let mut table = Table::without_edges(&members);
            tables.push(table.clone());
            table.rows = [u64::MAX; ROWS];
            tables.push(table);
        }
    }
    tables
}
