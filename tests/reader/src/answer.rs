//! Document 01, "Numbers of an answer": the reading call.

use crate::reading::{read, Reading};
use crate::NUMBERS_OF_A_RECORD;

/// Reads `text` into `table`; gives the answer's number and the count it returns.
pub fn answer(text: &[u8], table: &mut [u32]) -> (u32, usize) {
    read(text).answer(table)
}

impl Reading {
    /// The answer when `table` is lent: its number and the count it returns. On 0 the table is
    /// "written from its front, the rest as before", else it is left "as before".
    pub fn answer(&self, table: &mut [u32]) -> (u32, usize) {
        let records = match self {
            Reading::TooLong => return (1, 0),
            Reading::TooDeep => return (2, 0),
            Reading::Table(records) => records,
        };
        if records.len() > room(table) {
            return (3, records.len());
        }
        for (place, record) in table.chunks_exact_mut(NUMBERS_OF_A_RECORD).zip(records) {
            place.copy_from_slice(&record.numbers());
        }
        (0, records.len())
    }
}

/// Order 7: "Room is now the length divided by 8", "rounded down" as before.
fn room(table: &[u32]) -> usize {
    table.len() / NUMBERS_OF_A_RECORD
}
