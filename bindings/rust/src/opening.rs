//! The opening of a store.

use crate::bytes::Writer;
use crate::error::TooLong;
use crate::ids::TableId;

/// A table that a store is opened with.
#[derive(Debug, Clone, Copy, PartialEq, Eq, Hash)]
pub struct Table {
    /// Its id.
    pub id: TableId,
    /// How many tablets make it complete.
    pub tablet_count: u32,
}

/// What a store begins with.
#[derive(Debug, Clone, PartialEq, Eq, Hash, Default)]
pub struct Opening {
    /// The highest group id given out before.
    pub group_mark: u64,
    /// The tables, in any order.
    pub tables: Vec<Table>,
}

/// The count is one byte.
const MOST_TABLES: usize = 255;

impl Opening {
    /// Writes the opening behind what the tape has.
    ///
    /// # Errors
    /// There are more tables than their count on the tape can say; then the tape is as it was.
    pub fn push(&self, tape: &mut Vec<u8>) -> Result<(), TooLong> {
        let mut out = Writer::new(tape);
        let count = out.length("tables", self.tables.len(), MOST_TABLES);
        out.byte(count as u8);
        out.long(self.group_mark);
        for table in &self.tables[..count] {
            out.long(table.id.0);
            out.short(table.tablet_count);
        }
        out.end()
    }

    /// The opening as the tape has it.
    ///
    /// # Errors
    /// There are more tables than their count on the tape can say.
    pub fn to_bytes(&self) -> Result<Vec<u8>, TooLong> {
        let mut bytes = Vec::new();
        self.push(&mut bytes)?;
        Ok(bytes)
    }
}
