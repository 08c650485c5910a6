//! Slots, and their copies in undo entries: 32 bytes of metadata, then a body of 32 bytes (01, The
//! page).

use crate::bytes::{put, u32_at, u64_at};
use crate::page::Kind;

/// Bytes in a slot or slot copy.
pub const SLOT: usize = Kind::DATA.record;

/// Bytes in a body.
pub const BODY: usize = 32;

/// Where a slot's body starts in it.
pub const BODY_AT: usize = 32;

/// Where a slot's undo pointer starts in it.
const UNDO_PTR: usize = 16;

/// A version's metadata.
#[derive(Clone, Copy)]
pub struct Meta {
    /// Who wrote the version; 0 means an empty slot.
    pub create: u64,
    /// Who replaced or deleted it; 0 means nobody.
    pub expire: u64,
    /// Where the next older version lies; 0 means nowhere.
    pub undo_ptr: u64,
    /// The statement in which `create` wrote it.
    pub cmd: u32,
    /// The statement in which `expire` replaced or deleted it.
    pub expire_cmd: u32,
}

impl Meta {
    /// The metadata of the slot or slot copy at `at`.
    #[inline]
    pub fn read(area: &[u8], at: usize) -> Self {
        let slot = &area[at..at + SLOT];
        Self {
            create: u64_at(slot, 0),
            expire: u64_at(slot, 8),
            undo_ptr: u64_at(slot, UNDO_PTR),
            cmd: u32_at(slot, 24),
            expire_cmd: u32_at(slot, 28),
        }
    }

    #[inline]
    pub fn write(&self, area: &mut [u8], at: usize) {
        let slot = &mut area[at..at + SLOT];
        put(slot, 0, self.create.to_le_bytes());
        put(slot, 8, self.expire.to_le_bytes());
        put(slot, UNDO_PTR, self.undo_ptr.to_le_bytes());
        put(slot, 24, self.cmd.to_le_bytes());
        put(slot, 28, self.expire_cmd.to_le_bytes());
    }
}

/// Makes the version at `at` the last of its chain.
pub fn end_chain(area: &mut [u8], at: usize) {
    put(area, at + UNDO_PTR, [0; 8]);
}

/// Where the slot of `row` starts.
#[inline]
pub const fn slot_at(row: usize) -> usize {
    Kind::DATA.record_at(row)
}

/// Rows in the data area, one for each slot.
#[inline]
pub const fn rows_in(data: &[u8]) -> usize {
    Kind::DATA.records_in(data)
}

#[cfg(test)]
mod tests {
    use super::*;
    use crate::page::PAGE;

    /// P4 of the gauge pieces: row 127 is page 2, slot 0.
    #[test]
    fn gauge_row() {
        assert_eq!(slot_at(127), PAGE + 48);
        assert_eq!(slot_at(126), 48 + 126 * 64);
    }
}
