//! Undo entries and the pointers to them (01, The page).

use crate::bytes::{put, u32_at};
use crate::page::{HEADER, Kind, PAGE, in_use};
use crate::slot::SLOT;

/// Where an entry's slot copy starts in it.
pub const COPY_AT: usize = 16;

/// Where an entry's row number starts in it.
const ROW: usize = 8;

/// The top byte of every undo pointer.
const TOP: u64 = 4;

/// The pointer to the entry that starts at `at`: its page, counted from 1, and its offset there.
pub const fn pointer_to(at: usize) -> u64 {
    TOP << 56 | (at as u64 / PAGE as u64 + 1) << 24 | (at as u64 % PAGE as u64) << 8
}

/// Where in the area the pointer leads: nowhere unless it is well formed and leads to an entry's
/// first byte in one of the area's pages.
#[inline]
fn pointed_at(undo: &[u8], pointer: u64) -> Option<usize> {
    let page = (pointer >> 24) as u32 as usize;
    let offset = usize::from((pointer >> 8) as u16);
    let well_formed = pointer >> 56 == TOP && pointer & 0xFF == 0;
    let inside = (1..=undo.len() / PAGE).contains(&page);
    let record = offset.checked_sub(HEADER)?;
    let at_entry =
        record.is_multiple_of(Kind::UNDO.record) && record / Kind::UNDO.record < Kind::UNDO.records;
    (well_formed && inside && at_entry).then(|| (page - 1) * PAGE + offset)
}

/// The entry that the pointer leads to, if it is in use, belongs to `row` and holds a version.
#[inline]
pub fn entry_of(undo: &[u8], row: usize, pointer: u64) -> Option<usize> {
    let at = pointed_at(undo, pointer)?;
    let entry = &undo[at..at + Kind::UNDO.record];
    let fits = in_use(entry, 0) && u32_at(entry, ROW) as usize == row && in_use(entry, COPY_AT);
    fits.then_some(at)
}

/// Fills the entry at `at` with its writer, its row and a copy of the slot.
pub fn fill(undo: &mut [u8], at: usize, writer: u64, row: usize, slot: &[u8]) {
    let entry = &mut undo[at..at + Kind::UNDO.record];
    put(entry, 0, writer.to_le_bytes());
    put(entry, ROW, (row as u32).to_le_bytes());
    put(entry, 12, [0; 4]);
    entry[COPY_AT..COPY_AT + SLOT].copy_from_slice(slot);
}

/// "Whatever is emptied or freed becomes all zeros."
pub fn free(undo: &mut [u8], at: usize) {
    undo[at..at + Kind::UNDO.record].fill(0);
}

#[cfg(test)]
mod tests {
    use super::*;

    /// P3 of the gauge pieces: page 2, offset 128.
    #[test]
    fn gauge_pointer() {
        let at = PAGE + 128;
        assert_eq!(pointer_to(at), 288_230_376_185_298_944);
        assert_eq!(pointed_at(&[0; 2 * PAGE], pointer_to(at)), Some(at));
    }
}
