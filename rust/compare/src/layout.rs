//! Where things lie in the areas, for the drivers that spoil or count them.

/// Bytes in a page.
pub const PAGE: usize = 8192;

/// Bytes before the first slot or entry.
pub const HEADER: usize = 48;

/// Bytes in an undo entry, and entries in a page.
pub const ENTRY: usize = 80;
pub const ENTRIES: usize = 101;

/// Where an entry's row and slot copy start in it.
pub const ENTRY_ROW: usize = 8;
pub const ENTRY_COPY: usize = 16;

/// Where the fields of a slot or slot copy start in it.
pub const CREATE: usize = 0;
pub const EXPIRE: usize = 8;
pub const UNDO_PTR: usize = 16;

pub fn slot_at(row: u64) -> usize {
    let row = row as usize;
    row / 127 * PAGE + HEADER + row % 127 * 64
}

/// Where each entry of an undo area starts.
pub fn entries(undo: &[u8]) -> impl Iterator<Item = usize> + Clone + use<> {
    let pages = undo.len() / PAGE;
    (0..pages * ENTRIES).map(|entry| entry / ENTRIES * PAGE + HEADER + entry % ENTRIES * ENTRY)
}

pub fn word_at(area: &[u8], at: usize) -> u64 {
    u64::from_le_bytes(area[at..at + 8].try_into().expect("eight bytes"))
}

pub fn put_word(area: &mut [u8], at: usize, word: u64) {
    area[at..at + 8].copy_from_slice(&word.to_le_bytes());
}

/// A pointer from its page, counted from 1, and its offset.
pub const fn pointer(page: u64, offset: u64) -> u64 {
    4 << 56 | page << 24 | offset << 8
}

/// The pointer to the entry that starts at `at`.
pub const fn pointer_to(at: usize) -> u64 {
    pointer((at / PAGE + 1) as u64, (at % PAGE) as u64)
}

/// The entries of a row's chain, newest first, in a store whose chains are sound.
pub fn chain(data: &[u8], undo: &[u8], row: u64) -> Vec<usize> {
    let mut entries = Vec::new();
    let mut pointer = word_at(data, slot_at(row) + UNDO_PTR);
    while pointer != 0 {
        let at = ((pointer >> 24) as u32 as usize - 1) * PAGE + usize::from((pointer >> 8) as u16);
        entries.push(at);
        pointer = word_at(undo, at + ENTRY_COPY + UNDO_PTR);
    }
    entries
}

/// The item_counts of an area's pages, added up.
pub fn items(area: &[u8]) -> u64 {
    let count = |page: &[u8]| u64::from(u16::from_le_bytes([page[38], page[39]]));
    area.chunks_exact(PAGE).map(count).sum()
}
