//! What is timed: an engine of the store that holds its own areas and desk.

/// Bytes in a page, and in the status area.
pub const PAGE: usize = 8192;

/// Rows in a data page.
pub const ROWS: u64 = 127;

/// Entries in an undo page.
pub const ENTRIES: u64 = 101;

/// Areas and desk, to be handed from one engine to another.
#[derive(Clone, PartialEq, Eq)]
pub struct Lent {
    pub data: Vec<u8>,
    pub undo: Vec<u8>,
    pub status: Vec<u8>,
    pub desk: [u32; plain::WORDS],
}

/// The calls that are timed. None may be refused.
pub trait Engine {
    const NAME: &'static str;

    /// A formatted store with as many pages of data and of undo. Formatting writes over every byte,
    /// so that the first touch of a page is nobody's cost.
    fn formatted(pages: usize) -> Self;

    /// Goes on with these areas, as long as its own, and this desk.
    fn take(&mut self, lent: &Lent);

    /// A copy of areas and desk.
    fn lent(&self) -> Lent;

    /// Reads every byte of the areas, and does nothing with them but add them up, eight at a time.
    fn look(&self) -> u64;

    fn format(&mut self);
    fn open(&mut self);
    fn seal(&mut self);
    fn begin(&mut self) -> u64;
    fn next(&mut self, session: u64);
    fn insert(&mut self, session: u64, body: &[u8]) -> u64;
    fn update(&mut self, session: u64, row: u64, body: &[u8]);
    fn delete(&mut self, session: u64, row: u64);
    /// Reads a row, and answers the count of versions looked at and the body's first byte, added up.
    fn read(&mut self, session: u64, row: u64) -> u64;
    fn commit(&mut self, session: u64);
    fn withdraw(&mut self, session: u64);
    /// Sweeps the first rows and answers the versions removed.
    fn sweep(&mut self, rows: u64) -> u64;
}

/// All numbers of eight bytes in the areas, added up.
pub fn added_up(areas: [&[u8]; 3]) -> u64 {
    let eights = areas.into_iter().flat_map(|area| area.as_chunks::<8>().0);
    eights.fold(0, |sum, eight| sum.wrapping_add(u64::from_le_bytes(*eight)))
}

/// A body to write.
pub fn body(number: u64) -> [u8; 32] {
    [number as u8; 32]
}
