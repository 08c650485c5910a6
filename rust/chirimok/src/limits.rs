//! The store's limits (01, The page, and Sessions and sight), by the names of `chirimok.h`.

/// Bytes in a page.
pub const PAGE: usize = 8192;

/// Most pages of data, and most pages of undo. The least is 1 of each; of status it is 1 exactly.
pub const PAGES: usize = 64;

/// Bytes in a body.
pub const BODY: usize = 32;

/// Rows in a page of data.
pub const ROWS_PER_PAGE: usize = 127;

/// Older versions of rows in a page of undo.
pub const ENTRIES_PER_PAGE: usize = 101;

/// Most sessions open at a time.
pub const SESSIONS: usize = 16;

/// The highest number that a session gets.
pub const LAST_NUMBER: u64 = 32_575;

/// The statement from which a session cannot move on.
pub const LAST_STATEMENT: u32 = 65_535;

/// Most numbers in a session's list: all others that can be open when it begins.
pub(crate) const MEMBERS: usize = SESSIONS - 1;

/// Words in a desk: next, the sessions' numbers, their statements, their marks, their lists.
pub const WORDS: usize = 1 + SESSIONS + SESSIONS + SESSIONS + SESSIONS * MEMBERS;
