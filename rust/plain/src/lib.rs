//! The page store of document 01 in ordinary Rust: the version that the proved library is compared
//! with, in answers, bytes and time (02, T-12).
//!
//! The store works on three areas lent by the caller (data, undo and status, in pages of 8,192
//! bytes) and on a [`Desk`] that holds the open sessions. Nothing is allocated and nothing is kept
//! between calls. Every call answers exactly as document 01 says, with T-03, T-05 and T-07 of
//! document 02, for arbitrary bytes in the areas and arbitrary desks. A refused call leaves both as
//! they were, but that 10 marks its session at the desk.
//!
//! Arguments stand in the same order everywhere: data, undo, status, desk, session, row, body.

#![forbid(unsafe_code)]

mod bytes;
mod chain;
mod crc32c;
mod desk;
mod entry;
mod page;
mod refusal;
mod rows;
mod sessions;
mod sight;
mod slot;
mod status;
mod store;
mod sweep;
mod touch;
mod withdraw;

pub use chain::{Area, Place};
pub use crc32c::crc32c;
pub use desk::{Desk, WORDS};
pub use refusal::Refusal;
pub use rows::{Reading, delete, insert, read, update};
pub use sessions::{begin, commit, next};
pub use store::{format, open, seal};
pub use sweep::{Swept, sweep};
pub use withdraw::withdraw;
