//! Drivers for the tests that compare engines of the store: two on copies of one store, call by
//! call and byte by byte ([`histories`], [`damage`], [`sizes`]), or one against a plain table
//! ([`replay`]) or against the vendor's checksum ([`vendor`]).
//!
//! An engine is whatever answers the twelve calls of document 01 ([`Engine`]). Every driver draws
//! its choices from a seed. A failure prints it, and `CHIRIMOK_SEED` repeats that one round.

#![forbid(unsafe_code)]

mod call;
pub mod damage;
mod engine;
pub mod histories;
mod layout;
mod mix;
mod pair;
mod probes;
mod random;
pub mod replay;
pub mod sizes;
mod store;
mod tally;
pub mod vendor;

pub use call::{Answer, Call};
pub use engine::{Engine, Plain};
pub use pair::both_answer;
pub use store::{Store, WORDS};
