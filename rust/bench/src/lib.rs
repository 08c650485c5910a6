//! Times engines of the store side by side: single calls at small and at full areas ([`calls`]), and
//! the noon work of 02, T-12 ([`noon`]).
//!
//! Two engines run in one process and take turns at the same work, each on areas of its own, written
//! over beforehand. The best and the middle of many turns are printed, with the ratio of the best.

mod calls;
mod engine;
mod noon;
mod plain_engine;
mod report;
#[cfg(feature = "station")]
mod station_engine;
mod stock;
mod turns;

pub use engine::{Engine, Lent, PAGE};
pub use plain_engine::PlainEngine;
#[cfg(feature = "station")]
pub use station_engine::StationEngine;

/// Times the second engine against the first, and prints what both take.
pub fn compare<A: Engine, B: Engine>() {
    report::print_calls::<A, B>(&calls::calls::<A, B>());
    report::print_noon::<A, B>(&noon::noon::<A, B>());
}
