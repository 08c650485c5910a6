//! The proved store against the ordinary Rust version: `cargo run --release -p bench`. With
//! `--no-default-features` the ordinary version runs against itself, which needs no archive and shows
//! how far two equal engines come apart.

use bench::PlainEngine;

#[cfg(feature = "station")]
use bench::StationEngine as Other;

#[cfg(not(feature = "station"))]
use bench::PlainEngine as Other;

fn main() {
    bench::compare::<PlainEngine, Other>();
}
