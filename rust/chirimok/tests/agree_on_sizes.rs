//! The proved store and the ordinary Rust version on areas of every number of pages.

mod common;

use common::Station;
use compare::{Plain, sizes};

#[test]
fn agree_on_sizes() {
    sizes::agree([&Station, &Plain]);
}
