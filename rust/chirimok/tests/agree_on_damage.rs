//! The proved store and the ordinary Rust version on areas and desks damaged on purpose, and with
//! arguments at every edge.

mod common;

use common::Station;
use compare::{Engine, Plain, damage};

const BOTH: [&dyn Engine; 2] = [&Station, &Plain];

#[test]
fn agree_on_broken_chains() {
    damage::agree(BOTH, &damage::broken_chains(), damage::working_store, 400);
}

#[test]
fn agree_on_odd_bytes() {
    damage::agree(BOTH, &damage::odd_bytes(), damage::working_store, 400);
}

#[test]
fn agree_on_reserved_numbers() {
    damage::agree(BOTH, &damage::reserved_numbers(), damage::working_store, 400);
}

#[test]
fn agree_on_wrong_headers() {
    damage::agree(BOTH, &damage::wrong_headers(), damage::sealed_store, 200);
}

#[test]
fn agree_on_desks() {
    damage::agree(BOTH, &damage::desks(), damage::working_store, 200);
}

#[test]
fn agree_on_lengths() {
    damage::agree(BOTH, &damage::lengths(), damage::working_store, 20);
}
