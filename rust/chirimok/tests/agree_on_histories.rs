//! The proved store and the ordinary Rust version on the same histories: answers, values, desk and
//! every byte of the areas after each call.

mod common;

use common::Station;
use compare::{Engine, Plain, histories};

const BOTH: [&dyn Engine; 2] = [&Station, &Plain];

#[test]
fn agree_on_histories() {
    histories::agree(BOTH, 6000);
}

#[test]
fn agree_until_numbers_end() {
    histories::agree_until_numbers_end(BOTH);
}

#[test]
fn agree_until_statements_end() {
    histories::agree_until_statements_end(BOTH);
}
