//! The drivers themselves, with the ordinary Rust version on both sides: do the rounds bring about
//! every answer that they are meant to compare?

use compare::{Engine, Plain, damage, histories, sizes, vendor};

const SAME: [&dyn Engine; 2] = [&Plain, &Plain];

#[test]
fn histories_show_each_number() {
    histories::agree(SAME, 300);
    histories::agree_until_numbers_end(SAME);
    histories::agree_until_statements_end(SAME);
}

#[test]
fn damages_show_their_refusals() {
    damage::agree(SAME, &damage::broken_chains(), damage::working_store, 60);
    damage::agree(SAME, &damage::odd_bytes(), damage::working_store, 60);
    damage::agree(SAME, &damage::reserved_numbers(), damage::working_store, 60);
    damage::agree(SAME, &damage::wrong_headers(), damage::sealed_store, 60);
    damage::agree(SAME, &damage::desks(), damage::working_store, 60);
    damage::agree(SAME, &damage::lengths(), damage::working_store, 10);
}

#[test]
fn sizes_open_and_refuse() {
    sizes::agree(SAME);
}

#[test]
fn pages_carry_the_vendors_checksum() {
    vendor::agree(&Plain, 100);
    vendor::agree_where_the_rules_do(&Plain);
}
