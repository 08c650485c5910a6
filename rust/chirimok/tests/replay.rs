//! The proved store against a table replayed in commit order.

mod common;

#[test]
fn replay() {
    compare::replay::agree_with_table(&common::Station, 2000);
}
