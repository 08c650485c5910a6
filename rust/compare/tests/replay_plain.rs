//! The ordinary Rust version against a table replayed in commit order.

#[test]
fn replay() {
    compare::replay::agree_with_table(&compare::Plain, 600);
}
