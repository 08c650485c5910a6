//! The proved store and the vendor's checksum (02, T-03): the pages of many histories, pages sealed
//! under the old rule, and those whose checksum is the same under both.

mod common;

use common::Station;
use compare::vendor;

#[test]
fn agree_with_vendor() {
    vendor::agree(&Station, 600);
}

#[test]
fn agree_where_the_rules_do() {
    vendor::agree_where_the_rules_do(&Station);
}
