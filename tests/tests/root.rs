//! The proved root beside `f32::sqrt` on a fixed part of the bit patterns; `root_all` takes all of them.

use togbefulo_tests::{patterns, root_comparison::compare};

/// Every 13th pattern meets each binade of both signs some 645,000 times.
const STEP: u32 = 13;

#[test]
fn root_is_the_machines_root() {
    let total = compare(patterns::every(STEP))
        .and(compare(patterns::boundaries()))
        .and(compare(patterns::subnormals()))
        .and(compare(patterns::one_to_four()));
    println!("{total}");
    assert_eq!(total.differing, 0, "{total}");
}
