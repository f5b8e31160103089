//! A fixed part of what the command `compare` runs: every answer, fit and damage is met often.

use togbefulo_tests::{
    comparison::{self, Counts},
    library::UNKNOWN_KIND,
};

const ADDITIONS: u64 = 300_000;

/// How often each answer of an addition is met at the least.
const ANSWERS: [(u32, u64); 12] = [
    (2, 10_000),
    (3, 10_000),
    (4, 10_000),
    (10, 10_000),
    (11, 2_000),
    (12, 2_000),
    (13, 2_000),
    (20, 2_000),
    (21, 1_000),
    (22, 2_000),
    (23, 2_000),
    (UNKNOWN_KIND, 2_000),
];

/// How often each answer of an addition of kind 6 is met at the least.
const SEAMLESS: [(u32, u64); 11] = [
    (0, 20_000),
    (2, 2_000),
    (3, 2_000),
    (4, 2_000),
    (10, 1_000),
    (11, 500),
    (12, 1_000),
    (13, 1_000),
    (20, 500),
    (22, 500),
    (23, 500),
];

fn assert_met(counts: &Counts) {
    for (answer, least) in ANSWERS {
        let times = counts.answers.times(answer);
        assert!(times >= least, "{answer}: {times} times");
    }
    for (answer, least) in SEAMLESS {
        let times = counts.seamless.times(answer);
        assert!(times >= least, "kind 6, {answer}: {times} times");
    }
    let twists = &counts.twists;
    assert!(twists.negative.min(twists.positive) >= 3_000, "{twists:?}");
    assert!(twists.several >= 200, "{twists:?}");
    let least = |all: &[u64]| all.iter().copied().min();
    assert!(least(&counts.kinds) >= Some(20_000), "{:?}", counts.kinds);
    assert!(least(&counts.exact) >= Some(200), "{:?}", counts.exact);
    let one_short = counts.one_short;
    assert!(least(&one_short) >= Some(200), "{one_short:?}");
    let damaged = counts.damaged;
    assert!(least(&damaged) >= Some(1_000), "{damaged:?}");
    assert!(counts.on_damaged.times(1) >= 50_000);
    assert!(counts.words.times(0) >= 1_000_000);
    assert!(counts.words.times(5) >= 50_000);
    assert!(counts.built >= 20_000);
    assert!(counts.floats.floats() >= 10_000_000);
    assert!(counts.floats.unusual().iter().all(|&times| times >= 50_000));
}

#[test]
fn lists_of_additions() {
    match comparison::rounds(ADDITIONS, comparison::all_cores()) {
        Ok(counts) => {
            println!("{counts}");
            assert_met(&counts);
        }
        Err(list) => panic!("list {list} differs"),
    }
}

/// The same, whoever takes a list.
#[test]
fn threads_do_not_matter() {
    let text = |threads| {
        let counts = comparison::rounds(1, threads);
        counts.expect("no difference").to_string()
    };
    assert_eq!(text(1), text(3));
}
