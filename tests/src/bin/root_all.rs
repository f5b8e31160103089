//! Compares the proved root with `f32::sqrt` on all 2^32 bit patterns, on two threads.

use std::{process::ExitCode, thread};
use togbefulo_tests::{
    patterns,
    root_comparison::{compare, Comparison},
};

fn main() -> ExitCode {
    // Even and odd patterns, so that both threads get as many negative numbers, which are quick.
    let total = thread::scope(|scope| {
        [0, 1]
            .map(|odd| scope.spawn(move || compare(patterns::every(2).map(|even| even + odd))))
            .map(|half| half.join().expect("a half is compared"))
            .into_iter()
            .fold(Comparison::default(), Comparison::and)
    });
    println!("{total}");
    if total.differing == 0 {
        ExitCode::SUCCESS
    } else {
        ExitCode::FAILURE
    }
}
