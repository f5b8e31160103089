//! Words and back, and the finite test, on a fixed part of the bit patterns.

use togbefulo_tests::{arithmetic::word, library, patterns};

/// Prime, so that the low bits of the patterns take every value.
const STEP: u32 = 29;

fn for_each_pattern(mut compare: impl FnMut(u32)) {
    let mut compared = 0u64;
    patterns::every(STEP)
        .chain(patterns::boundaries())
        .for_each(|pattern| {
            compare(pattern);
            compared += 1;
        });
    println!("{compared} patterns compared");
}

#[test]
fn to_word_gives_the_bits_and_one_word_for_nan() {
    for_each_pattern(|pattern| {
        let x = f32::from_bits(pattern);
        assert_eq!(library::to_word(x), word(x), "of {pattern:08X}");
    });
}

#[test]
fn from_word_gives_the_number_and_a_nan_for_nan() {
    for_each_pattern(|pattern| {
        let given = word(library::from_word(pattern));
        assert_eq!(given, word(f32::from_bits(pattern)), "of {pattern:08X}");
    });
}

#[test]
fn words_come_back() {
    for_each_pattern(|pattern| {
        let back = library::to_word(library::from_word(pattern));
        assert_eq!(back, word(f32::from_bits(pattern)), "of {pattern:08X}");
    });
}

#[test]
fn is_finite_is_the_librarys() {
    for_each_pattern(|pattern| {
        let x = f32::from_bits(pattern);
        assert_eq!(library::is_finite(x), x.is_finite(), "of {pattern:08X}");
    });
}
