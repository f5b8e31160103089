//! The proved test of whole slices for finite numbers, beside one that looks at the exponent's bits.

use togbefulo_tests::{generator::Generator, library};

/// Infinities and NaNs, quiet and signalling, of both signs.
const NOT_FINITE: [u32; 8] = [
    0x7F800000, 0xFF800000, 0x7FC00000, 0xFFC00000, 0x7F800001, 0xFF800001, 0x7FFFFFFF, 0xFFFFFFFF,
];

fn reading(values: &[f32]) -> bool {
    let exponent = |x: &f32| x.to_bits() >> 23 & 0xFF;
    values.iter().all(|x| exponent(x) != 0xFF)
}

/// Finite numbers of every sort: zeros, subnormals and the largest among them.
fn finite_values(generator: &mut Generator, length: usize) -> Vec<f32> {
    let special = [0x00000000, 0x80000000, 0x00000001, 0x7F7FFFFF, 0xFF7FFFFF];
    let mut pattern = || match generator.between(0, 3) {
        0 => generator.one_of(&special),
        _ => generator.word() & 0xFF7FFFFF,
    };
    (0..length).map(|_| f32::from_bits(pattern())).collect()
}

fn compare(values: &[f32]) -> bool {
    let answer = library::are_finite(values);
    assert_eq!(answer, reading(values), "{values:?}");
    answer
}

/// One value that is not finite, at each place, and next to either end outside.
#[test]
fn one_value_at_each_place() {
    let mut generator = Generator::new(12);
    let mut compared = 0;
    for length in (0..40).chain([63, 64, 65, 127, 128, 129, 1000]) {
        for pattern in NOT_FINITE {
            // One place more on either side, so that the slice's neighbours are looked at too.
            let mut values = finite_values(&mut generator, length + 2);
            for place in 0..length + 2 {
                let kept = std::mem::replace(&mut values[place], f32::from_bits(pattern));
                let inside = (1..=length).contains(&place);
                let answer = compare(&values[1..=length]);
                assert_eq!(answer, !inside, "place {place} of {length}");
                values[place] = kept;
                compared += 1;
            }
        }
    }
    println!("{compared} slices with one value compared");
}

#[test]
fn any_number_of_values() {
    let mut generator = Generator::new(13);
    let mut finite = 0;
    let rounds = 100_000;
    for _ in 0..rounds {
        let length = generator.between(0, 100) as usize;
        let mut values = finite_values(&mut generator, length);
        let rare = generator.one_of(&[2, 50, 1000]);
        for x in &mut values {
            if generator.one_in(rare) {
                *x = f32::from_bits(generator.one_of(&NOT_FINITE));
            }
        }
        finite += u64::from(compare(&values));
    }
    println!("{rounds} slices compared, {finite} of them finite");
    assert!(compare(&[]), "an empty slice");
}
