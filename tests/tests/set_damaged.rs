//! Tables that are damaged in each of document 01's ways, and such that look damaged and are not:
//! add, file word and clear beside the reading, untouched elements compared too.

use togbefulo_tests::{
    buffers::{Buffers, Lengths},
    comparison::calls,
    generator::Generator,
    inputs::KINDS,
    met::Met,
    tables,
};

/// Calls on copies of the same buffers, and how often each number was answered.
struct Comparison {
    generator: Generator,
    met: Met,
}

impl Comparison {
    fn new(seed: u64) -> Comparison {
        let generator = Generator::new(seed);
        let met = Met::default();
        Comparison { generator, met }
    }

    /// All three calls on what the buffers hold; add's answer.
    fn compare(&mut self, lent: &Buffers) -> u32 {
        calls::compare(&mut self.generator, lent, &mut self.met)
    }

    fn expect_damaged(&mut self, lent: &Buffers) {
        assert_eq!(self.compare(lent), 1, "{:?}", lent.lengths());
    }
}

const SPARE: Lengths = Lengths {
    table: 13,
    vertices: 100,
    triangles: 200,
};

/// An undamaged set of so many bodies, with room for more.
fn sound(comparison: &mut Comparison, bodies: usize) -> Buffers {
    let rows = tables::rows(&mut comparison.generator, bodies);
    let sound = tables::over_garbage(&mut comparison.generator, &rows, SPARE);
    assert_ne!(comparison.compare(&sound), 1);
    sound
}

/// Every word of an entry but n and the counts, at every place of the table.
#[test]
fn one_wrong_word() {
    let mut comparison = Comparison::new(23);
    for bodies in [1, 2, 5, 33, 64] {
        let mut lent = sound(&mut comparison, bodies);
        for entry in (1..).step_by(6).take(bodies) {
            for kind in [0, 7, 8, 257, 65_538, 65_542, u32::MAX] {
                let kept = std::mem::replace(&mut lent.table[entry], kind);
                comparison.expect_damaged(&lent);
                lent.table[entry] = kept;
            }
            for first in [entry + 2, entry + 4] {
                for change in [1, u32::MAX, 256, 65_536, 1 << 31] {
                    let kept = lent.table[first];
                    lent.table[first] = kept.wrapping_add(change);
                    comparison.expect_damaged(&lent);
                    lent.table[first] = kept;
                }
            }
        }
    }
    println!("one wrong word: {}", comparison.met);
}

/// Each kind at every place of the table is none.
#[test]
fn kinds_that_are_admitted() {
    let mut comparison = Comparison::new(72);
    for bodies in [1, 2, 5, 33, 64] {
        let mut lent = sound(&mut comparison, bodies);
        for entry in (1..).step_by(6).take(bodies) {
            for (kind, _) in KINDS {
                lent.table[entry] = kind;
                assert_ne!(comparison.compare(&lent), 1, "kind {kind}");
            }
        }
    }
    println!("kinds that are admitted: {}", comparison.met);
    assert_eq!(comparison.met.times(1), 0);
}

/// Too many bodies, for the table or at all. Six times some of these numbers, and one, wraps to a few words.
#[test]
fn wrong_numbers_of_bodies() {
    let mut comparison = Comparison::new(24);
    let numbers = [
        65,
        66,
        1 << 16,
        715_827_883,
        1_431_655_766,
        1 << 31,
        u32::MAX,
    ];
    for bodies in [0, 1, 5, 64] {
        let mut lent = sound(&mut comparison, bodies);
        // Long enough for each entry of the next larger numbers.
        lent.table.resize(1_000, 0);
        for number in numbers {
            lent.table[0] = number;
            comparison.expect_damaged(&lent);
        }
        // Fewer bodies than there are entries are a set of their own.
        for number in 0..bodies {
            lent.table[0] = number as u32;
            assert_ne!(comparison.compare(&lent), 1);
        }
    }
    println!("numbers of bodies: {}", comparison.met);
}

/// Each buffer exactly as long as the set needs it, and one element shorter; the table also much shorter and empty.
#[test]
fn buffers_one_element_short() {
    let mut comparison = Comparison::new(25);
    for bodies in [0, 1, 2, 5, 33, 64] {
        let rows = tables::rows(&mut comparison.generator, bodies);
        let none = Lengths {
            table: 0,
            vertices: 0,
            triangles: 0,
        };
        let exact = tables::over_garbage(&mut comparison.generator, &rows, none);
        assert_ne!(comparison.compare(&exact), 1);
        let mut short = exact.clone();
        short.table.pop();
        comparison.expect_damaged(&short);
        short.table.clear();
        comparison.expect_damaged(&short);
        for buffer in 0..2 {
            let mut short = exact.clone();
            let popped = match buffer {
                0 => short.vertices.pop().is_some(),
                _ => short.triangles.pop().is_some(),
            };
            if popped {
                comparison.expect_damaged(&short);
            }
        }
    }
    println!("buffers one element short: {}", comparison.met);
}

/// Counts whose sums are too large, or would be small again once they wrap.
#[test]
fn sums_that_wrap() {
    let mut comparison = Comparison::new(26);
    let large = [
        vec![u32::MAX],
        vec![1 << 28, 1],
        vec![u32::MAX, 1],
        vec![1 << 31, 1 << 31],
        vec![5, u32::MAX - 4, 7],
        vec![1_431_655_766],
        vec![1 << 30; 4],
        vec![1 << 26; 64],
        vec![u32::MAX; 64],
    ];
    for counts in large {
        for column in [2, 3] {
            let mut rows = tables::rows(&mut comparison.generator, counts.len());
            for (row, &count) in rows.iter_mut().zip(&counts) {
                row[column] = count;
            }
            let lengths = Lengths {
                table: 400,
                vertices: 3_000,
                triangles: 3_000,
            };
            let mut lent = Buffers::garbage(&mut comparison.generator, lengths);
            let table = tables::table(&rows);
            lent.table[..table.len()].copy_from_slice(&table);
            comparison.expect_damaged(&lent);
        }
    }
    println!("sums that wrap: {}", comparison.met);
}

/// Tables of which some words are any, and such of which all are.
#[test]
fn tables_from_anywhere() {
    let mut comparison = Comparison::new(27);
    for round in 0..20_000 {
        let generator = &mut comparison.generator;
        let bodies = generator.between(0, 64) as usize;
        let rows = tables::rows(generator, bodies);
        let mut lent = tables::over_garbage(generator, &rows, SPARE);
        let used = 1 + 6 * bodies as u32;
        for _ in 0..generator.between(0, 2) {
            let place = generator.between(0, used - 1) as usize;
            lent.table[place] = generator.word() >> generator.one_of(&[0, 16, 26, 29]);
        }
        if round % 50 == 0 {
            lent.table = generator.words(used as usize);
        }
        comparison.compare(&lent);
    }
    println!("tables from anywhere: {}", comparison.met);
    assert_eq!(comparison.met.answers(), [0, 1, 2, 3, 4, 5]);
}
