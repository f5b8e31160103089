//! The words of a set's file, and what is answered at its end and past it.

use crate::{buffers::Buffers, generator::Generator, library, met::Met, paper::set};

/// The whole file in one of eight cases, otherwise some of its words; places from its end on.
pub fn compare_some(generator: &mut Generator, set: &Buffers, met: &mut Met) {
    if generator.one_in(8) {
        return compare_whole(generator, set, met);
    }
    let file = file(set);
    let last = file.len() as u32 - 1;
    let places: Vec<usize> = (0..10)
        .map(|_| generator.between(0, last) as usize)
        .collect();
    compare(generator, set, &file, places, met);
    compare(generator, set, &file, past(file.len()), met);
}

/// Every place of the file of an undamaged set, then places from its end on.
pub fn compare_whole(generator: &mut Generator, set: &Buffers, met: &mut Met) {
    let file = file(set);
    compare(generator, set, &file, 0..file.len(), met);
    compare(generator, set, &file, past(file.len()), met);
}

fn file(set: &Buffers) -> Vec<u32> {
    let file = set::file(&set.table, &set.vertices, &set.triangles);
    file.expect("an undamaged set")
}

fn past(end: usize) -> [usize; 7] {
    [
        end,
        end + 1,
        end + 4,
        2 * end,
        1 << 32,
        usize::MAX / 4,
        usize::MAX,
    ]
}

fn compare(
    generator: &mut Generator,
    set: &Buffers,
    file: &[u32],
    places: impl IntoIterator<Item = usize>,
    met: &mut Met,
) {
    for place in places {
        let before = generator.word();
        let mut given = [before];
        let answer = library::file_word(set, place, &mut given);
        let expected = match file.get(place) {
            Some(&word) => (0, word),
            None => (5, before),
        };
        let end = file.len();
        assert_eq!((answer, given[0]), expected, "word {place} of {end}");
        let again = set::file_word(&set.table, &set.vertices, &set.triangles, place);
        assert_eq!(again.ok(), file.get(place).copied(), "read: word {place}");
        met.count(answer);
    }
}
