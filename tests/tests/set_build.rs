//! Whole lists of records in one call, beside the reading: every answer and every element.

use togbefulo_tests::{
    additions,
    buffers::{Buffers, Lengths},
    generator::Generator,
    library,
    met::Met,
    paper::{
        description::{Description, Input},
        records, set,
    },
    readings,
    record_files::{read_stored, FILES},
    sweep,
};

/// The records of a kind of the paper's.
fn known(words: &[u32]) -> Vec<Input> {
    let known = |input: &Input| Description::of(input.fields).is_some();
    records::read(words).into_iter().filter(known).collect()
}

/// Clears and adds the records one by one; the answers of the additions. `left` is the vertex
/// buffer as the core left it.
fn read(records: &[Input], lent: &mut Buffers, left: &[f32]) -> Vec<u32> {
    assert_eq!(set::clear(&mut lent.table), Ok(()));
    let add = |input| readings::add(input, lent, Some(left));
    records.iter().map(add).collect()
}

/// Compares a list, with room for so many answers more than there are, or fewer.
fn compare(generator: &mut Generator, words: &[u32], lent: &Buffers, spare: isize) -> Vec<u32> {
    let [mut proved, mut expected] = [lent.clone(), lent.clone()];
    let records = known(words);
    let room = records.len().saturating_add_signed(spare);
    let before = generator.words(room);
    let mut given = before.clone();
    assert_eq!(library::build(words, &mut given, &mut proved), 0);
    let answers = read(&records, &mut expected, &proved.vertices);
    let held = answers.len().min(room);
    assert_eq!(given[..held], answers[..held], "answers");
    assert_eq!(given[held..], before[held..], "the rest of the answers");
    assert!(proved.is_same(&expected), "buffers");
    answers
}

/// The words of a list, at times cut off, with records of unknown kinds or with a curve that is too long.
fn words(generator: &mut Generator) -> Vec<u32> {
    let mut words = Vec::new();
    for mut input in additions::list(generator) {
        input.curve.truncate(input.curve.len() / 3 * 3);
        let start = words.len();
        words.extend(records::words(&input));
        if generator.one_in(20) {
            words[start] = generator.one_of(&[0, 7, 262, u32::MAX]);
        }
        if generator.one_in(200) {
            words[start + 6] = generator.one_of(&[513, 1 << 16, 1_431_655_766, u32::MAX]);
        }
    }
    if generator.one_in(4) {
        words.truncate(generator.between(0, words.len() as u32) as usize);
    }
    words
}

#[test]
fn lists_of_records() {
    let mut generator = Generator::new(30);
    let mut met = Met::default();
    let lists = 1_000;
    for _ in 0..lists {
        let words = words(&mut generator);
        let lent = additions::lent(&mut generator);
        let spare = generator.one_of(&[0, 1, 10, -1, -5, -1_000]);
        let answers = compare(&mut generator, &words, &lent, spare);
        answers.into_iter().for_each(|answer| met.count(answer));
    }
    println!("{lists} lists of records, {met}");
    assert_eq!(met.answers(), [0, 2, 3, 4, 10, 11, 12, 13, 20, 21, 22, 23]);
}

/// Words that are no records at all but by chance.
#[test]
fn words_from_anywhere() {
    let mut generator = Generator::new(31);
    for _ in 0..2_000 {
        let mut words = generator.words(100);
        for word in &mut words {
            *word >>= generator.one_of(&[0, 20, 28, 30, 30]);
        }
        let lent = additions::lent(&mut generator);
        compare(&mut generator, &words, &lent, 3);
    }
}

/// A curve of more than 512 vertices ends the list, whatever the kind. Three times some of these numbers wraps.
#[test]
fn long_curves_of_any_kind() {
    let mut generator = Generator::new(36);
    let good = records::words(&additions::small(&mut generator, 2));
    for kind in [0, 1, 2, 3, 4, 5, 6, 7, u32::MAX] {
        for vertices in [512, 513, 65_536, 1_431_655_766, 2_863_311_531, u32::MAX] {
            let head = [kind, 3, 1, 0, 0, 0, vertices];
            // As many coordinates as a reader that goes on would pass over before the next record.
            let coordinates = vec![0; (3 * 513).min(vertices.wrapping_mul(3)) as usize];
            let words = [&good[..], &head, &coordinates, &good].concat();
            let lent = additions::lent(&mut generator);
            let answers = compare(&mut generator, &words, &lent, 1);
            let expected = match (vertices, kind) {
                (512, 1..=6) => 3,
                (512, _) => 2,
                _ => 1,
            };
            assert_eq!(answers.len(), expected, "kind {kind}, {vertices} vertices");
        }
    }
}

/// Without a table nothing is cleared, and nothing is touched.
#[test]
fn no_table() {
    let mut generator = Generator::new(32);
    for _ in 0..100 {
        let words = words(&mut generator);
        let lengths = Lengths {
            table: 0,
            ..additions::lengths(&mut generator)
        };
        let lent = Buffers::garbage(&mut generator, lengths);
        let before = generator.words(20);
        let (mut proved, mut answers) = (lent.clone(), before.clone());
        assert_eq!(library::build(&words, &mut answers, &mut proved), 1);
        assert!(proved.is_same(&lent), "buffers");
        assert_eq!(answers, before, "answers");
    }
}

/// The stored records in buffers of the lengths that `sweep` lends: the file is the stored one.
#[test]
fn stored_records() {
    let mut generator = Generator::new(33);
    // Each list gets the buffers as the last one left them.
    let mut lent = Buffers::garbage(&mut generator, sweep::LENT);
    for (name, _) in FILES {
        let [words, file] = read_stored(name).map(|bytes| sweep::words(&bytes));
        compare(&mut generator, &words, &lent, 0);
        assert_eq!(library::build(&words, &mut [], &mut lent), 0);
        let mut word = [0];
        for (place, &expected) in file.iter().enumerate() {
            assert_eq!(library::file_word(&lent, place, &mut word), 0, "{name}");
            assert_eq!(word[0], expected, "{name}: word {place}");
        }
        assert_eq!(
            library::file_word(&lent, file.len(), &mut word),
            5,
            "{name}"
        );
    }
    println!("{} stored files built", FILES.len());
}
