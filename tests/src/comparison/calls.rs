//! Add, file word and clear on buffers that hold anything, each beside the reading of document 01's calls, untouched
//! elements compared too.

use crate::{
    additions,
    buffers::Buffers,
    generator::Generator,
    library,
    met::Met,
    paper::{description::number, set},
    readings,
};

/// Places of a file's head, of its entries or past them, and far past its end.
const PLACES: [usize; 5] = [0, 3, 4, 50, usize::MAX];

/// How many of the calls on the same buffers count in `met`.
pub const CALLS: u64 = 1 + PLACES.len() as u64;

/// All three calls on what the buffers hold; add's answer.
pub fn compare(generator: &mut Generator, lent: &Buffers, met: &mut Met) -> u32 {
    let input = additions::small_of_any_kind(generator);
    let [mut proved, mut read] = [lent.clone(), lent.clone()];
    let answer = library::add(&input, &mut proved);
    let expected = readings::add(&input, &mut read, Some(&proved.vertices));
    assert_eq!(answer, expected, "{:?}", lent.table);
    assert!(proved.is_same(&read), "answered {answer}: {:?}", lent.table);
    met.count(answer);
    for place in PLACES {
        met.count(compare_file_word(generator, lent, place));
    }
    compare_clear(&lent.table);
    answer
}

fn compare_file_word(generator: &mut Generator, lent: &Buffers, place: usize) -> u32 {
    let before = generator.word();
    let mut word = [before];
    let answer = library::file_word(lent, place, &mut word);
    let read = set::file_word(&lent.table, &lent.vertices, &lent.triangles, place);
    assert_eq!(word[0], read.unwrap_or(before), "word {place}");
    assert_eq!(answer, number(read.map(drop)), "word {place}");
    answer
}

/// Only an empty table is refused; of others word 0 alone changes.
fn compare_clear(table: &[u32]) {
    let [mut proved, mut read] = [table.to_vec(), table.to_vec()];
    assert_eq!(library::clear(&mut proved), number(set::clear(&mut read)));
    assert_eq!(proved, read);
}
