//! A list that was added once more, as records in one call.

use super::{adding::Added, counts::Counts};
use crate::{
    buffers::Buffers,
    generator::Generator,
    library,
    paper::{
        description::{Description, Input},
        records,
    },
};

/// A record has whole vertices, and not too many.
fn has_record(input: &Input) -> bool {
    input.curve.len().is_multiple_of(3) && input.curve.len() / 3 <= 512
}

/// Additions without a record are refused with 10, and leave no trace; a list with a longer curve is left out.
pub fn compare(
    generator: &mut Generator,
    lent: Buffers,
    additions: &[Input],
    added: &Added,
    counts: &mut Counts,
) {
    let mut words = Vec::new();
    let mut expected = Vec::new();
    for (input, &answer) in additions.iter().zip(&added.answers) {
        if has_record(input) {
            words.extend(records::words(input));
            let known = Description::of(input.fields).is_some();
            expected.extend(known.then_some(answer));
        } else if answer != 10 {
            return;
        }
    }
    let mut built = lent;
    let before = generator.words(expected.len() + 3);
    let mut answers = before.clone();
    assert_eq!(library::build(&words, &mut answers, &mut built), 0);
    assert_eq!(answers[..expected.len()], expected, "answers");
    let rest = expected.len()..;
    assert_eq!(
        answers[rest.clone()],
        before[rest],
        "the rest of the answers"
    );
    assert!(built.is_same(&added.left), "buffers");
    counts.built += expected.len() as u64;
}
