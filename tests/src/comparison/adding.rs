//! A clear and a list of additions: every answer, and every element of all three buffers after each call.

use super::counts::Counts;
use crate::{
    adapted,
    buffers::{Buffers, Lengths},
    library,
    paper::{
        curve,
        description::{number, Description, Input},
        twist::{permitted, Twist},
    },
    readings::Readings,
};

/// The number of the kind that has a twist.
const SEAMLESS: u32 = 6;

/// The answers of a list's additions, and what the buffers hold at its end.
pub struct Added {
    pub answers: Vec<u32>,
    pub left: Buffers,
}

/// The calls by the reading of document 01's calls, with bodies by its formulas, and by the reading of its ledger, with
/// bodies by the adapted functions. The table is not empty.
pub fn compare(lent: Buffers, additions: &[Input], counts: &mut Counts) -> Added {
    let mut readings = Readings::cleared(&lent, adapted::alone);
    let mut left = lent;
    assert_eq!(library::clear(&mut left.table), 0);
    assert!(left.is_same(readings.buffers()), "after the clear");
    let mut answers = Vec::new();
    for (place, input) in additions.iter().enumerate() {
        let before = readings.taken();
        let answer = library::add(input, &mut left);
        let read = readings.add(input, Some(&left.vertices));
        assert_eq!(answer, read, "addition {place}: {input:?}");
        let same = left.is_same(readings.buffers());
        assert!(
            same,
            "addition {place}, answered {answer}, twists {:?}: {input:?}",
            twists(input)
        );
        let after = needed(input, before);
        compare_checks(input, after.map(|after| own(before, after)));
        counts.addition(answer, left.lengths(), before, after);
        if input.fields.kind == SEAMLESS {
            counts.seamless.count(answer);
        }
        if answer == 0 {
            let after = readings.taken();
            let floats = &left.vertices[before.vertices..after.vertices];
            counts.body(
                input.fields.kind,
                floats,
                after.triangles - before.triangles,
            );
            counts.twist(readings.last_twist(), &twists(input));
        }
        answers.push(answer);
    }
    Added { answers, left }
}

/// The twists that the body may have, where it is accepted.
fn twists(input: &Input) -> Vec<Twist> {
    let accepted = |&known: &Description| curve::check(known, &input.curve).is_ok();
    let description = Description::of(input.fields).filter(accepted);
    description.map_or_else(Vec::new, |known| permitted(known, &input.curve))
}

/// What a set that takes up `before` takes up with this body, where it has counts at all.
fn needed(input: &Input, before: Lengths) -> Option<Lengths> {
    let description = Description::of(input.fields)?;
    let [vertices, triangles] = description.counts(input.curve.len() / 3).ok()?;
    Some(Lengths {
        table: before.table + 6,
        vertices: before.vertices + 3 * vertices as usize,
        triangles: before.triangles + 3 * triangles as usize,
    })
}

fn own(before: Lengths, after: Lengths) -> [u32; 2] {
    let vertices = (after.vertices - before.vertices) / 3;
    let triangles = (after.triangles - before.triangles) / 3;
    [vertices as u32, triangles as u32]
}

/// The calls that look at no buffer: counts, and the check of the description with its curve.
fn compare_checks(input: &Input, expected: Option<[u32; 2]>) {
    let Some(description) = Description::of(input.fields) else {
        return;
    };
    let vertices = input.curve.len() / 3;
    let mut counts = [u32::MAX; 2];
    let answer = library::counts(input.fields, vertices, &mut counts);
    let refused = number(description.counts(vertices).map(drop));
    assert_eq!(answer, refused, "counts: {input:?}");
    assert_eq!(
        counts,
        expected.unwrap_or([u32::MAX; 2]),
        "counts: {input:?}"
    );
    let checked = library::check(input.fields, &input.curve);
    let read = number(curve::check(description, &input.curve));
    assert_eq!(checked, read, "check: {input:?}");
}
