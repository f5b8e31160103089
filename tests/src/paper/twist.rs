//! Document 02's No. 1: the end twist of a torus without a seam, k/4096 turn, "one k for the whole
//! body: any of -2047 to 2048 whose score c0·cos + s0·sin is at least that of every other k".

use super::{
    curve::{points, segments},
    description::Description,
    vertices::frames,
};
use crate::arithmetic::{transport_step, turn};
use std::sync::LazyLock;

/// k of a body of kind 6. The other kinds have none.
pub type Twist = Option<i32>;

/// k·j/(4096N) turn as the pair (cos, sin). "For negative k, the sine of turn(-k, 4096) is
/// negated", so that at j = 0 it is -0 then.
pub fn part(k: i32, j: u32, count: u32) -> (f32, f32) {
    let (cos, sin) = turn(k.unsigned_abs() * j, 4096 * count);
    (cos, if k < 0 { -sin } else { sin })
}

/// How the last frame stands to the first where the loop closes.
#[derive(Clone, Copy, Debug)]
pub struct Ends {
    pub c0: f32,
    pub s0: f32,
}

/// "The last frame is transported across vertex 0. Its dots with frame 0 and with cross(first
/// direction, frame 0) are c0 and s0."
pub fn ends(curve: &[f32]) -> Ends {
    let segments = segments(&points(curve), true);
    let frames = frames(&segments);
    let last = segments.len() - 1;
    let [closing, first] = [segments[last].normalize(), segments[0].normalize()];
    let across = transport_step(frames[last], closing, first);
    Ends {
        c0: across.dot(frames[0]),
        s0: across.dot(first.cross(frames[0])),
    }
}

/// Every k with the cosine and the sine of its whole twist, in the order 0, 1, .. 2048, -1, ..
/// -2047.
static TWISTS: LazyLock<Vec<(i32, f32, f32)>> = LazyLock::new(|| {
    let order = (0..=2048).chain((-2047..=-1).rev());
    let twist = |k| {
        let (cos, sin) = part(k, 1, 1);
        (k, cos, sin)
    };
    order.map(twist).collect()
});

/// Every k with its score, in the order above.
pub fn scores(ends: Ends) -> impl Iterator<Item = (i32, f32)> {
    let score = move |&(k, cos, sin): &(i32, f32, f32)| (k, ends.c0 * cos + ends.s0 * sin);
    TWISTS.iter().map(score)
}

/// Every k whose score is at least that of every other. None where c0, s0 or a score is not
/// finite, which 23 covers.
pub fn best(ends: Ends) -> Vec<i32> {
    let scores: Vec<(i32, f32)> = scores(ends).collect();
    let finite = scores.iter().all(|(_, score)| score.is_finite());
    if !(finite && ends.c0.is_finite() && ends.s0.is_finite()) {
        return Vec::new();
    }
    let greatest = scores.iter().fold(f32::MIN, |most, &(_, x)| most.max(x));
    let best = scores.iter().filter(|&&(_, score)| score >= greatest);
    best.map(|&(k, _)| k).collect()
}

/// The twists that a body may have: of kind 6 any of the best. The other kinds have none, which is
/// one possibility.
pub fn permitted(description: Description, curve: &[f32]) -> Vec<Twist> {
    if !description.is_seamless() {
        return vec![None];
    }
    best(ends(curve)).into_iter().map(Some).collect()
}

/// The only twist that the body may have, for stored outputs: where several are best, add is free
/// to take any.
pub fn only(description: Description, curve: &[f32]) -> Twist {
    match permitted(description, curve)[..] {
        [twist] => twist,
        ref several => panic!("{} twists are best: {curve:?}", several.len()),
    }
}

/// The twist that the core took: of those that are permitted the first with which the body's
/// stretch holds what the core left there. Where none does it is the first of all, so that the
/// comparison fails, and also where nothing of the core is at hand. Nothing where no twist is
/// permitted.
pub fn taken(
    permitted: &[Twist],
    left: Option<&[f32]>,
    floats: impl Fn(Twist) -> Vec<f32>,
) -> Option<Twist> {
    let agrees = |&&twist: &&Twist| left.is_some_and(|left| leaves(&floats(twist), left));
    let found = match permitted {
        [_, _, ..] => permitted.iter().find(agrees),
        _ => None,
    };
    found.or(permitted.first()).copied()
}

/// Whether an addition of a body with these floats leaves this in its stretch, bit for bit: the
/// floats, or +0 throughout where one of them is not finite (23).
fn leaves(floats: &[f32], left: &[f32]) -> bool {
    let finite = floats.iter().all(|x| x.is_finite());
    let bits = |x: &f32| if finite { x.to_bits() } else { 0 };
    left.iter().map(|x| x.to_bits()).eq(floats.iter().map(bits))
}
