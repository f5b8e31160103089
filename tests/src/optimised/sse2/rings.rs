//! Writers of one ring of vertices, four vertices at a time.

use super::{
    four::Four,
    tables::{registers, Block},
};

/// Notes for whole rings at a time whether every coordinate is finite, by a bound: what a ring's middle and axes
/// cannot take past a quarter of the largest number needs no look at each coordinate.
#[derive(Clone, Copy)]
pub struct Bound {
    exceeded: Four,
}

impl Bound {
    #[inline(always)]
    pub fn new() -> Bound {
        Bound {
            exceeded: Four::all(0.0),
        }
    }

    /// A ring, the factors of whose axes are at most `reach` or round to a little more.
    #[inline(always)]
    pub fn note_ring(&mut self, middle: Four, first: Four, second: Four, reach: f32) {
        let axes = (first.magnitude() + second.magnitude()) * Four::all(reach);
        self.note(middle.magnitude() + axes);
    }

    #[inline(always)]
    pub fn note(&mut self, coordinates: Four) {
        let most = Four::all(f32::MAX / 4.0);
        self.exceeded = self.exceeded | coordinates.magnitude().is_not_below(most);
    }

    /// Whether the coordinates are finite; they are looked at where the bound does not tell. The fourth lanes hold
    /// anything.
    pub fn are_finite(self, coordinates: &[f32]) -> bool {
        self.exceeded.signs() & 0b111 == 0 || coordinates.iter().all(|x| x.is_finite())
    }
}

/// Writes a ring to the front of `out`, whose rest belongs to the same body and is written later, so that a last
/// block may reach beyond the ring. Where `out` ends with the ring, the block is cut off.
#[inline(always)]
fn write_blocks(
    out: &mut [f32],
    first: &[Block],
    second: &[Block],
    block: impl Fn([Four; 3], [Four; 3]) -> [Four; 3],
) {
    let (whole, rest) = out.as_chunks_mut::<12>();
    let count = whole.len().min(first.len());
    let places = whole[..count].iter_mut();
    for ((to, first), second) in places.zip(&first[..count]).zip(&second[..count]) {
        store(block(registers(first), registers(second)), to);
    }
    if count < first.len() {
        let mut last = [0.0; 12];
        let block = block(registers(&first[count]), registers(&second[count]));
        store(block, &mut last);
        rest.copy_from_slice(&last[..rest.len()]);
    }
}

#[inline(always)]
fn store(coordinates: [Four; 3], to: &mut Block) {
    let fours = to.as_chunks_mut::<4>().0;
    for (register, four) in coordinates.into_iter().zip(fours) {
        register.store(four);
    }
}

/// (middle + first axis · factor) + second axis · factor.
#[inline(always)]
pub fn write_sum(
    out: &mut [f32],
    middle: Four,
    (first, factors): (Four, &[Block]),
    (second, factors_after): (Four, &[Block]),
) {
    let (middle, first, second) = (middle.repeated(), first.repeated(), second.repeated());
    write_blocks(out, factors, factors_after, |before, after| {
        let sum = |k: usize| (middle[k] + first[k] * before[k]) + second[k] * after[k];
        [sum(0), sum(1), sum(2)]
    });
}

/// middle + (first axis · factor + second axis · factor) · radius.
#[inline(always)]
pub fn write_scaled_sum(
    out: &mut [f32],
    middle: Four,
    (first, factors): (Four, &[Block]),
    (second, factors_after): (Four, &[Block]),
    radius: f32,
) {
    let (middle, first, second) = (middle.repeated(), first.repeated(), second.repeated());
    let radius = Four::all(radius);
    write_blocks(out, factors, factors_after, |before, after| {
        let sum = |k: usize| middle[k] + (first[k] * before[k] + second[k] * after[k]) * radius;
        [sum(0), sum(1), sum(2)]
    });
}

/// A level's coordinates with the height put in, where they have +0.
#[inline(always)]
pub fn write_level(out: &mut [f32], level: &[Block], height: f32) {
    let heights = Four::point([0.0, height, 0.0]).repeated();
    write_blocks(out, level, level, |level, _| {
        let put = |k: usize| level[k] | heights[k];
        [put(0), put(1), put(2)]
    });
}
