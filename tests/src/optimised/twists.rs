//! The twist of a seamless torus: the k of −2047 to 2048, for k/4096 turn, whose score
//! c0·cos + s0·sin is the greatest.
//!
//! What is done for speed: the directions of all k are those of an eighth of a turn, with their
//! numbers exchanged or negated, and stand in a table. A score whose products have the signs of c0
//! and s0 is at least that of the other signs, bit for bit, so that the greatest of all is found
//! among the scores of |c0| and |s0|. Of these, one half is looked at only where a bound does not
//! tell that it has none of the greatest.

use crate::arithmetic::turn;
use std::array;

/// How many entries of the table are looked at together, and how many such groups it has.
pub const GROUP: usize = 32;
const GROUPS: usize = 512 / GROUP;

/// Cosines and sines of j/4096 turn, for j from 0 to 511. The cosines fall and the sines rise.
struct Eighth {
    cosines: [[f32; GROUP]; GROUPS],
    sines: [[f32; GROUP]; GROUPS],
}

static EIGHTH: Eighth = eighth();

/// The cosine and the sine of an eighth of a turn, where the directions have them exchanged.
const LAST: [f32; 2] = {
    let (sin, cos) = turn(512, 4096);
    [cos, sin]
};

const fn eighth() -> Eighth {
    let mut table = Eighth {
        cosines: [[0.0; GROUP]; GROUPS],
        sines: [[0.0; GROUP]; GROUPS],
    };
    let mut j = 0;
    while j < GROUP * GROUPS {
        let (cos, sin) = turn(j as u32, 4096);
        let (next_cos, next_sin) = turn(j as u32 + 1, 4096);
        assert!(j == 511 || next_cos <= cos && sin <= next_sin);
        table.cosines[j / GROUP][j % GROUP] = cos;
        table.sines[j / GROUP][j % GROUP] = sin;
        j += 1;
    }
    table
}

/// A twist of `steps`/4096 turn, to the other side where it is `backward`.
#[derive(Clone, Copy, Debug, PartialEq, Eq)]
pub struct Twist {
    pub steps: u32,
    pub backward: bool,
}

impl Twist {
    /// The k by their places: 0 to 2048, then −1 to −2047.
    fn at(place: u32) -> Twist {
        let backward = place > 2048;
        let steps = if backward { place - 2048 } else { place };
        Twist { steps, backward }
    }
}

/// How the last frame of a loop stands to the first where they meet.
#[derive(Clone, Copy, Debug)]
pub struct Ends {
    pub c0: f32,
    pub s0: f32,
}

impl Ends {
    /// The first of the k with the greatest score, in the order of their places, or nothing where
    /// c0, s0 or a score is not finite.
    #[inline(always)]
    pub fn search(
        self,
        greatest: impl Fn(f32, f32, &[f32; GROUP], &[f32; GROUP]) -> f32,
    ) -> Option<Twist> {
        if !(self.c0.is_finite() && self.s0.is_finite()) {
            return None;
        }
        let score = |group: usize, exchanged: bool| {
            let [x, y] = entries(group, exchanged);
            greatest(self.c0.abs(), self.s0.abs(), x, y)
        };
        let last = self.last();
        // First the half in which the greater number of an entry meets the greater of both.
        let near = self.c0.abs() < self.s0.abs();
        let near_scores = array::from_fn(|group| score(group, near));
        let mut most = near_scores.into_iter().fold(last.score(), greater);
        let far_scores = array::from_fn(|group| {
            if self.bound(group, !near) < most {
                return 0.0;
            }
            let score = score(group, !near);
            most = greater(score, most);
            score
        });
        let place = last.place(self, most);
        let place = place.min(self.first_place(near_scores, near, most));
        let place = place.min(self.first_place(far_scores, !near, most));
        most.is_finite().then(|| Twist::at(place))
    }

    /// What no score of a group is above: its greatest x with its greatest y.
    #[inline(always)]
    fn bound(self, group: usize, exchanged: bool) -> f32 {
        let (cos, sin) = (EIGHTH.cosines[group][0], EIGHTH.sines[group][GROUP - 1]);
        self.entry(0, [cos, sin], exchanged).score()
    }

    /// The entry of an eighth of a turn. The directions with a positive cosine have it with its
    /// numbers exchanged, those with a negative one as it is.
    fn last(self) -> Entry {
        self.entry(512, LAST, self.c0 >= 0.0)
    }

    /// The first place with the greatest score, in the groups that have it.
    #[inline(always)]
    fn first_place(self, scores: [f32; GROUPS], exchanged: bool, most: f32) -> u32 {
        let mut place = NO_PLACE;
        for (group, score) in scores.into_iter().enumerate() {
            if score == most {
                place = place.min(self.first_place_in(group, exchanged, most));
            }
        }
        place
    }

    fn first_place_in(self, group: usize, exchanged: bool, most: f32) -> u32 {
        let [cosines, sines] = entries(group, false);
        let mut place = NO_PLACE;
        for (j, (&cos, &sin)) in cosines.iter().zip(sines).enumerate() {
            let entry = self.entry((GROUP * group + j) as u32, [cos, sin], exchanged);
            if entry.score() == most {
                place = place.min(entry.place(self, most));
            }
        }
        place
    }

    #[inline(always)]
    fn entry(self, j: u32, [cos, sin]: [f32; 2], exchanged: bool) -> Entry {
        let [x, y] = if exchanged { [sin, cos] } else { [cos, sin] };
        Entry {
            j,
            exchanged,
            products: [self.c0.abs() * x, self.s0.abs() * y],
        }
    }
}

#[inline(always)]
fn greater(a: f32, b: f32) -> f32 {
    if a > b {
        a
    } else {
        b
    }
}

/// The cosines and the sines of a group, or its sines and its cosines.
#[inline(always)]
fn entries(group: usize, exchanged: bool) -> [&'static [f32; GROUP]; 2] {
    let (cosines, sines) = (&EIGHTH.cosines[group], &EIGHTH.sines[group]);
    if exchanged {
        [sines, cosines]
    } else {
        [cosines, sines]
    }
}

const NO_PLACE: u32 = u32::MAX;

/// An entry of the table, as it is or with its numbers exchanged, and its products with |c0| and
/// |s0|.
#[derive(Clone, Copy)]
struct Entry {
    j: u32,
    exchanged: bool,
    products: [f32; 2],
}

impl Entry {
    #[inline(always)]
    fn score(self) -> f32 {
        self.products[0] + self.products[1]
    }

    /// The first place with this entry and such a score. The signs that give it are those of c0
    /// and s0, and others too where a product is too small to count.
    fn place(self, ends: Ends, most: f32) -> u32 {
        let j = self.j;
        let places = if self.exchanged {
            [1024 - j, 1024 + j, 3072 - j, 3072 + j]
        } else {
            [j, 2048 - j, 2048 + j, 4096 - j]
        };
        let signs = [[1.0, 1.0], [-1.0, 1.0], [1.0, -1.0], [-1.0, -1.0]];
        let score = |[cos, sin]: [f32; 2]| {
            let [p, q] = self.products;
            p.copysign(cos * ends.c0) + q.copysign(sin * ends.s0)
        };
        let found = places.into_iter().zip(signs);
        let best = found.filter(|&(_, signs)| score(signs) == most);
        best.map(|(place, _)| place).min().unwrap_or(NO_PLACE)
    }
}
