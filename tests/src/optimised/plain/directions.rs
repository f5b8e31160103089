//! Refusals 11 to 13 of a curve, and the normalised segments that 13 has to know, which the vertices are made of
//! again.

use crate::{
    arithmetic::Point,
    optimised::Chain,
    paper::{
        curve::{LEAST_OPENING, LEAST_SQUARE, MOST_SQUARE},
        description::Refusal,
    },
};

#[inline(always)]
pub fn point(&[x, y, z]: &[f32; 3]) -> Point {
    Point::new(x, y, z)
}

#[inline(always)]
fn is_fold(before: Point, after: Point) -> bool {
    1.0 + before.dot(after) < LEAST_OPENING
}

/// The first of the refusals, each tried over the whole curve, or the directions.
pub fn work_out(curve: &[f32], chain: Chain) -> Result<Vec<Point>, Refusal> {
    let vertices = curve.as_chunks::<3>().0;
    let mut directions: Vec<Point> = Vec::with_capacity(vertices.len());
    let (mut permitted, mut folded) = (true, false);
    let mut segment = |from: &[f32; 3], to: &[f32; 3]| {
        let difference = point(to).difference(point(from));
        let square = difference.dot(difference);
        permitted &= (LEAST_SQUARE..=MOST_SQUARE).contains(&square);
        let norm = square.sqrt();
        let Point { x, y, z } = difference;
        let direction = Point::new(x / norm, y / norm, z / norm);
        if let Some(&before) = directions.last() {
            folded |= is_fold(before, direction);
        }
        directions.push(direction);
    };
    for pair in vertices.windows(2) {
        segment(&pair[0], &pair[1]);
    }
    if chain != Chain::Open {
        segment(&vertices[vertices.len() - 1], &vertices[0]);
    }
    if chain == Chain::Seamless {
        folded |= is_fold(directions[vertices.len() - 1], directions[0]);
    }
    if !permitted {
        // A coordinate that is not finite makes a difference whose square is not.
        let finite = curve.iter().all(|x| x.is_finite());
        return Err(if finite {
            Refusal::SegmentLength
        } else {
            Refusal::NotFinite
        });
    }
    if folded {
        return Err(Refusal::Fold);
    }
    Ok(directions)
}
