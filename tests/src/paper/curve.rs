//! The refusals of a description with its curve, in add's order.

use super::description::{Description, Refusal};
use crate::arithmetic::Point;

/// Bounds of a segment's difference dotted with itself, both accepted.
pub const LEAST_SQUARE: f32 = 1.0 / (1u64 << 40) as f32;
pub const MOST_SQUARE: f32 = (1u128 << 80) as f32;

/// The least 1 + c that is no fold.
pub const LEAST_OPENING: f32 = 1.0 / 4096.0;

/// The curve's vertices; floats past the last whole vertex are left out.
pub fn points(curve: &[f32]) -> Vec<Point> {
    let vertices = curve.chunks_exact(3);
    vertices.map(|v| Point::new(v[0], v[1], v[2])).collect()
}

/// The difference of each segment, the closing one of a closed curve last.
pub fn segments(points: &[Point], closed: bool) -> Vec<Point> {
    let mut ends: Vec<Point> = points.iter().skip(1).copied().collect();
    if closed {
        ends.extend(points.first());
    }
    let segment = |(&start, &end): (&Point, &Point)| end.difference(start);
    points.iter().zip(&ends).map(segment).collect()
}

/// 1 + c where a segment meets the next.
pub fn opening(before: Point, after: Point) -> f32 {
    1.0 + before.normalize().dot(after.normalize())
}

/// The first of the refusals 10, 20, 21, 22, 11, 12 and 13, each tried over the whole curve. Kind
/// 6's 13 covers vertex 0 too, where the closing segment meets the first.
pub fn check(description: Description, curve: &[f32]) -> Result<(), Refusal> {
    if !curve.len().is_multiple_of(3) {
        return Err(Refusal::CurveLength);
    }
    description.counts(curve.len() / 3)?;
    if !curve.iter().all(|x| x.is_finite()) {
        return Err(Refusal::NotFinite);
    }
    let segments = segments(&points(curve), description.is_torus());
    let permitted = |segment: &Point| {
        let square = segment.dot(*segment);
        (LEAST_SQUARE..=MOST_SQUARE).contains(&square)
    };
    if !segments.iter().all(permitted) {
        return Err(Refusal::SegmentLength);
    }
    // Of m segments in a row the pairs meet at the vertices 1 to m - 1, a torus's N segments at 1 to N - 1.
    let folded = |before: Point, after: Point| opening(before, after) < LEAST_OPENING;
    let mut folds = segments.windows(2).map(|pair| folded(pair[0], pair[1]));
    let folds_at_vertex_0 = || folded(segments[segments.len() - 1], segments[0]);
    if folds.any(|fold| fold) || description.is_seamless() && folds_at_vertex_0() {
        return Err(Refusal::Fold);
    }
    Ok(())
}
