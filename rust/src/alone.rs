//! Bodies alone, without a set.

use crate::{
    description::{Description, Point},
    ffi,
    refusal::{answer, Refusal},
};

/// The most vertices that may be numbered.
const MOST_IN_ALL: u32 = 1 << 28;

/// How many vertices and triangles a body has.
#[derive(Clone, Copy, Debug, PartialEq, Eq)]
pub struct Counts {
    /// Each is three floats.
    pub vertices: u32,
    /// Each is three words.
    pub triangles: u32,
}

impl Counts {
    /// How many floats the vertices take.
    pub const fn floats(self) -> usize {
        3 * self.vertices as usize
    }

    /// How many words the triangles take.
    pub const fn words(self) -> usize {
        3 * self.triangles as usize
    }
}

impl Description {
    /// The counts of this body along a curve of `curve_vertices` vertices.
    ///
    /// Refused are [`Refusal::CurveVertices`], [`Divisions`](Refusal::Divisions),
    /// [`Layers`](Refusal::Layers) and [`Size`](Refusal::Size), in this order.
    ///
    /// ```
    /// use togbefulo::{Counts, Description, Refusal};
    ///
    /// let hose = Description::Tube { divisions: 8, radius: 4.0 };
    /// assert_eq!(hose.counts(5), Ok(Counts { vertices: 40, triangles: 64 }));
    /// assert_eq!(hose.counts(1), Err(Refusal::CurveVertices));
    /// ```
    pub fn counts(self, curve_vertices: usize) -> Result<Counts, Refusal> {
        let mut counts = [0; 2];
        answer(ffi::counts(self.fields(), curve_vertices, &mut counts))?;
        let [vertices, triangles] = counts;
        Ok(Counts {
            vertices,
            triangles,
        })
    }

    /// Checks this body and its curve; a closed cylinder's is empty.
    ///
    /// Refused are, in this order, what [`counts`](Description::counts) refuses, and
    /// [`Refusal::CurveNotFinite`], [`Segment`](Refusal::Segment) and [`Fold`](Refusal::Fold).
    ///
    /// ```
    /// use togbefulo::{Description, Refusal};
    ///
    /// let hose = Description::Tube { divisions: 8, radius: 4.0 };
    /// let there_and_back = [[0.0; 3], [9.0, 0.0, 0.0], [0.0; 3]];
    /// assert_eq!(hose.check(&there_and_back), Err(Refusal::Fold));
    /// ```
    pub fn check(self, curve: &[Point]) -> Result<(), Refusal> {
        answer(ffi::check(self.fields(), curve.as_flattened()))
    }

    /// Writes the vertices of this body to the front of `out`, as many floats as
    /// [`Counts::floats`] says, and leaves the rest.
    ///
    /// Refused is, with nothing written, what [`counts`](Description::counts) refuses, and then
    /// [`Refusal::NoVertices`] where `out` is too short. The curve's coordinates are not looked
    /// at: whoever has not [checked](Description::check) them may get vertices that are not
    /// finite.
    ///
    /// ```
    /// use togbefulo::Description;
    ///
    /// let mut out = [9.0; 13];
    /// Description::Ribbon { width: 2.0 }.write_vertices(&[[0.0; 3], [0.0, 0.0, 1.0]], &mut out)?;
    /// assert_eq!(out, [0.0, 0.0, 0.0, 2.0, 0.0, 0.0, 0.0, 0.0, 1.0, 2.0, 0.0, 1.0, 9.0]);
    /// # Ok::<(), togbefulo::Refusal>(())
    /// ```
    pub fn write_vertices(self, curve: &[Point], out: &mut [f32]) -> Result<(), Refusal> {
        self.counts(curve.len())?;
        match ffi::vertices(self.fields(), curve.as_flattened(), out) {
            true => Ok(()),
            false => Err(Refusal::NoVertices),
        }
    }

    /// Writes the triangles of this body along a curve of `curve_vertices` vertices to the front of
    /// `out`, as many words as [`Counts::words`] says, and leaves the rest. A triangle is three
    /// vertex numbers, with `first` added to each.
    ///
    /// Refused is, with nothing written, what [`counts`](Description::counts) refuses, then
    /// [`Refusal::NoVertices`] where a vertex would have the number 2^28 or above, and
    /// [`Refusal::NoTriangles`] where `out` is too short.
    ///
    /// ```
    /// use togbefulo::Description;
    ///
    /// let mut out = [0; 6];
    /// Description::Ribbon { width: 2.0 }.write_triangles(2, 10, &mut out)?;
    /// assert_eq!(out, [10, 11, 12, 11, 13, 12]);
    /// # Ok::<(), togbefulo::Refusal>(())
    /// ```
    pub fn write_triangles(
        self,
        curve_vertices: usize,
        first: u32,
        out: &mut [u32],
    ) -> Result<(), Refusal> {
        let counts = self.counts(curve_vertices)?;
        if ffi::triangles(self.grid(curve_vertices), first, out) {
            return Ok(());
        }
        // Why not, since the library says no more than that.
        match first.checked_add(counts.vertices) {
            Some(end) if end <= MOST_IN_ALL => Err(Refusal::NoTriangles),
            _ => Err(Refusal::NoVertices),
        }
    }
}

/// The square root as the library has it, which is [`f32::sqrt`].
///
/// ```
/// assert_eq!(togbefulo::root(2.0), 2.0_f32.sqrt());
/// ```
pub fn root(x: f32) -> f32 {
    ffi::root(x)
}

/// The cosine and the sine of k / n of a whole turn, with which the library draws rings; for k at
/// or above n, or n above 2^24, those of no turn.
///
/// ```
/// assert_eq!(togbefulo::turn(1, 2), (-1.0, -0.0));
/// ```
pub fn turn(k: u32, n: u32) -> (f32, f32) {
    ffi::turn(k, n)
}
