//! Why a call is refused.

use std::{
    error::Error,
    fmt::{Display, Formatter, Result as Written},
};

/// Why a call is refused. A refused call has written nothing, save [`Refusal::NotFinite`].
///
/// ```
/// use togbefulo::Refusal;
///
/// assert_eq!(Refusal::Fold.number(), 13);
/// assert_eq!(Refusal::Fold.to_string(), "refusal 13: the curve turns back on itself");
/// ```
#[derive(Clone, Copy, Debug, PartialEq, Eq, Hash, PartialOrd, Ord)]
#[repr(u32)]
pub enum Refusal {
    /// 1: the table is empty, or its number of bodies, a kind, a first vertex or triangle, or a
    /// total is wrong.
    DamagedTable = 1,
    /// 2: the set has 64 bodies, or its table no six words more.
    NoEntry = 2,
    /// 3: the vertices do not fit, or would be more than 2^28 in all.
    NoVertices = 3,
    /// 4: the triangles do not fit, or would be more than 2^28 in all.
    NoTriangles = 4,
    /// 5: the file has no word at this place.
    PastEnd = 5,
    /// 10: the curve has too few or too many vertices for the kind.
    CurveVertices = 10,
    /// 11: a coordinate of the curve is infinite or not a number.
    CurveNotFinite = 11,
    /// 12: a segment of the curve has a square of its length below 2^-40 or above 2^80.
    Segment = 12,
    /// 13: the curve turns back on itself, by more than about 178.7 degrees. The first vertex of a
    /// closed curve is looked at for a seamless torus, but not for a torus.
    Fold = 13,
    /// 20: the divisions are outside 3 to 256.
    Divisions = 20,
    /// 21: the longitudes are above 256, or twice them and the curve's segments together below 3;
    /// or the layers are outside 1 to 4096.
    Layers = 21,
    /// 22: a radius, width or length is not finite or not above 0.
    Size = 22,
    /// 23: a coordinate that was worked out is not finite, or a number by which the twist of a
    /// seamless torus is chosen. Where the vertices would have been there is 0 now.
    NotFinite = 23,
}

use Refusal::*;

impl Refusal {
    /// All of them, by their numbers.
    pub const ALL: [Refusal; 13] = [
        DamagedTable,
        NoEntry,
        NoVertices,
        NoTriangles,
        PastEnd,
        CurveVertices,
        CurveNotFinite,
        Segment,
        Fold,
        Divisions,
        Layers,
        Size,
        NotFinite,
    ];

    /// The number by which the library answers.
    pub const fn number(self) -> u32 {
        self as u32
    }

    /// The refusal of this number, if one has it.
    ///
    /// ```
    /// # use togbefulo::Refusal;
    /// assert_eq!(Refusal::of_number(22), Some(Refusal::Size));
    /// assert_eq!(Refusal::of_number(6), None);
    /// ```
    pub fn of_number(number: u32) -> Option<Refusal> {
        Refusal::ALL
            .into_iter()
            .find(|refusal| refusal.number() == number)
    }

    fn text(self) -> &'static str {
        match self {
            DamagedTable => "the table is damaged",
            NoEntry => "the table has no room for a body more",
            NoVertices => "there is no room for the vertices",
            NoTriangles => "there is no room for the triangles",
            PastEnd => "the file has no word at this place",
            CurveVertices => "the curve has too few or too many vertices",
            CurveNotFinite => "a coordinate of the curve is not finite",
            Segment => "a segment of the curve is too short or too long",
            Fold => "the curve turns back on itself",
            Divisions => "the divisions are outside 3 to 256",
            Layers => "the longitudes or layers are outside their range",
            Size => "a radius, width or length is not finite or not above 0",
            NotFinite => "a vertex, or what a seamless torus is twisted by, came out not finite",
        }
    }
}

impl Display for Refusal {
    fn fmt(&self, f: &mut Formatter) -> Written {
        write!(f, "refusal {}: {}", self.number(), self.text())
    }
}

impl Error for Refusal {}

/// What a number of the library says. A description has one of the six kinds, so that the number
/// for an unknown kind is never met; nor is any other, as long as the library that was linked is
/// the one of these declarations.
pub(crate) fn answer(number: u32) -> Result<(), Refusal> {
    if number == 0 {
        return Ok(());
    }
    Err(Refusal::of_number(number)
        .unwrap_or_else(|| unreachable!("libtogbefulo.a answered {number}, which it never does")))
}
