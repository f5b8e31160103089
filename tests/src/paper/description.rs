//! The kinds with their sizes, the refusals that look at these alone, and the counts. Kind 6,
//! document 02's torus without a seam, has the counts, triangles and limits of kind 4.

use crate::topology::Body;

/// The paper's numbers of what is refused.
#[derive(Clone, Copy, Debug, PartialEq, Eq, PartialOrd, Ord)]
pub enum Refusal {
    DamagedTable = 1,
    NoFurtherEntry = 2,
    VertexRoom = 3,
    TriangleRoom = 4,
    FileEnd = 5,
    CurveLength = 10,
    NotFinite = 11,
    SegmentLength = 12,
    Fold = 13,
    Divisions = 20,
    Lengthwise = 21,
    Size = 22,
    VertexNotFinite = 23,
}

/// The paper's number of an answer, and 0 where nothing is refused.
pub fn number(answer: Result<(), Refusal>) -> u32 {
    answer.map_or_else(|refusal| refusal as u32, |()| 0)
}

/// What a caller hands over of a description. A kind reads its own fields and ignores the others.
#[derive(Clone, Copy, Debug)]
pub struct Fields {
    pub kind: u32,
    pub divisions: u32,
    /// L of a capsule, the layers of a closed cylinder.
    pub longitudes: u32,
    pub centred: bool,
    /// The width of a ribbon, the radius of the others.
    pub size: f32,
    pub length: f32,
}

/// What an addition takes beside the buffers.
#[derive(Clone, Debug)]
pub struct Input {
    pub fields: Fields,
    pub curve: Vec<f32>,
}

impl Input {
    pub fn description(&self) -> Description {
        Description::of(self.fields).expect("a kind of the paper")
    }
}

/// A description is one of the kinds, each with its sizes.
#[derive(Clone, Copy, Debug)]
pub enum Description {
    Ribbon {
        width: f32,
    },
    Tube {
        divisions: u32,
        radius: f32,
    },
    Capsule {
        divisions: u32,
        longitudes: u32,
        radius: f32,
    },
    Torus {
        divisions: u32,
        radius: f32,
    },
    ClosedCylinder {
        divisions: u32,
        layers: u32,
        centred: bool,
        radius: f32,
        length: f32,
    },
    SeamlessTorus {
        divisions: u32,
        radius: f32,
    },
}

impl Description {
    /// Nothing where the kind is none of the paper's numbers.
    pub fn of(fields: Fields) -> Option<Description> {
        let (divisions, radius) = (fields.divisions, fields.size);
        match fields.kind {
            1 => Some(Description::Ribbon { width: fields.size }),
            2 => Some(Description::Tube { divisions, radius }),
            3 => Some(Description::Capsule {
                divisions,
                longitudes: fields.longitudes,
                radius,
            }),
            4 => Some(Description::Torus { divisions, radius }),
            5 => Some(Description::ClosedCylinder {
                divisions,
                layers: fields.longitudes,
                centred: fields.centred,
                radius,
                length: fields.length,
            }),
            6 => Some(Description::SeamlessTorus { divisions, radius }),
            _ => None,
        }
    }

    /// The body's whole numbers, or the first of the refusals 10, 20 and 21, which look at no float.
    pub fn body(self, vertices: usize) -> Result<Body, Refusal> {
        let (least, most) = match self {
            Description::ClosedCylinder { .. } => (0, 0),
            Description::Torus { .. } | Description::SeamlessTorus { .. } => (3, 4096),
            _ => (2, 4096),
        };
        if vertices < least || vertices > most {
            return Err(Refusal::CurveLength);
        }
        let outside = |divisions| !(3..=256).contains(&divisions);
        if self.divisions().is_some_and(outside) {
            return Err(Refusal::Divisions);
        }
        if self.is_outside_lengthwise(vertices as u64) {
            return Err(Refusal::Lengthwise);
        }
        Ok(self.permitted_body(vertices as u32))
    }

    /// Vertices and triangles, or the first of the refusals 10, 20, 21 and 22.
    pub fn counts(self, vertices: usize) -> Result<[u32; 2], Refusal> {
        let body = self.body(vertices)?;
        let outside = |&size: &f32| !(size.is_finite() && size > 0.0);
        if self.sizes().iter().any(outside) {
            return Err(Refusal::Size);
        }
        Ok([body.vertex_count(), body.triangle_count()])
    }

    /// A torus of either kind, whose curve is closed.
    pub fn is_torus(self) -> bool {
        matches!(self, Description::Torus { .. }) || self.is_seamless()
    }

    /// The torus without a seam.
    pub fn is_seamless(self) -> bool {
        matches!(self, Description::SeamlessTorus { .. })
    }

    /// The paper's number of the kind.
    pub fn kind(self) -> u32 {
        match self {
            Description::Ribbon { .. } => 1,
            Description::Tube { .. } => 2,
            Description::Capsule { .. } => 3,
            Description::Torus { .. } => 4,
            Description::ClosedCylinder { .. } => 5,
            Description::SeamlessTorus { .. } => 6,
        }
    }

    /// n, which a ribbon lacks.
    pub fn divisions(self) -> Option<u32> {
        match self {
            Description::Ribbon { .. } => None,
            Description::Tube { divisions, .. }
            | Description::Capsule { divisions, .. }
            | Description::Torus { divisions, .. }
            | Description::ClosedCylinder { divisions, .. }
            | Description::SeamlessTorus { divisions, .. } => Some(divisions),
        }
    }

    fn is_outside_lengthwise(self, vertices: u64) -> bool {
        match self {
            Description::Capsule { longitudes, .. } => {
                longitudes > 256 || 2 * u64::from(longitudes) + (vertices - 1) < 3
            }
            Description::ClosedCylinder { layers, .. } => !(1..=4096).contains(&layers),
            _ => false,
        }
    }

    /// Radius, width and length, as many of them as the kind has.
    fn sizes(self) -> Vec<f32> {
        match self {
            Description::Ribbon { width } => vec![width],
            Description::Tube { radius, .. }
            | Description::Capsule { radius, .. }
            | Description::Torus { radius, .. }
            | Description::SeamlessTorus { radius, .. } => vec![radius],
            Description::ClosedCylinder { radius, length, .. } => vec![radius, length],
        }
    }

    /// An open curve has one segment fewer than vertices.
    fn permitted_body(self, vertices: u32) -> Body {
        match self {
            Description::Ribbon { .. } => Body::Ribbon {
                segments: vertices - 1,
            },
            Description::Tube { divisions, .. } => Body::Tube {
                divisions,
                segments: vertices - 1,
            },
            Description::Capsule {
                divisions,
                longitudes,
                ..
            } => Body::Capsule {
                divisions,
                longitudes,
                segments: vertices - 1,
            },
            Description::Torus { divisions, .. } | Description::SeamlessTorus { divisions, .. } => {
                Body::Torus {
                    divisions,
                    vertices,
                }
            }
            Description::ClosedCylinder {
                divisions, layers, ..
            } => Body::ClosedCylinder { divisions, layers },
        }
    }
}
