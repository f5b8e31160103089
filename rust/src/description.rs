//! What a body is made of, beside its curve.

/// A vertex of a curve: x, y, z. A curve of floats one behind the other is one of points by
/// [`slice::as_chunks`].
pub type Point = [f32; 3];

/// The six kinds, by the numbers that the table has.
#[derive(Clone, Copy, Debug, PartialEq, Eq, Hash, PartialOrd, Ord)]
#[repr(u32)]
pub enum Kind {
    /// A strip beside an open curve.
    Ribbon = 1,
    /// A hose along an open curve, open at both ends.
    Tube = 2,
    /// A hose along an open curve, with a round cap at either end.
    Capsule = 3,
    /// A hose along a closed curve. Where the curve is not flat, it may be twisted where it closes.
    Torus = 4,
    /// A cylinder about the y axis with flat ends.
    ClosedCylinder = 5,
    /// A hose along a closed curve, with the twist spread along it.
    SeamlessTorus = 6,
}

impl Kind {
    /// All of them, by their numbers.
    pub const ALL: [Kind; 6] = [
        Kind::Ribbon,
        Kind::Tube,
        Kind::Capsule,
        Kind::Torus,
        Kind::ClosedCylinder,
        Kind::SeamlessTorus,
    ];

    /// The number in the table and in records.
    pub const fn number(self) -> u32 {
        self as u32
    }
}

/// One of the six kinds with its sizes. Lengths are in the unit of the curve's coordinates.
///
/// Any numbers can be written here: the calls say which of them are permitted ([`crate::Refusal`]).
#[derive(Clone, Copy, Debug, PartialEq)]
pub enum Description {
    /// Along an open curve of 2 to 4096 vertices.
    Ribbon {
        /// Finite, above 0.
        width: f32,
    },
    /// Along an open curve of 2 to 4096 vertices.
    Tube {
        /// Corners of the cross section, 3 to 256.
        divisions: u32,
        /// Finite, above 0.
        radius: f32,
    },
    /// Along an open curve of 2 to 4096 vertices.
    Capsule {
        /// Corners of the cross section, 3 to 256.
        divisions: u32,
        /// Longitude divisions of each cap, 0 to 256; twice them and the curve's segments together
        /// at least 3.
        longitudes: u32,
        /// Finite, above 0.
        radius: f32,
    },
    /// Along a closed curve of 3 to 4096 vertices, whose first is not repeated at its end.
    Torus {
        /// Corners of the cross section, 3 to 256.
        divisions: u32,
        /// Finite, above 0.
        radius: f32,
    },
    /// About the y axis, without a curve.
    ClosedCylinder {
        /// Corners of the cross section, 3 to 256.
        divisions: u32,
        /// Layers from the bottom to the top, 1 to 4096.
        layers: u32,
        /// Whether its middle, rather than its bottom, is at y = 0.
        centred: bool,
        /// Finite, above 0.
        radius: f32,
        /// Finite, above 0.
        length: f32,
    },
    /// Along a closed curve of 3 to 4096 vertices, whose first is not repeated at its end.
    ///
    /// The frame that is carried round a curve that is not flat comes back turned, as a rule. A
    /// torus takes up the turn between its last vertex and its first. Here it is spread along the
    /// curve, so that stripes run round it without a jump. Counts and triangles are those of a
    /// torus.
    ///
    /// The turn that is spread is k / 4096 of a whole one, with a k from -2047 to 2048 by which the
    /// last ring meets the first as well as by any other. Which one, where several are equally
    /// good, is not promised yet: within one release the same input gives the same body, but two
    /// releases may draw different stripes.
    SeamlessTorus {
        /// Corners of the cross section, 3 to 256.
        divisions: u32,
        /// Finite, above 0.
        radius: f32,
    },
}

/// A description as the library takes it. What a kind lacks is 0.
#[derive(Clone, Copy, Default)]
pub(crate) struct Fields {
    pub kind: u32,
    pub divisions: u32,
    pub steps: u32,
    pub centred: bool,
    pub size: f32,
    pub length: f32,
}

/// The numbers of a body on which its triangles depend.
pub(crate) enum Grid {
    Ribbon {
        segments: u16,
    },
    Tube {
        divisions: u16,
        segments: u16,
    },
    Capsule {
        divisions: u16,
        longitudes: u16,
        segments: u16,
    },
    Torus {
        divisions: u16,
        vertices: u16,
    },
    ClosedCylinder {
        divisions: u16,
        layers: u16,
    },
}

impl Description {
    /// Which of the six it is.
    pub const fn kind(self) -> Kind {
        match self {
            Description::Ribbon { .. } => Kind::Ribbon,
            Description::Tube { .. } => Kind::Tube,
            Description::Capsule { .. } => Kind::Capsule,
            Description::Torus { .. } => Kind::Torus,
            Description::ClosedCylinder { .. } => Kind::ClosedCylinder,
            Description::SeamlessTorus { .. } => Kind::SeamlessTorus,
        }
    }

    /// The record of a body, as [`crate::Set::build`] and the program `sweep` read it. They end
    /// their list at a record of more than 512 curve vertices.
    ///
    /// ```
    /// use togbefulo::Description;
    ///
    /// let record = Description::Ribbon { width: 2.0 }.record(&[[0.0; 3], [0.0, 0.0, 1.0]]);
    /// assert_eq!(record, [1, 0, 0, 0, 0x4000_0000, 0, 2, 0, 0, 0, 0, 0, 0x3F80_0000]);
    /// ```
    pub fn record(self, curve: &[Point]) -> Vec<u32> {
        let fields = self.fields();
        let mut words = vec![
            fields.kind,
            fields.divisions,
            fields.steps,
            u32::from(fields.centred),
            fields.size.to_bits(),
            fields.length.to_bits(),
            // No reader goes on behind a curve that is this long.
            u32::try_from(curve.len()).unwrap_or(u32::MAX),
        ];
        words.extend(curve.as_flattened().iter().map(|x| x.to_bits()));
        words
    }

    pub(crate) fn fields(self) -> Fields {
        let kind = self.kind().number();
        let (divisions, steps, size) = match self {
            Description::Ribbon { width } => (0, 0, width),
            Description::Tube { divisions, radius }
            | Description::Torus { divisions, radius }
            | Description::SeamlessTorus { divisions, radius } => (divisions, 0, radius),
            Description::Capsule {
                divisions,
                longitudes,
                radius,
            } => (divisions, longitudes, radius),
            Description::ClosedCylinder {
                divisions,
                layers,
                radius,
                ..
            } => (divisions, layers, radius),
        };
        let (centred, length) = match self {
            Description::ClosedCylinder {
                centred, length, ..
            } => (centred, length),
            _ => (false, 0.0),
        };
        Fields {
            kind,
            divisions,
            steps,
            centred,
            size,
            length,
        }
    }

    /// Of a description that is permitted with `curve_vertices`, which has no number above 4096.
    pub(crate) fn grid(self, curve_vertices: usize) -> Grid {
        let Fields {
            divisions, steps, ..
        } = self.fields();
        let (divisions, steps) = (divisions as u16, steps as u16);
        let vertices = curve_vertices as u16;
        match self {
            Description::Ribbon { .. } => Grid::Ribbon {
                segments: vertices - 1,
            },
            Description::Tube { .. } => Grid::Tube {
                divisions,
                segments: vertices - 1,
            },
            Description::Capsule { .. } => Grid::Capsule {
                divisions,
                longitudes: steps,
                segments: vertices - 1,
            },
            Description::Torus { .. } | Description::SeamlessTorus { .. } => Grid::Torus {
                divisions,
                vertices,
            },
            Description::ClosedCylinder { .. } => Grid::ClosedCylinder {
                divisions,
                layers: steps,
            },
        }
    }
}
