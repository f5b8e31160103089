//! Document 01's section "Triangle lists", read plainly from its text, with its limits and counts.

/// The largest sum of a body's first vertex and its vertex count.
pub const LARGEST_TOTAL: u32 = 1 << 28;

pub type Triangle = [u32; 3];

/// One of the paper's five kinds with the sizes that its triangle list depends on.
#[derive(Clone, Copy, Debug, PartialEq, Eq, PartialOrd, Ord)]
pub enum Body {
    Ribbon {
        segments: u32,
    },
    Tube {
        divisions: u32,
        segments: u32,
    },
    Capsule {
        divisions: u32,
        longitudes: u32,
        segments: u32,
    },
    Torus {
        divisions: u32,
        vertices: u32,
    },
    ClosedCylinder {
        divisions: u32,
        layers: u32,
    },
}

impl Body {
    /// One body of each kind, in the order of the paper's numbers; only the capsule has longitudes.
    /// The run is a number of segments, for a torus of curve vertices, for a closed cylinder of layers.
    pub fn one_of_each(divisions: u32, longitudes: u32, run: u32) -> [Body; 5] {
        [
            Body::Ribbon { segments: run },
            Body::Tube {
                divisions,
                segments: run,
            },
            Body::Capsule {
                divisions,
                longitudes,
                segments: run,
            },
            Body::Torus {
                divisions,
                vertices: run,
            },
            Body::ClosedCylinder {
                divisions,
                layers: run,
            },
        ]
    }

    /// The paper's refusals of sizes, formed where no sum can wrap.
    pub fn is_permitted(self) -> bool {
        let round = |divisions| (3..=256).contains(&divisions);
        let open = |segments| (1..=4095).contains(&segments);
        match self {
            Body::Ribbon { segments } => open(segments),
            Body::Tube {
                divisions,
                segments,
            } => round(divisions) && open(segments),
            Body::Capsule {
                divisions,
                longitudes,
                segments,
            } => {
                let lengthwise = 2 * u64::from(longitudes) + u64::from(segments);
                round(divisions) && open(segments) && longitudes <= 256 && lengthwise >= 3
            }
            Body::Torus {
                divisions,
                vertices,
            } => round(divisions) && (3..=4096).contains(&vertices),
            Body::ClosedCylinder { divisions, layers } => {
                round(divisions) && (1..=4096).contains(&layers)
            }
        }
    }

    /// The vertex count of permitted sizes.
    pub fn vertex_count(self) -> u32 {
        match self {
            Body::Ribbon { segments } => 2 * (segments + 1),
            Body::Tube {
                divisions,
                segments,
            } => divisions * (segments + 1),
            Body::Torus {
                divisions,
                vertices,
            } => vertices * divisions,
            Body::Capsule { .. } | Body::ClosedCylinder { .. } => {
                let (divisions, layers) = self.closed_sizes();
                divisions * (layers + 1) + 2
            }
        }
    }

    /// The triangle count of permitted sizes.
    pub fn triangle_count(self) -> u32 {
        match self {
            Body::Ribbon { segments } => 2 * segments,
            Body::Tube {
                divisions,
                segments,
            } => 2 * divisions * segments,
            Body::Torus {
                divisions,
                vertices,
            } => 2 * vertices * divisions,
            Body::Capsule { .. } | Body::ClosedCylinder { .. } => {
                let (divisions, layers) = self.closed_sizes();
                2 * divisions * (layers + 1)
            }
        }
    }

    /// How many directed edges lack their reverse.
    pub fn unmatched_edge_count(self) -> usize {
        match self {
            Body::Ribbon { segments } => 2 * segments as usize + 2,
            Body::Tube { divisions, .. } => 2 * divisions as usize,
            Body::Capsule { .. } | Body::Torus { .. } | Body::ClosedCylinder { .. } => 0,
        }
    }

    /// The triangle list of permitted sizes, with local indices.
    pub fn triangles(self) -> Vec<Triangle> {
        match self {
            Body::Ribbon { segments } => ribbon(segments),
            Body::Tube {
                divisions,
                segments,
            } => tube(divisions, segments),
            Body::Torus {
                divisions,
                vertices,
            } => torus(divisions, vertices),
            Body::Capsule { .. } | Body::ClosedCylinder { .. } => {
                let (divisions, layers) = self.closed_sizes();
                closed(divisions, layers)
            }
        }
    }

    /// Divisions and layers of the two kinds that have poles.
    fn closed_sizes(self) -> (u32, u32) {
        match self {
            Body::Capsule {
                divisions,
                longitudes,
                segments,
            } => (divisions, 2 * longitudes + segments - 2),
            Body::ClosedCylinder { divisions, layers } => (divisions, layers),
            _ => unreachable!("a {self:?} has no poles"),
        }
    }
}

/// Capsule and closed cylinder: fans at both poles, quads between the rings 0 to S.
fn closed(n: u32, layers: u32) -> Vec<Triangle> {
    let ring = |g: u32, i: u32| 1 + g * n + i % n;
    let top = n * (layers + 1) + 1;
    let mut list = Vec::new();
    for i in 0..n {
        list.push([0, ring(0, i), ring(0, i + 1)]);
    }
    for g in 0..layers {
        for i in 0..n {
            let (p1, p2) = (ring(g, i), ring(g, i + 1));
            let (p3, p4) = (ring(g + 1, i + 1), ring(g + 1, i));
            list.extend([[p3, p2, p1], [p4, p3, p1]]);
        }
    }
    for i in 0..n {
        list.push([top, ring(layers, i + 1), ring(layers, i)]);
    }
    list
}

/// Rings wrap round the body and along the curve.
fn torus(n: u32, vertices: u32) -> Vec<Triangle> {
    let ring = |g: u32, i: u32| g % vertices * n + i % n;
    let mut list = Vec::new();
    for g in 0..vertices {
        for i in 0..n {
            let (a, b) = (ring(g, i), ring(g, i + 1));
            let (d, e) = (ring(g + 1, i), ring(g + 1, i + 1));
            list.extend([[a, b, d], [e, d, b]]);
        }
    }
    list
}

/// Rings wrap round the body only.
fn tube(n: u32, segments: u32) -> Vec<Triangle> {
    let ring = |g: u32, i: u32| g * n + i % n;
    let mut list = Vec::new();
    for g in 0..segments {
        for i in 0..n {
            let (a, b) = (ring(g, i), ring(g, i + 1));
            let (d, e) = (ring(g + 1, i), ring(g + 1, i + 1));
            list.extend([[a, e, b], [a, d, e]]);
        }
    }
    list
}

fn ribbon(segments: u32) -> Vec<Triangle> {
    let quad = |j| {
        [
            [2 * j, 2 * j + 1, 2 * j + 2],
            [2 * j + 1, 2 * j + 3, 2 * j + 2],
        ]
    };
    (0..segments).flat_map(quad).collect()
}
