//! Document 01's section "Arithmetic" at f32, each operation in the order in which the paper writes it.
//!
//! Rust rounds every f32 operation once and fuses none, so the expressions below are the paper's.

/// The bits of a number, and one word for every NaN, whose bits no rule fixes.
pub fn word(x: f32) -> u32 {
    if x.is_nan() {
        0x7FC00000
    } else {
        x.to_bits()
    }
}

/// A point is three f32 held together.
#[derive(Clone, Copy, Debug)]
pub struct Point {
    pub x: f32,
    pub y: f32,
    pub z: f32,
}

impl Point {
    pub fn new(x: f32, y: f32, z: f32) -> Point {
        Point { x, y, z }
    }

    pub fn of_words(words: [u32; 3]) -> Point {
        let [x, y, z] = words.map(f32::from_bits);
        Point { x, y, z }
    }

    pub fn words(self) -> [u32; 3] {
        [self.x, self.y, self.z].map(word)
    }

    pub fn sum(self, other: Point) -> Point {
        Point::new(self.x + other.x, self.y + other.y, self.z + other.z)
    }

    pub fn difference(self, other: Point) -> Point {
        Point::new(self.x - other.x, self.y - other.y, self.z - other.z)
    }

    pub fn times(self, factor: f32) -> Point {
        Point::new(self.x * factor, self.y * factor, self.z * factor)
    }

    pub fn dot(self, other: Point) -> f32 {
        self.x * other.x + self.y * other.y + self.z * other.z
    }

    pub fn cross(self, other: Point) -> Point {
        Point::new(
            self.y * other.z - self.z * other.y,
            self.z * other.x - self.x * other.z,
            self.x * other.y - self.y * other.x,
        )
    }

    pub fn norm(self) -> f32 {
        self.dot(self).sqrt()
    }

    pub fn normalize(self) -> Point {
        let norm = self.norm();
        Point::new(self.x / norm, self.y / norm, self.z / norm)
    }
}

/// The direction of k/n turn as the pair (cos, sin); (1, +0) where the paper defines none.
pub const fn turn(k: u32, n: u32) -> (f32, f32) {
    if k >= n || n > 1 << 24 {
        return (1.0, 0.0);
    }
    let octant = 8 * k / n;
    let remainder = 8 * k % n;
    let y = if octant.is_multiple_of(2) {
        remainder as f32 / n as f32
    } else {
        (n - remainder) as f32 / n as f32
    };
    let a = y * f32::from_bits(0x3F490FDB);
    let (c, s) = cosine_and_sine(a);
    match octant {
        0 => (c, s),
        1 => (s, c),
        2 => (-s, c),
        3 => (-c, s),
        4 => (-c, -s),
        5 => (-s, -c),
        6 => (s, -c),
        _ => (c, -s),
    }
}

/// The paper's two polynomials, c and s, on the eighth of a turn next to +0.
pub const fn cosine_and_sine(a: f32) -> (f32, f32) {
    let z = a * a;
    let s = a
        * (1.0 + z * (-1.0 / 6.0 + z * (1.0 / 120.0 + z * (-1.0 / 5040.0 + z * (1.0 / 362880.0)))));
    let c = 1.0 + z * (-1.0 / 2.0 + z * (1.0 / 24.0 + z * (-1.0 / 720.0 + z * (1.0 / 40320.0))));
    (c, s)
}

/// The first frame of the direction v, which is not yet normalised.
pub fn first_frame(v: Point) -> Point {
    let u = v.normalize();
    let across = Point::new(u.z, 0.0, -u.x);
    if across.dot(across) >= 0.0625 {
        across.normalize()
    } else {
        Point::new(0.0, -u.z, u.y).normalize()
    }
}

/// The next frame after b, for normalised segment directions u and w.
pub fn transport_step(b: Point, u: Point, w: Point) -> Point {
    let c = u.dot(w);
    let q = u.cross(w);
    (b.times(c).sum(q.cross(b))).sum(q.times(q.dot(b) / (1.0 + c)))
}
