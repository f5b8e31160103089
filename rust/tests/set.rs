//! Sets in lent buffers, through the safe face: answers, every element, the file.

use togbefulo::{table_words, Description, Entry, Kind, Point, Refusal, Set, TABLE_WORDS};

const RIBBON: Description = Description::Ribbon { width: 2.0 };
const STRAIGHT: [Point; 2] = [[0.0; 3], [0.0, 0.0, 1.0]];

const TUBE: Description = Description::Tube {
    divisions: 3,
    radius: 1.0,
};

const POST: Description = Description::ClosedCylinder {
    divisions: 3,
    layers: 1,
    centred: true,
    radius: 1.0,
    length: 2.0,
};

const SEAMLESS: Description = Description::SeamlessTorus {
    divisions: 3,
    radius: 1.0,
};

/// A loop that folds at its first vertex alone.
const FOLDED: [Point; 4] = [[0.0; 3], [0.0, 0.0, 9.0], [9.0, 0.0, 9.0], [0.0, 0.0, 3.0]];

/// Three buffers that hold patterns by which an element that was written is known, NaNs among them.
#[derive(Clone)]
struct Buffers {
    table: Vec<u32>,
    vertices: Vec<f32>,
    triangles: Vec<u32>,
}

impl Buffers {
    fn new(bodies: usize, vertices: usize, triangles: usize) -> Buffers {
        let marked = |length: usize| (0..length as u32).map(|i| 0xFFC0_0000 + i);
        let mut table: Vec<u32> = marked(table_words(bodies)).collect();
        table[0] = 0;
        Buffers {
            table,
            vertices: marked(3 * vertices).map(f32::from_bits).collect(),
            triangles: marked(3 * triangles).collect(),
        }
    }

    fn set(&mut self) -> Set<'_> {
        let Buffers {
            table,
            vertices,
            triangles,
        } = self;
        Set::open(table, vertices, triangles).expect("a sound table")
    }

    /// Every element, with the very bits of a NaN.
    fn words(&self) -> Vec<u32> {
        let bits: Vec<u32> = self.vertices.iter().map(|x| x.to_bits()).collect();
        [&self.table[..], &bits, &self.triangles].concat()
    }
}

/// Document 01's sample.
#[test]
fn sample() {
    let mut lent = Buffers::new(1, 4, 2);
    let mut set = lent.set();
    assert_eq!(set.add(RIBBON, &STRAIGHT), Ok(()));
    let floats = [0.0, 0.0, 0.0, 2.0, 0.0, 0.0, 0.0, 0.0, 1.0, 2.0, 0.0, 1.0];
    let mut file = vec![1, 1, 4, 2, 1, 0, 0, 4, 0, 2];
    file.extend(floats.map(f32::to_bits));
    file.extend([0, 1, 2, 1, 3, 2]);
    assert_eq!(file.len(), 28);
    assert_eq!(set.file().collect::<Vec<_>>(), file);
    assert_eq!(set.file_word(27), Ok(2));
    for place in [28, 29, usize::MAX] {
        assert_eq!(set.file_word(place), Err(Refusal::PastEnd));
    }
    assert_eq!(set.vertices(), floats);
    assert_eq!(set.triangles(), [0, 1, 2, 1, 3, 2]);
}

#[test]
fn entries_of_three_bodies() {
    let mut lent = Buffers::new(4, 40, 40);
    let mut set = lent.set();
    set.add(POST, &[]).unwrap();
    set.add(RIBBON, &STRAIGHT).unwrap();
    set.add(TUBE, &STRAIGHT).unwrap();
    let entry = |kind, divisions, [first_vertex, vertices]: [u32; 2], triangles: [u32; 2]| Entry {
        kind,
        divisions,
        first_vertex,
        vertices,
        first_triangle: triangles[0],
        triangles: triangles[1],
    };
    let expected = [
        entry(Kind::ClosedCylinder, 3, [0, 8], [0, 12]),
        entry(Kind::Ribbon, 0, [8, 4], [12, 2]),
        entry(Kind::Tube, 3, [12, 6], [14, 6]),
    ];
    assert_eq!(set.entries().collect::<Vec<_>>(), expected);
    assert_eq!(set.vertices().len(), 3 * 18);
    assert_eq!(set.triangles().len(), 3 * 20);
    assert_eq!(set.triangles()[36..42], [8, 9, 10, 9, 11, 10]);
    assert_eq!(set.file().count(), 4 + 18 + 54 + 60);
    set.clear();
    assert_eq!(set.entries().count(), 0);
    assert!(set.vertices().is_empty() && set.triangles().is_empty());
    assert_eq!(set.file().collect::<Vec<_>>(), [1, 0, 0, 0]);
}

/// An exact fit is accepted, and one element less in any of the buffers refused, with nothing written.
#[test]
fn exact_fit_and_one_short() {
    let exact = Buffers::new(1, 6, 6);
    assert_eq!(exact.clone().set().add(TUBE, &STRAIGHT), Ok(()));
    let cases = [
        ([6, 18, 18], Refusal::NoEntry),
        ([7, 17, 18], Refusal::NoVertices),
        ([7, 18, 17], Refusal::NoTriangles),
    ];
    for ([table, vertices, triangles], refusal) in cases {
        let mut lent = exact.clone();
        lent.table.truncate(table);
        lent.vertices.truncate(vertices);
        lent.triangles.truncate(triangles);
        let before = lent.words();
        assert_eq!(lent.set().add(TUBE, &STRAIGHT), Err(refusal));
        assert_eq!(lent.words(), before, "{refusal}");
    }
}

/// What is behind the set, and the set in front of a new body, keep their very bits.
#[test]
fn only_the_body_is_written() {
    let mut lent = Buffers::new(3, 20, 20);
    lent.set().add(RIBBON, &STRAIGHT).unwrap();
    let before = lent.clone();
    lent.set().add(TUBE, &STRAIGHT).unwrap();
    let bits = |lent: &Buffers| -> Vec<u32> { lent.vertices.iter().map(|x| x.to_bits()).collect() };
    assert_eq!(lent.table[0], 2);
    assert_eq!(lent.table[1..7], before.table[1..7]);
    assert_eq!(lent.table[7..13], [2, 3, 4, 6, 2, 6]);
    assert_eq!(lent.table[13..], before.table[13..]);
    assert_eq!(bits(&lent)[..12], bits(&before)[..12]);
    assert!(lent.vertices[12..30].iter().all(|x| x.is_finite()));
    assert_eq!(bits(&lent)[30..], bits(&before)[30..]);
    assert_eq!(lent.triangles[..6], before.triangles[..6]);
    assert!(lent.triangles[6..24].iter().all(|i| (4..10).contains(i)));
    assert_eq!(lent.triangles[24..], before.triangles[24..]);
}

fn tube(divisions: u32, radius: f32) -> Description {
    Description::Tube { divisions, radius }
}

fn capsule(longitudes: u32) -> Description {
    Description::Capsule {
        divisions: 3,
        longitudes,
        radius: 1.0,
    }
}

/// What draws the curve or sets the sizes, each refused alone.
#[test]
fn refusals_of_bodies() {
    let end = |x| [[0.0; 3], [x, 0.0, 0.0]];
    let back = [[0.0; 3], [1.0, 0.0, 0.0], [0.0; 3]];
    let torus = Description::Torus {
        divisions: 3,
        radius: 1.0,
    };
    let refused: [(Description, &[Point], Refusal); 16] = [
        (TUBE, &[], Refusal::CurveVertices),
        (TUBE, &STRAIGHT[..1], Refusal::CurveVertices),
        (torus, &STRAIGHT, Refusal::CurveVertices),
        (SEAMLESS, &STRAIGHT, Refusal::CurveVertices),
        (POST, &STRAIGHT, Refusal::CurveVertices),
        (TUBE, &end(f32::INFINITY), Refusal::CurveNotFinite),
        (TUBE, &end(f32::NAN), Refusal::CurveNotFinite),
        (TUBE, &end(f32::powi(2.0, -21)), Refusal::Segment),
        (TUBE, &end(f32::powi(2.0, 41)), Refusal::Segment),
        (TUBE, &back, Refusal::Fold),
        (SEAMLESS, &FOLDED, Refusal::Fold),
        (tube(2, 1.0), &STRAIGHT, Refusal::Divisions),
        (tube(257, 1.0), &STRAIGHT, Refusal::Divisions),
        (capsule(0), &STRAIGHT, Refusal::Layers),
        (capsule(257), &STRAIGHT, Refusal::Layers),
        (tube(3, 0.0), &STRAIGHT, Refusal::Size),
    ];
    let mut lent = Buffers::new(2, 40, 40);
    let before = lent.words();
    for (description, curve, refusal) in refused {
        assert_eq!(description.check(curve), Err(refusal));
        assert_eq!(lent.set().add(description, curve), Err(refusal));
        assert_eq!(lent.words(), before, "{refusal}");
    }
    assert_eq!(torus.check(&FOLDED), Ok(()));
    for number in [u32::MAX, 1 << 16, (1 << 16) + 3] {
        let answer = lent.set().add(tube(number, 1.0), &STRAIGHT);
        assert_eq!(answer, Err(Refusal::Divisions), "{number}");
    }
}

/// The stretch of a body whose vertices are not finite is 0, and nothing else is touched.
#[test]
fn vertices_not_finite() {
    let mut lent = Buffers::new(3, 20, 20);
    lent.set().add(RIBBON, &STRAIGHT).unwrap();
    let mut expected = lent.clone();
    expected.vertices[12..30].fill(0.0);
    let far = [[3e38, 0.0, 0.0], [3e38, 1.0, 0.0]];
    let answer = lent.set().add(tube(3, 3e38), &far);
    assert_eq!(answer, Err(Refusal::NotFinite));
    assert_eq!(lent.words(), expected.words());
    assert_eq!(lent.set().add(TUBE, &STRAIGHT), Ok(()));
}

#[test]
fn tables() {
    let refused = |table: &mut [u32]| Set::open(table, &mut [], &mut []).err();
    assert_eq!(refused(&mut []), Some(Refusal::DamagedTable));
    assert_eq!(refused(&mut [1]), Some(Refusal::DamagedTable));
    assert_eq!(
        refused(&mut [1, 7, 0, 0, 0, 0, 0]),
        Some(Refusal::DamagedTable)
    );
    for kind in Kind::ALL {
        assert_eq!(refused(&mut [1, kind.number(), 0, 0, 0, 0, 0]), None);
    }
    assert_eq!(
        refused(&mut [1, 1, 0, 0, 1, 0, 0]),
        Some(Refusal::DamagedTable)
    );
    assert_eq!(refused(&mut [1, 1, 0, 0, 0, 0, 0]), None);
    assert_eq!(refused(&mut [0]), None);
    let empty = Set::new(&mut [], &mut [], &mut []).err();
    assert_eq!(empty, Some(Refusal::DamagedTable));
    let mut anything = [u32::MAX; TABLE_WORDS];
    assert!(Set::new(&mut anything, &mut [], &mut []).is_ok());
    assert_eq!(anything[..2], [0, u32::MAX]);
}

#[test]
fn sixty_four_bodies() {
    let mut lent = Buffers::new(65, 4 * 65, 2 * 65);
    let mut set = lent.set();
    for _ in 0..64 {
        assert_eq!(set.add(RIBBON, &STRAIGHT), Ok(()));
    }
    assert_eq!(set.add(RIBBON, &STRAIGHT), Err(Refusal::NoEntry));
    assert_eq!(set.entries().len(), 64);
}

/// A list of records leaves what its additions do, and has their answers; one of an unknown kind has none, and behind
/// one that is cut short there is nothing.
#[test]
fn records() {
    let mut unknown = RIBBON.record(&STRAIGHT);
    unknown[0] = 7;
    let fold = [[0.0; 3], [1.0, 0.0, 0.0], [0.0; 3]];
    let list = [
        POST.record(&[]),
        unknown,
        TUBE.record(&fold),
        TUBE.record(&STRAIGHT),
        RIBBON.record(&STRAIGHT)[..12].to_vec(),
    ];
    let (mut built, mut added) = (Buffers::new(4, 40, 40), Buffers::new(4, 40, 40));
    let answers = built.set().build(&list.concat());
    let mut set = added.set();
    let expected = [
        set.add(POST, &[]),
        set.add(TUBE, &fold),
        set.add(TUBE, &STRAIGHT),
    ];
    assert_eq!(expected, [Ok(()), Err(Refusal::Fold), Ok(())]);
    assert_eq!(answers, expected);
    assert_eq!(built.words(), added.words());
    assert_eq!(built.set().build(&[]), []);
    assert_eq!(built.set().entries().count(), 0);
}
