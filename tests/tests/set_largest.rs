//! Totals of 2^28, which no list of additions reaches: lent buffers so long that the number alone refuses. They are
//! read and written next to their ends only, so that they take up little memory.

use togbefulo_tests::{
    buffers::Buffers,
    library,
    paper::{
        description::{Fields, Input},
        ledger::{by_the_paper, Alone},
    },
    tables,
    topology::LARGEST_TOTAL,
};

/// A tube of 6 vertices and 6 triangles.
fn tube() -> Input {
    let fields = Fields {
        kind: 2,
        divisions: 3,
        longitudes: 0,
        centred: false,
        size: 0.5,
        length: 0.0,
    };
    let curve = vec![0.0, 0.0, 0.0, 1.0, 2.0, 3.0];
    Input { fields, curve }
}

const COUNT: u32 = 6;

/// Where the tube stands that takes a total to exactly 2^28.
const FIRST: u32 = LARGEST_TOTAL - COUNT;
const START: usize = 3 * FIRST as usize;
const END: usize = 3 * LARGEST_TOTAL as usize;

/// Room for a few vertices or triangles more.
const LONG: usize = END + 3 * 9;

fn alone() -> Alone {
    by_the_paper(tube().description(), &tube().curve, None)
}

/// A table of one ribbon with these counts, and room for another entry.
fn table(vertices: u32, triangles: u32) -> Vec<u32> {
    let mut table = tables::table(&[[1, 0, vertices, triangles]]);
    table.resize(13, 0);
    table
}

/// The tube is added behind a body with these counts.
fn add(lent: &mut Buffers, vertices: u32, triangles: u32) -> u32 {
    lent.table = table(vertices, triangles);
    library::add(&tube(), lent)
}

/// The word of the file at this place, or the refusal.
fn file_word(set: &Buffers, place: usize) -> Result<u32, u32> {
    let mut word = [0];
    match library::file_word(set, place, &mut word) {
        0 => Ok(word[0]),
        refusal => Err(refusal),
    }
}

#[test]
fn vertices() {
    let mut lent = Buffers {
        table: Vec::new(),
        vertices: vec![0.0; LONG],
        triangles: vec![0; 30],
    };
    assert_eq!(add(&mut lent, LARGEST_TOTAL + 1, 0), 1);
    assert_eq!(file_word(&lent, 0), Err(1));
    assert_eq!(add(&mut lent, LARGEST_TOTAL, 0), 3);
    assert_eq!(add(&mut lent, FIRST + 1, 0), 3);
    let unwritten = |floats: &[f32]| floats.iter().all(|x| x.to_bits() == 0);
    assert!(unwritten(&lent.vertices[START - 50..]));
    assert_eq!(add(&mut lent, FIRST, 0), 0, "an exact fit");
    let alone = alone();
    let floats = alone.vertices.as_flattened();
    assert_eq!(lent.vertices[START..END], *floats);
    assert!(unwritten(&lent.vertices[START - 50..START]));
    assert!(unwritten(&lent.vertices[END..]));
    let indices = alone.triangles.as_flattened();
    let indices: Vec<u32> = indices.iter().map(|index| index + FIRST).collect();
    assert_eq!(lent.triangles[..18], indices);
    assert_eq!(lent.table[7..], [2, 3, FIRST, COUNT, 0, COUNT]);
    assert_eq!(file_word(&lent, 16 + END - 1), Ok(floats[17].to_bits()));
    assert_eq!(file_word(&lent, 16 + END + 17), Ok(indices[17]));
    assert_eq!(file_word(&lent, 16 + END + 18), Err(5));
}

#[test]
fn triangles() {
    let mut lent = Buffers {
        table: Vec::new(),
        vertices: vec![0.0; 30],
        triangles: vec![0; LONG],
    };
    assert_eq!(add(&mut lent, 0, LARGEST_TOTAL + 1), 1);
    assert_eq!(file_word(&lent, 0), Err(1));
    assert_eq!(add(&mut lent, 0, LARGEST_TOTAL), 4);
    assert_eq!(add(&mut lent, 0, FIRST + 1), 4);
    let unwritten = |indices: &[u32]| indices.iter().all(|&index| index == 0);
    assert!(unwritten(&lent.triangles[START - 50..]));
    assert_eq!(add(&mut lent, 0, FIRST), 0, "an exact fit");
    let alone = alone();
    let indices = alone.triangles.as_flattened();
    assert_eq!(lent.triangles[START..END], *indices);
    assert!(unwritten(&lent.triangles[START - 50..START]));
    assert!(unwritten(&lent.triangles[END..]));
    assert_eq!(lent.vertices[..18], *alone.vertices.as_flattened());
    assert_eq!(lent.table[7..], [2, 3, 0, COUNT, FIRST, COUNT]);
    assert_eq!(file_word(&lent, 16 + 18 + END - 1), Ok(indices[17]));
    assert_eq!(file_word(&lent, 16 + 18 + END), Err(5));
}
