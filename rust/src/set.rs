//! A set of bodies in lent buffers.

use crate::{
    description::{Description, Kind, Point},
    ffi,
    refusal::{answer, Refusal},
};

/// The most bodies that a set may have.
pub const MOST_BODIES: usize = 64;

const ENTRY_WORDS: usize = 6;

/// How many words a table for [`MOST_BODIES`] has.
pub const TABLE_WORDS: usize = table_words(MOST_BODIES);

/// How many words a table for `bodies` bodies has.
pub const fn table_words(bodies: usize) -> usize {
    1 + ENTRY_WORDS * bodies
}

/// What the table says of one body.
#[derive(Clone, Copy, Debug, PartialEq, Eq)]
pub struct Entry {
    /// Which of the six it is.
    pub kind: Kind,
    /// 0 for a ribbon.
    pub divisions: u32,
    /// The number of its first vertex in the set.
    pub first_vertex: u32,
    /// How many vertices it has.
    pub vertices: u32,
    /// The number of its first triangle in the set.
    pub first_triangle: u32,
    /// How many triangles it has.
    pub triangles: u32,
}

/// A set of at most 64 bodies, side by side in three buffers that are lent to it: a table of
/// contents of one word, and six a body ([`TABLE_WORDS`] for all 64), vertices of three floats
/// each, triangles of three vertex numbers each.
///
/// It holds the buffers alone, so that its table is sound as long as it lives. When it goes, they
/// hold the set, and [`Set::open`] takes it up again.
///
/// ```
/// use togbefulo::{Description, Refusal, Set, TABLE_WORDS};
///
/// let (mut table, mut vertices, mut triangles) = ([0; TABLE_WORDS], [0.0; 300], [0; 600]);
/// let mut set = Set::new(&mut table, &mut vertices, &mut triangles)?;
/// let curve = [[0.0; 3], [0.0, 0.0, 50.0], [20.0, 0.0, 90.0]];
/// set.add(Description::Tube { divisions: 12, radius: 4.0 }, &curve)?;
///
/// // A closed cylinder has no curve. There is no room for it here, and the set is as it was.
/// let post = Description::ClosedCylinder {
///     divisions: 20, layers: 3, centred: false, radius: 9.0, length: 80.0,
/// };
/// assert_eq!(set.add(post, &[]), Err(Refusal::NoVertices));
///
/// assert_eq!(set.entries().count(), 1);
/// assert_eq!((set.vertices().len(), set.triangles().len()), (108, 144));
/// let file: Vec<u8> = set.file().flat_map(u32::to_le_bytes).collect();
/// assert_eq!(file.len(), 4 * (4 + 6 + 108 + 144));
/// # Ok::<(), Refusal>(())
/// ```
#[derive(Debug)]
pub struct Set<'a> {
    table: &'a mut [u32],
    vertices: &'a mut [f32],
    triangles: &'a mut [u32],
}

impl<'a> Set<'a> {
    /// An empty set in these buffers, whatever they hold; [`Refusal::DamagedTable`] for a table of
    /// length 0. Only word 0 of the table is written.
    pub fn new(
        table: &'a mut [u32],
        vertices: &'a mut [f32],
        triangles: &'a mut [u32],
    ) -> Result<Set<'a>, Refusal> {
        answer(ffi::clear(table))?;
        Ok(Set {
            table,
            vertices,
            triangles,
        })
    }

    /// The set that stands in these buffers, with nothing written; [`Refusal::DamagedTable`] where
    /// the table is empty, or its number of bodies, a kind, a first vertex or triangle, or a total
    /// is wrong. Divisions and counts are not looked at.
    ///
    /// ```
    /// use togbefulo::{Description, Refusal, Set};
    ///
    /// let (mut table, mut vertices, mut triangles) = ([0; 7], [0.0; 12], [0; 6]);
    /// let mut set = Set::new(&mut table, &mut vertices, &mut triangles)?;
    /// set.add(Description::Ribbon { width: 2.0 }, &[[0.0; 3], [0.0, 0.0, 1.0]])?;
    ///
    /// assert!(Set::open(&mut table, &mut vertices, &mut triangles).is_ok());
    /// table[0] = 2;
    /// let damaged = Set::open(&mut table, &mut vertices, &mut triangles);
    /// assert_eq!(damaged.err(), Some(Refusal::DamagedTable));
    /// # Ok::<(), Refusal>(())
    /// ```
    pub fn open(
        table: &'a mut [u32],
        vertices: &'a mut [f32],
        triangles: &'a mut [u32],
    ) -> Result<Set<'a>, Refusal> {
        let set = Set {
            table,
            vertices,
            triangles,
        };
        // Every file has a word 0, so that it is refused for the table alone.
        set.file_word(0)?;
        Ok(set)
    }

    /// Makes the set empty. Only word 0 of the table is written.
    pub fn clear(&mut self) {
        answer(ffi::clear(self.table)).expect("the table has a word 0");
    }

    /// Adds a body behind those of the set: its vertices, its triangles and its entry are written,
    /// and nothing else. A closed cylinder's curve is empty.
    ///
    /// Refused are, in this order, what [`Description::check`] refuses, and [`Refusal::NoEntry`],
    /// [`NoVertices`](Refusal::NoVertices), [`NoTriangles`](Refusal::NoTriangles) and
    /// [`NotFinite`](Refusal::NotFinite). The set is as it was then, and can be used on.
    pub fn add(&mut self, description: Description, curve: &[Point]) -> Result<(), Refusal> {
        answer(ffi::add(
            description.fields(),
            curve.as_flattened(),
            self.table,
            self.vertices,
            self.triangles,
        ))
    }

    /// Clears the set and adds the bodies of a whole list of [records](Description::record), which
    /// ends where the words do, at a record that they cut short, or at one of more than 512 curve
    /// vertices.
    ///
    /// What [`Set::add`] answers is handed back for each record of a kind from 1 to 6, in order;
    /// the others are skipped.
    ///
    /// ```
    /// use togbefulo::{Description, Refusal, Set};
    ///
    /// let ribbon = Description::Ribbon { width: 2.0 }.record(&[[0.0; 3], [0.0, 0.0, 1.0]]);
    /// let (mut table, mut vertices, mut triangles) = ([0; 13], [0.0; 12], [0; 6]);
    /// let mut set = Set::new(&mut table, &mut vertices, &mut triangles)?;
    /// let answers = set.build(&[&ribbon[..], &ribbon].concat());
    /// assert_eq!(answers, [Ok(()), Err(Refusal::NoVertices)]);
    /// # Ok::<(), Refusal>(())
    /// ```
    pub fn build(&mut self, records: &[u32]) -> Vec<Result<(), Refusal>> {
        const HEAD_WORDS: usize = 7;
        const UNANSWERED: u32 = u32::MAX;
        let mut answers = vec![UNANSWERED; records.len() / HEAD_WORDS];
        answer(ffi::build(
            records,
            &mut answers,
            self.table,
            self.vertices,
            self.triangles,
        ))
        .expect("the table has a word 0");
        let answered = answers.into_iter().take_while(|&n| n != UNANSWERED);
        answered.map(answer).collect()
    }

    /// The word at this place of the set's file; [`Refusal::PastEnd`] at its end and past it. A
    /// NaN, which only a set made or changed by hand can hold, reads as 7FC00000 (hexadecimal).
    pub fn file_word(&self, place: usize) -> Result<u32, Refusal> {
        let mut word = [0];
        answer(ffi::file_word(
            self.table,
            self.vertices,
            self.triangles,
            place,
            &mut word,
        ))?;
        Ok(word[0])
    }

    /// The words of the set's file: 1, the numbers of bodies, vertices and triangles, the entries,
    /// the bits of all floats, all vertex numbers. They are written with the low byte first
    /// ([`u32::to_le_bytes`]).
    pub fn file(&self) -> impl Iterator<Item = u32> + '_ {
        (0..).map_while(|place| self.file_word(place).ok())
    }

    /// The table of contents, body by body.
    pub fn entries(&self) -> impl ExactSizeIterator<Item = Entry> + DoubleEndedIterator + '_ {
        let end = table_words(self.table[0] as usize);
        self.table[1..end].chunks_exact(ENTRY_WORDS).map(entry)
    }

    /// The coordinates of all bodies, three floats a vertex.
    pub fn vertices(&self) -> &[f32] {
        let end = |last: Entry| last.first_vertex + last.vertices;
        &self.vertices[..3 * self.entries().next_back().map_or(0, end) as usize]
    }

    /// The triangles of all bodies, three vertex numbers each, counted from the set's first vertex.
    pub fn triangles(&self) -> &[u32] {
        let end = |last: Entry| last.first_triangle + last.triangles;
        &self.triangles[..3 * self.entries().next_back().map_or(0, end) as usize]
    }
}

fn entry(words: &[u32]) -> Entry {
    let kind = Kind::ALL.into_iter().find(|kind| kind.number() == words[0]);
    Entry {
        kind: kind.expect("a sound table has no other kinds"),
        divisions: words[1],
        first_vertex: words[2],
        vertices: words[3],
        first_triangle: words[4],
        triangles: words[5],
    }
}
