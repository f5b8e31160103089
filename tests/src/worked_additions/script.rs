//! Steps for the program and the lines that it prints for them, made side by side.

use super::digest::{digest, garbage};
use crate::{
    adapted,
    buffers::{Buffers, Lengths},
    paper::{description::Input, records},
    readings::{self, Readings},
};

/// Where nothing is put: past the table's end.
const NOWHERE: [u32; 2] = [u32::MAX, 0];

/// What is wrong for the length of one addition: a word of the table, or how many elements are lent.
#[derive(Clone, Copy)]
pub enum Damage {
    Word(usize, u32),
    Lent(Lengths),
}

pub struct Script {
    /// Of each step: how many elements of each buffer are lent, a place of the table and the word that is put there
    /// first, and a record.
    pub words: Vec<u32>,
    /// Of each step: the number that its addition got, and the digest of what all buffers then hold.
    pub lines: Vec<[u32; 2]>,
    whole: Buffers,
    lent: Lengths,
    readings: Readings,
    /// What the next step puts, unless it damages a word.
    put: [u32; 2],
}

fn front(whole: &Buffers, lent: Lengths) -> Buffers {
    Buffers {
        table: whole.table[..lent.table].to_vec(),
        vertices: whole.vertices[..lent.vertices].to_vec(),
        triangles: whole.triangles[..lent.triangles].to_vec(),
    }
}

impl Script {
    pub fn new() -> Script {
        let whole = garbage();
        let lent = whole.lengths();
        Script {
            words: Vec::new(),
            lines: Vec::new(),
            readings: Readings::cleared(&whole, adapted::alone),
            put: [0, 0],
            whole,
            lent,
        }
    }

    /// A list of additions to buffers of these lengths: its first step puts a 0 at word 0, as a clear does.
    pub fn begin(&mut self, lent: Lengths) {
        self.lent = lent;
        self.put = [0, 0];
        let lent = front(&self.whole, lent);
        self.readings = Readings::cleared(&lent, adapted::alone);
    }

    /// An addition by the readings of the calls and of the ledger, with bodies by the adapted functions.
    pub fn add(&mut self, input: &Input) {
        let put = std::mem::replace(&mut self.put, NOWHERE);
        let lent = self.step(self.lent, put, input);
        assert!(lent.is_same(self.readings.buffers()), "as it was left");
        let answer = self.readings.add_stored(input);
        self.leave(answer, self.readings.buffers().clone());
    }

    /// An addition that is refused with 1; the next step mends a damaged word.
    pub fn add_damaged(&mut self, damage: Damage, input: &Input) {
        let mut lent = match damage {
            Damage::Word(place, word) => {
                self.put = [place as u32, self.whole.table[place]];
                self.step(self.lent, [place as u32, word], input)
            }
            Damage::Lent(lent) => self.step(lent, NOWHERE, input),
        };
        let answer = readings::add(input, &mut lent, None);
        assert_eq!(answer, 1, "{:?}", lent.table);
        self.leave(answer, lent);
    }

    /// The words of a step, and what it lends once the word is put.
    fn step(&mut self, lent: Lengths, [place, word]: [u32; 2], input: &Input) -> Buffers {
        let lengths = [lent.table, lent.vertices, lent.triangles];
        self.words.extend(lengths.map(|length| length as u32));
        self.words.extend([place, word]);
        self.words.extend(records::words(input));
        if let Some(held) = self.whole.table.get_mut(place as usize) {
            *held = word;
        }
        front(&self.whole, lent)
    }

    fn leave(&mut self, answer: u32, lent: Buffers) {
        let lengths = lent.lengths();
        self.whole.table[..lengths.table].copy_from_slice(&lent.table);
        self.whole.vertices[..lengths.vertices].copy_from_slice(&lent.vertices);
        self.whole.triangles[..lengths.triangles].copy_from_slice(&lent.triangles);
        self.lines.push([answer, digest(&self.whole)]);
    }
}

impl Default for Script {
    fn default() -> Script {
        Script::new()
    }
}
