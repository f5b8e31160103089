//! The directions round a body, worked out once: cosines and sines as they stand beside the coordinates of a ring,
//! each three times, so that four vertices are three registers.

use super::four::Four;
use crate::arithmetic::turn;
use std::mem::MaybeUninit;

/// A float for each coordinate of four vertices.
pub type Block = [f32; 12];

/// The most divisions, in blocks.
const BLOCKS: usize = 256 / 4;

/// A float for each coordinate of a ring. Past the last vertex the ring begins anew, to fill a block.
struct Blocks([MaybeUninit<Block>; BLOCKS]);

impl Blocks {
    /// Nothing is written, since most rings need little of the room.
    #[inline(always)]
    fn of_anything() -> Blocks {
        Blocks([const { MaybeUninit::uninit() }; BLOCKS])
    }

    #[inline(always)]
    fn set(&mut self, place: usize, block: Block) {
        self.0[place].write(block);
    }

    /// The first blocks.
    ///
    /// # Safety
    /// They have been set.
    #[inline(always)]
    unsafe fn first(&self, count: usize) -> &[Block] {
        // SAFETY: the caller's promise.
        unsafe { self.0[..count].assume_init_ref() }
    }
}

/// Cosines and sines of the directions round a body, or these times some scale.
pub struct Round {
    cosines: Blocks,
    sines: Blocks,
    divisions: usize,
    filled: usize,
}

impl Round {
    /// Room for the directions of so many divisions, which are then filled in place.
    #[inline(always)]
    pub fn unfilled(divisions: u32) -> Round {
        Round {
            cosines: Blocks::of_anything(),
            sines: Blocks::of_anything(),
            divisions: divisions as usize,
            filled: 0,
        }
    }

    pub fn fill(&mut self) {
        let divisions = self.divisions as u32;
        for place in 0..self.divisions.div_ceil(4) {
            let (mut cosines, mut sines) = ([0.0; 4], [0.0; 4]);
            for vertex in 0..4 {
                (cosines[vertex], sines[vertex]) = turn_in_block(place, vertex, divisions);
            }
            self.cosines.set(place, thrice(cosines));
            self.sines.set(place, thrice(sines));
        }
        self.filled = self.divisions.div_ceil(4);
    }

    /// The other's cosines and sines times a scale.
    pub fn fill_scaled(&mut self, other: &Round, scale: f32) {
        let blocks = other.cosines().iter().zip(other.sines()).enumerate();
        for (place, (cosines, sines)) in blocks {
            self.cosines.set(place, cosines.map(|cos| scale * cos));
            self.sines.set(place, sines.map(|sin| scale * sin));
        }
        self.filled = other.filled;
    }

    pub fn divisions(&self) -> usize {
        self.divisions
    }

    #[inline(always)]
    pub fn cosines(&self) -> &[Block] {
        // SAFETY: as many blocks have been set.
        unsafe { self.cosines.first(self.filled) }
    }

    #[inline(always)]
    pub fn sines(&self) -> &[Block] {
        // SAFETY: as many blocks have been set.
        unsafe { self.sines.first(self.filled) }
    }
}

/// The direction of a block's vertex.
#[inline(always)]
fn turn_in_block(place: usize, vertex: usize, divisions: u32) -> (f32, f32) {
    let k = (4 * place + vertex) as u32;
    turn(if k < divisions { k } else { k - divisions }, divisions)
}

#[inline(always)]
fn thrice([a, b, c, d]: [f32; 4]) -> Block {
    [a, a, a, b, b, b, c, c, c, d, d, d]
}

/// The coordinates of a closed cylinder's level, with +0 in place of the height.
pub struct Level {
    coordinates: Blocks,
    filled: usize,
}

impl Level {
    #[inline(always)]
    pub fn unfilled() -> Level {
        Level {
            coordinates: Blocks::of_anything(),
            filled: 0,
        }
    }

    pub fn fill(&mut self, divisions: u32, radius: f32) {
        let blocks = divisions.div_ceil(4) as usize;
        for place in 0..blocks {
            let mut block = [0.0; 12];
            for (vertex, point) in block.as_chunks_mut::<3>().0.iter_mut().enumerate() {
                let (cos, sin) = turn_in_block(place, vertex, divisions);
                *point = [radius * cos, 0.0, radius * sin];
            }
            self.coordinates.set(place, block);
        }
        self.filled = blocks;
    }

    #[inline(always)]
    pub fn blocks(&self) -> &[Block] {
        // SAFETY: as many blocks have been set.
        unsafe { self.coordinates.first(self.filled) }
    }
}

/// A block as three registers.
#[inline(always)]
pub fn registers(block: &Block) -> [Four; 3] {
    let fours = block.as_chunks::<4>().0;
    [
        Four::load(&fours[0]),
        Four::load(&fours[1]),
        Four::load(&fours[2]),
    ]
}
