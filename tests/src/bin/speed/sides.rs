//! What is timed beside one another, and the timing of a whole list of additions.

use crate::{
    cases::Case,
    measure::{repeat, time, Times},
};
use std::{hint::black_box, time::Duration};
use togbefulo_tests::{
    adapted::Source,
    buffers::Buffers,
    library,
    optimised::{self, Plain, Sse2},
    paper::description::Input,
};

/// A way of doing the calls of the set.
pub struct Side {
    pub name: &'static str,
    clear: fn(&mut [u32]) -> u32,
    add: fn(&Input, &mut Buffers) -> u32,
}

/// The proved code, Rust written for speed in its two forms, and the source with the same checks.
pub const SIDES: [Side; 4] = [
    Side {
        name: "proved",
        clear: library::clear,
        add: library::add,
    },
    Side {
        name: "SSE2",
        clear: optimised::clear,
        add: optimised::add::<Sse2>,
    },
    Side {
        name: "plain",
        clear: optimised::clear,
        add: optimised::add::<Plain>,
    },
    Side {
        name: "source",
        clear: optimised::clear,
        add: optimised::add::<Source>,
    },
];

impl Side {
    /// Zeros in the vertex and the triangle buffer, and the call clear on the table.
    fn clear(&self, buffers: &mut Buffers) -> u32 {
        buffers.vertices.fill(0.0);
        buffers.triangles.fill(0);
        (self.clear)(&mut buffers.table)
    }

    /// Every addition of the list. Gives how many were refused.
    fn add_all(&self, list: &[Input], buffers: &mut Buffers) -> usize {
        let answers = list.iter().map(|input| (self.add)(input, buffers));
        answers.filter(|&answer| answer != 0).count()
    }
}

/// The times of the clearing and, for each side, of the additions.
pub struct Measured {
    pub rounds: usize,
    pub clearing: Times,
    pub adding: [Times; SIDES.len()],
}

const LEAST_ROUNDS: usize = 100;

/// All sides fill the same buffers in turn, each after clearing them, and each round begins with another side.
/// Before and after, what they leave is compared.
pub fn measure(case: &Case, span: Duration) -> Result<Measured, String> {
    let mut buffers = case.buffers();
    compare(case, &mut buffers)?;
    let mut clearing = Vec::new();
    let mut adding = [const { Vec::new() }; SIDES.len()];
    let rounds = repeat(LEAST_ROUNDS, span, |round| {
        for turn in 0..SIDES.len() {
            let place = (round + turn) % SIDES.len();
            let side = &SIDES[place];
            clearing.push(time(|| side.clear(black_box(&mut buffers))));
            adding[place].push(time(|| side.add_all(&case.list, black_box(&mut buffers))));
        }
    });
    compare(case, &mut buffers)?;
    Ok(Measured {
        rounds,
        clearing: Times::of(clearing),
        adding: adding.map(Times::of),
    })
}

/// No side refuses an addition, and all leave the same in all three buffers.
fn compare(case: &Case, buffers: &mut Buffers) -> Result<(), String> {
    let mut proved: Option<Buffers> = None;
    for side in &SIDES {
        // Entries that another side wrote must not stand in for this side's own.
        buffers.table.fill(u32::MAX);
        let refused = side.clear(buffers) as usize + side.add_all(&case.list, buffers);
        let proved = proved.get_or_insert_with(|| buffers.clone());
        if refused > 0 || !buffers.is_same(proved) {
            let (case, side) = (&case.name, side.name);
            return Err(format!("{case}: {side} differs or refuses"));
        }
    }
    Ok(())
}
