//! The two readings of document 01's shared set beside each other: calls on lent buffers, and the ledger.

use crate::{
    buffers::{Buffers, Lengths},
    library::UNKNOWN_KIND,
    paper::{
        description::{number, Description, Input},
        ledger::{Ledger, Maker},
        set::{self, Lent},
        twist::{self, Twist},
    },
};

/// What `set::add` answers and leaves in the buffers; for a kind that is none of the paper's,
/// nothing is done. `left` is the vertex buffer as the core left it, where that is at hand.
pub fn add(input: &Input, buffers: &mut Buffers, left: Option<&[f32]>) -> u32 {
    let mut lent = Lent {
        table: &mut buffers.table,
        vertices: &mut buffers.vertices,
        triangles: &mut buffers.triangles,
    };
    Description::of(input.fields).map_or(UNKNOWN_KIND, |description| {
        number(set::add(description, &input.curve, &mut lent, left))
    })
}

/// A list of additions after a clear.
pub struct Readings {
    began: Buffers,
    buffers: Buffers,
    ledger: Ledger,
}

impl Readings {
    /// The buffers as they are lent to the clear, the table not empty.
    pub fn cleared(began: &Buffers, maker: Maker) -> Readings {
        let mut buffers = began.clone();
        assert_eq!(set::clear(&mut buffers.table), Ok(()));
        Readings {
            began: began.clone(),
            buffers,
            ledger: Ledger::new(began.lengths(), maker),
        }
    }

    /// The answer of both. `left` is the vertex buffer as the core left it, where that is at hand.
    pub fn add(&mut self, input: &Input, left: Option<&[f32]>) -> u32 {
        let answer = add(input, &mut self.buffers, left);
        if let Some(description) = Description::of(input.fields) {
            let ledger = number(self.ledger.add(description, &input.curve, left));
            assert_eq!(answer, ledger, "calls and ledger: {input:?}");
        }
        answer
    }

    /// The answer for stored outputs, where nothing of the core is at hand: a body of kind 6 has
    /// only one best k.
    pub fn add_stored(&mut self, input: &Input) -> u32 {
        let answer = self.add(input, None);
        if answer == 0 {
            twist::only(input.description(), &input.curve);
        }
        answer
    }

    /// The twist of the last body that was accepted.
    pub fn last_twist(&self) -> Twist {
        self.ledger.last_twist()
    }

    /// The elements of each buffer that the set takes up.
    pub fn taken(&self) -> Lengths {
        Lengths {
            table: 1 + 6 * self.ledger.body_count(),
            vertices: 3 * self.ledger.vertex_total(),
            triangles: 3 * self.ledger.triangle_total(),
        }
    }

    /// What the buffers hold by both.
    pub fn buffers(&self) -> &Buffers {
        let ledger = self.ledger.after(&self.began);
        assert!(self.buffers.is_same(&ledger), "calls and ledger");
        &self.buffers
    }
}
