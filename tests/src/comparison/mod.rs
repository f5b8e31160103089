//! The whole core, through the static library, beside the adapted functions of del-msh and the readings of document
//! 01: lists of additions, each drawn from its own number, then the file, damaged tables and the same list as
//! records. A difference is a panic.

pub mod adding;
mod building;
pub mod calls;
mod counts;
mod damage;
mod drawn;
pub mod files;
mod report;
mod rounds;

pub use counts::Counts;
pub use damage::SORTS;
pub use rounds::{all_cores, rounds};

use crate::generator::Generator;
use drawn::Drawn;

/// The list with this number, and how much was compared.
pub fn list(number: u64) -> Counts {
    let mut generator = Generator::new(scattered(number));
    let mut counts = Counts::default();
    let Drawn { lent, additions } = drawn::list(&mut generator);
    let added = adding::compare(lent.clone(), &additions, &mut counts);
    files::compare_some(&mut generator, &added.left, &mut counts.words);
    damage::compare_some(&mut generator, &added.left, &mut counts);
    if generator.one_in(8) {
        building::compare(&mut generator, lent, &additions, &added, &mut counts);
    }
    counts.lists += 1;
    counts
}

/// A seed for each list. The generator's state is a counter, and the streams of neighbouring seeds would overlap.
fn scattered(number: u64) -> u64 {
    let mut generator = Generator::new(number);
    u64::from(generator.word()) << 32 | u64::from(generator.word())
}
