//! The two readings of document 01's shared set beside each other, without the proved code: calls on lent buffers
//! and the ledger, with bodies by the paper and by the adapted functions of del-msh. Where these differ, the core
//! cannot be right by both.

use togbefulo_tests::{
    adapted, additions,
    generator::Generator,
    met::Met,
    paper::ledger::{by_the_paper, Maker},
    readings::Readings,
};

const LISTS: usize = 3_000;

/// Every number that an addition after a clear can get.
const ANSWERS: [u32; 12] = [0, 2, 3, 4, 10, 11, 12, 13, 20, 21, 22, 23];

#[test]
fn paper_set() {
    let mut generator = Generator::new(17);
    let mut met = Met::default();
    for list in 0..LISTS {
        let maker: Maker = if list % 2 == 0 {
            by_the_paper
        } else {
            adapted::alone
        };
        let lent = additions::lent(&mut generator);
        let mut readings = Readings::cleared(&lent, maker);
        for input in additions::list(&mut generator) {
            met.count(readings.add(&input, None));
        }
        readings.buffers();
    }
    println!("{LISTS} lists of additions by calls and by the ledger, {met}");
    assert_eq!(met.answers(), ANSWERS);
}
