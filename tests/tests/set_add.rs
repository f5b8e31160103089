//! Additions beyond the number of entries, and of kinds that are none of the papers'.

use togbefulo_tests::{
    additions,
    buffers::{Buffers, Lengths},
    comparison::{adding, Counts},
    generator::Generator,
    inputs::KINDS,
    library,
    paper::description::Input,
};

/// The sixty-fifth body has no entry, however long the table is.
#[test]
fn sixty_four_bodies() {
    let mut generator = Generator::new(20);
    let lengths = Lengths {
        table: 1_000,
        vertices: 10_000,
        triangles: 20_000,
    };
    let kinds = KINDS.map(|(kind, _)| kind).into_iter().cycle().take(70);
    let list: Vec<Input> = kinds
        .map(|kind| additions::small(&mut generator, kind))
        .collect();
    let lent = Buffers::garbage(&mut generator, lengths);
    let added = adding::compare(lent, &list, &mut Counts::default());
    let expected = [[0; 64].as_slice(), &[2; 6]].concat();
    assert_eq!(added.answers, expected);
    assert_eq!(added.left.table[0], 64);
}

/// Kinds that are none of the papers' leave everything as it is.
#[test]
fn unknown_kinds() {
    let mut generator = Generator::new(21);
    let mut input = additions::small(&mut generator, 2);
    for kind in additions::UNKNOWN_KINDS {
        input.fields.kind = kind;
        for table in [0, 1, 385] {
            let lengths = Lengths {
                table,
                vertices: 500,
                triangles: 500,
            };
            let lent = Buffers::garbage(&mut generator, lengths);
            let mut proved = lent.clone();
            assert_eq!(library::add(&input, &mut proved), library::UNKNOWN_KIND);
            assert!(proved.is_same(&lent), "kind {kind}: touched");
        }
    }
}
