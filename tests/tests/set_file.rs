//! Every word of files, and what is answered at their end and past it.

use togbefulo_tests::{
    additions,
    arithmetic::word,
    buffers::{Buffers, Lengths},
    comparison::files,
    generator::Generator,
    library,
    met::Met,
    readings, tables,
};

#[test]
fn files_of_sets() {
    let mut generator = Generator::new(28);
    let mut met = Met::default();
    let sets = 300;
    for _ in 0..sets {
        let mut lent = additions::lent(&mut generator);
        assert_eq!(library::clear(&mut lent.table), 0);
        for input in additions::list(&mut generator) {
            readings::add(&input, &mut lent, None);
        }
        files::compare_whole(&mut generator, &lent, &mut met);
    }
    println!("words of the files of {sets} sets, {met}");
    assert_eq!(met.answers(), [0, 5]);
}

/// Sets that nobody added: any vertices and indices, each NaN among them as one and the same word.
#[test]
fn files_of_anything() {
    let mut generator = Generator::new(29);
    let mut met = Met::default();
    let mut nans = 0;
    for bodies in 0..=64 {
        let rows = tables::rows(&mut generator, bodies);
        for spare in [0, 1, 50] {
            let spare = Lengths {
                table: spare,
                vertices: spare,
                triangles: spare,
            };
            let lent = tables::over_garbage(&mut generator, &rows, spare);
            nans += lent.vertices.iter().filter(|x| x.is_nan()).count();
            files::compare_whole(&mut generator, &lent, &mut met);
        }
    }
    println!("words of the files of any buffers, {met}; {nans} NaNs");
    assert!(nans > 0);
}

/// Every sort of NaN in one vertex.
#[test]
fn words_of_nans() {
    let patterns = [
        0x7FC00000, 0xFFC00000, 0x7F800001, 0xFF800001, 0x7FFFFFFF, 0xFFFFFFFF,
    ];
    let vertices: Vec<f32> = patterns.map(f32::from_bits).into();
    let set = Buffers {
        table: tables::table(&[[1, 0, 2, 0]]),
        vertices,
        triangles: Vec::new(),
    };
    for place in 10..16 {
        let mut given = [0];
        assert_eq!(library::file_word(&set, place, &mut given), 0);
        assert_eq!(given[0], word(f32::NAN));
    }
}
