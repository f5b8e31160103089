//! Prints the worked triangle lists: the case with its counts, then a line for each triangle.

use togbefulo_tests::{
    cases::LISTS,
    lines::{hexadecimal, kind_name},
    topology::Body,
};

fn main() {
    for case in LISTS {
        let first = case[4];
        let (name, body) = (kind_name(case[0]), body(case));
        let counts = [body.vertex_count(), body.triangle_count()];
        println!("{name} {}", hexadecimal(&[&case[1..], &counts].concat()));
        for triangle in body.triangles() {
            println!("{}", hexadecimal(&triangle.map(|index| index + first)));
        }
    }
}

fn body([kind, divisions, longitudes, run, _]: [u32; 5]) -> Body {
    Body::one_of_each(divisions, longitudes, run)[kind as usize - 1]
}
