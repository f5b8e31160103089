//! Prints the worked bodies: the case with its counts, then a line for each vertex as the adapted functions of
//! del-msh make it.

use togbefulo_tests::{
    adapted,
    arithmetic::word,
    cases::{BODIES, CURVES},
    lines::{hexadecimal, kind_name},
    paper::{
        curve::check,
        description::{Description, Fields},
        twist,
    },
};

fn main() {
    for case in BODIES {
        let fields = fields(case);
        let curve = curve(case[6]);
        let description = Description::of(fields).expect("a kind of the paper");
        check(description, &curve).expect("a case that is accepted");
        let twist = twist::only(description, &curve);
        let (triangles, vertices) = adapted::body(description, &curve, twist);
        let counts = [vertices.len() as u32, triangles.len() as u32];
        let head = hexadecimal(&[&case[1..6], &counts].concat());
        println!("{} {head}", kind_name(fields.kind));
        for vertex in vertices {
            println!("{}", hexadecimal(&vertex.map(word)));
        }
    }
}

fn fields([kind, divisions, longitudes, centred, size, length, _]: [u32; 7]) -> Fields {
    Fields {
        kind,
        divisions,
        longitudes,
        centred: centred != 0,
        size: f32::from_bits(size),
        length: f32::from_bits(length),
    }
}

/// The table's curve as floats, three a vertex.
fn curve(place: u32) -> Vec<f32> {
    let [vertices, words @ ..] = CURVES[place as usize];
    let words = &words[..3 * vertices as usize];
    words.iter().map(|&word| f32::from_bits(word)).collect()
}
