//! Prints the worked values of root, turn, first frame and transport step: the case, then its result.

use togbefulo_tests::{
    arithmetic::{first_frame, transport_step, turn, word, Point},
    cases::{FIRST_FRAMES, ROOTS, TRANSPORT_STEPS, TURNS},
    lines::hexadecimal,
};

fn main() {
    for x in ROOTS {
        let root = f32::from_bits(x).sqrt();
        println!("root {}", hexadecimal(&[x, word(root)]));
    }
    for [k, n] in TURNS {
        let (cos, sin) = turn(k, n);
        println!("turn {}", hexadecimal(&[k, n, word(cos), word(sin)]));
    }
    for direction in FIRST_FRAMES {
        let frame = first_frame(Point::of_words(direction)).words();
        println!("first_frame {}", hexadecimal(&[direction, frame].concat()));
    }
    for case in TRANSPORT_STEPS {
        let [before, after, frame] = points(case);
        let next = transport_step(frame, before.normalize(), after.normalize()).words();
        println!(
            "transport_step {}",
            hexadecimal(&[&case[..], &next].concat())
        );
    }
}

fn points(words: [u32; 9]) -> [Point; 3] {
    [0, 3, 6].map(|at| Point::of_words([words[at], words[at + 1], words[at + 2]]))
}
