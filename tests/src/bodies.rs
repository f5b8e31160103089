//! The sizes at which the triangle lists are compared.

use crate::{generator::Generator, topology::Body};

/// Every combination of the given sizes once, permitted or not.
pub fn combinations(divisions: &[u32], longitudes: &[u32], runs: &[u32]) -> Vec<Body> {
    let mut bodies = Vec::new();
    for &n in divisions {
        for &l in longitudes {
            for &run in runs {
                bodies.extend(Body::one_of_each(n, l, run));
            }
        }
    }
    bodies.sort_unstable();
    bodies.dedup();
    bodies
}

/// All permitted sizes of a few divisions, longitudes and segments.
pub fn small() -> Vec<Body> {
    let divisions: Vec<u32> = (3..=12).collect();
    let runs: Vec<u32> = (1..=12).collect();
    permitted(combinations(&divisions, &[0, 1, 2, 3, 4], &runs))
}

/// Permitted sizes at and next to every limit.
pub fn at_limits() -> Vec<Body> {
    let mut bodies = combinations(&[3, 256], &[0, 256], &[1, 2, 3, 4095, 4096]);
    bodies.extend(combinations(&[4, 255], &[1, 255], &[4]));
    bodies.extend(combinations(&[4], &[1, 255], &[4094]));
    permitted(bodies)
}

/// Permitted sizes from anywhere between the limits, long runs more rarely than short ones.
pub fn anywhere(count: usize) -> Vec<Body> {
    let mut generator = Generator::new(1);
    let mut bodies = Vec::new();
    while bodies.len() < count {
        let longest = 1 << generator.between(2, 12);
        let divisions = generator.between(3, 256);
        let longitudes = generator.between(0, 256);
        let run = generator.between(1, longest);
        let kind = generator.between(0, 4) as usize;
        let body = Body::one_of_each(divisions, longitudes, run)[kind];
        if body.is_permitted() {
            bodies.push(body);
        }
    }
    bodies
}

fn permitted(mut bodies: Vec<Body>) -> Vec<Body> {
    bodies.retain(|body| body.is_permitted());
    bodies
}
