//! Directed edges of a triangle list, counted with no regard to how the list was made.

/// What demand 3 says about the edges of a body.
#[derive(Debug, PartialEq, Eq)]
pub struct EdgeCounts {
    pub used_again: usize,
    pub unmatched: usize,
}

/// Counts over a flat list, three indices a triangle, each below `vertices`.
pub fn count(list: &[u32], vertices: u32) -> EdgeCounts {
    let mut ends = vec![Vec::new(); vertices as usize];
    for triangle in list.chunks_exact(3) {
        for (from, to) in [(0, 1), (1, 2), (2, 0)] {
            ends[triangle[from] as usize].push(triangle[to]);
        }
    }
    let mut counts = EdgeCounts {
        used_again: 0,
        unmatched: 0,
    };
    for (start, own) in ends.iter().enumerate() {
        for (place, &end) in own.iter().enumerate() {
            counts.used_again += usize::from(own[..place].contains(&end));
            counts.unmatched += usize::from(!ends[end as usize].contains(&(start as u32)));
        }
    }
    counts
}
