//! How much was compared, and how often each answer, fit and sort of damage was met.

use super::damage::SORTS;
use crate::{buffers::Lengths, census::Census, inputs::KINDS, met::Met, paper::twist::Twist};

/// How often something was met of the table, of the vertices and of the triangles.
pub type OfBuffers = [u64; 3];

/// Accepted bodies of kind 6 by their k.
#[derive(Clone, Debug, Default)]
pub struct Twists {
    pub negative: u64,
    pub zero: u64,
    pub positive: u64,
    /// Several k were best, and the core took one of them.
    pub several: u64,
}

#[derive(Clone, Debug, Default)]
pub struct Counts {
    pub lists: u64,
    /// What the additions of the lists were answered.
    pub answers: Met,
    /// Accepted bodies by kind.
    pub kinds: [u64; KINDS.len()],
    /// What additions of kind 6 were answered, and the twists of those that were accepted.
    pub seamless: Met,
    pub twists: Twists,
    /// Accepted bodies after which a buffer was full to its last element.
    pub exact: OfBuffers,
    /// Bodies that one element more of the buffer would have had room for.
    pub one_short: OfBuffers,
    /// Damaged tables by their sort, and what add and file word were answered on them.
    pub damaged: [u64; SORTS.len()],
    pub on_damaged: Met,
    /// What file word was answered on the lists' sets.
    pub words: Met,
    /// Additions of lists that were built from records once more.
    pub built: u64,
    /// The coordinates of accepted bodies, and the number of their indices.
    pub floats: Census,
    pub indices: u64,
    /// Elements that a call was to leave as they were.
    pub untouched: u64,
}

impl Counts {
    /// An addition to buffers of these lengths and to a set that took up `before`, and would take up `after` with the
    /// body, where that has counts at all.
    pub fn addition(
        &mut self,
        answer: u32,
        lent: Lengths,
        before: Lengths,
        after: Option<Lengths>,
    ) {
        self.answers.count(answer);
        let touched = match (answer, after) {
            (0, Some(after)) => 1 + after.total() - before.total(),
            (23, Some(after)) => after.vertices - before.vertices,
            _ => 0,
        };
        self.untouched += (lent.total() - touched) as u64;
        if let Some(after) = after {
            self.fit(answer, lent, after);
        }
    }

    fn fit(&mut self, answer: u32, lent: Lengths, after: Lengths) {
        let pairs = [
            (lent.table, after.table),
            (lent.vertices, after.vertices),
            (lent.triangles, after.triangles),
        ];
        for (place, (length, needed)) in pairs.into_iter().enumerate() {
            self.exact[place] += u64::from(answer == 0 && needed == length);
            // Refusals 2, 3 and 4 are those of the three buffers.
            self.one_short[place] += u64::from(answer == 2 + place as u32 && needed == length + 1);
        }
    }

    /// The twist of an accepted body, of all that it may have.
    pub fn twist(&mut self, twist: Twist, permitted: &[Twist]) {
        let twists = &mut self.twists;
        let Some(k) = twist else {
            return;
        };
        twists.negative += u64::from(k < 0);
        twists.zero += u64::from(k == 0);
        twists.positive += u64::from(k > 0);
        twists.several += u64::from(permitted.len() > 1);
    }

    pub fn body(&mut self, kind: u32, floats: &[f32], indices: usize) {
        self.kinds[kind as usize - 1] += 1;
        self.floats.count_all(floats);
        self.indices += indices as u64;
    }

    pub fn merge(&mut self, other: &Counts) {
        self.lists += other.lists;
        self.answers.merge(&other.answers);
        merge_all(&mut self.kinds, &other.kinds);
        self.seamless.merge(&other.seamless);
        self.twists.merge(&other.twists);
        merge_all(&mut self.exact, &other.exact);
        merge_all(&mut self.one_short, &other.one_short);
        merge_all(&mut self.damaged, &other.damaged);
        self.on_damaged.merge(&other.on_damaged);
        self.words.merge(&other.words);
        self.built += other.built;
        self.floats.merge(&other.floats);
        self.indices += other.indices;
        self.untouched += other.untouched;
    }
}

impl Twists {
    fn merge(&mut self, other: &Twists) {
        self.negative += other.negative;
        self.zero += other.zero;
        self.positive += other.positive;
        self.several += other.several;
    }
}

fn merge_all(own: &mut [u64], other: &[u64]) {
    for (own, other) in own.iter_mut().zip(other) {
        *own += other;
    }
}
