//! How often each answer was met, so that a comparison can say what it covered.

use std::{collections::BTreeMap, fmt};

#[derive(Clone, Debug, Default)]
pub struct Met(BTreeMap<u32, u64>);

impl Met {
    pub fn count(&mut self, answer: u32) {
        *self.0.entry(answer).or_default() += 1;
    }

    pub fn times(&self, answer: u32) -> u64 {
        self.0.get(&answer).copied().unwrap_or_default()
    }

    pub fn total(&self) -> u64 {
        self.0.values().sum()
    }

    pub fn merge(&mut self, other: &Met) {
        for (&answer, times) in &other.0 {
            *self.0.entry(answer).or_default() += times;
        }
    }

    /// The answers that were met, in ascending order.
    pub fn answers(&self) -> Vec<u32> {
        self.0.keys().copied().collect()
    }
}

/// 0 is what an accepted input is answered, the largest word what an unknown kind is.
impl fmt::Display for Met {
    fn fmt(&self, f: &mut fmt::Formatter) -> fmt::Result {
        let texts: Vec<String> = self.0.iter().map(text).collect();
        write!(f, "{} compared: {}", self.total(), texts.join(", "))
    }
}

fn text((answer, times): (&u32, &u64)) -> String {
    match *answer {
        0 => format!("{times} accepted"),
        u32::MAX => format!("{times} of unknown kinds"),
        number => format!("{times} of {number}"),
    }
}
