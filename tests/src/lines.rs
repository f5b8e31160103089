//! The text of worked values: words of eight upper-case hexadecimal digits, a space between two.

/// The kinds' names, in the order of the paper's numbers.
const KINDS: [&str; 6] = [
    "ribbon",
    "tube",
    "capsule",
    "torus",
    "closed_cylinder",
    "seamless_torus",
];

/// The name of the kind with this number.
pub fn kind_name(kind: u32) -> &'static str {
    KINDS[kind as usize - 1]
}

pub fn hexadecimal(words: &[u32]) -> String {
    let texts: Vec<String> = words.iter().map(|word| format!("{word:08X}")).collect();
    texts.join(" ")
}
