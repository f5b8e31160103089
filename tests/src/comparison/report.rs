//! The counts as a table.

use super::{counts::Counts, damage::SORTS};
use crate::{inputs::KINDS, library::UNKNOWN_KIND};
use std::fmt;

type Row = (String, u64);

/// What an addition to an undamaged table can be refused with.
const REFUSALS: [u32; 11] = [2, 3, 4, 10, 11, 12, 13, 20, 21, 22, 23];

fn row(name: &str, times: u64) -> Row {
    (name.into(), times)
}

fn additions(counts: &Counts) -> Vec<Row> {
    let answers = &counts.answers;
    let mut rows = vec![
        row("lists, each after a clear", counts.lists),
        row("additions", answers.total()),
    ];
    for ((_, name), times) in KINDS.iter().zip(counts.kinds) {
        rows.push((format!("  accepted: {name}"), times));
    }
    for number in REFUSALS {
        rows.push((format!("  refused: {number}"), answers.times(number)));
    }
    rows.push(row("  of unknown kinds", answers.times(UNKNOWN_KIND)));
    rows.push(row("additions by records, in one call", counts.built));
    rows
}

fn seamless(counts: &Counts) -> Vec<Row> {
    let (answers, twists) = (&counts.seamless, &counts.twists);
    let mut rows = vec![
        row("additions of seamless tori", answers.total()),
        row("  accepted", answers.times(0)),
        row("    with k below 0", twists.negative),
        row("    with k = 0", twists.zero),
        row("    with k above 0", twists.positive),
        row("    with one of several best k", twists.several),
    ];
    let known = REFUSALS.into_iter().filter(|&number| number != 21);
    rows.extend(known.map(|number| (format!("  refused: {number}"), answers.times(number))));
    rows
}

fn fits(counts: &Counts) -> Vec<Row> {
    let mut rows = Vec::new();
    for (name, times) in [
        ("exact fits", counts.exact),
        ("one element short", counts.one_short),
    ] {
        for (buffer, times) in ["table", "vertices", "triangles"].iter().zip(times) {
            rows.push((format!("{name}: {buffer}"), times));
        }
    }
    rows
}

fn damaged(counts: &Counts) -> Vec<Row> {
    let sorts = SORTS.iter().zip(counts.damaged);
    let sort = |((_, name), times): (&(_, &str), u64)| (format!("damaged: {name}"), times);
    let mut rows: Vec<Row> = sorts.map(sort).collect();
    let times = counts.on_damaged.times(1);
    rows.push(row("  refused: 1, by add and file word", times));
    rows
}

fn elements(counts: &Counts) -> Vec<Row> {
    let [plus_zeros, minus_zeros, subnormals, large] = counts.floats.unusual();
    vec![
        row("words of files", counts.words.times(0)),
        row("  refused: 5, at the end and past", counts.words.times(5)),
        row("floats of accepted bodies", counts.floats.floats()),
        row("  +0", plus_zeros),
        row("  -0", minus_zeros),
        row("  subnormal", subnormals),
        row("  above 2^40", large),
        row("indices of accepted bodies", counts.indices),
        row("untouched elements", counts.untouched),
    ]
}

impl fmt::Display for Counts {
    fn fmt(&self, f: &mut fmt::Formatter) -> fmt::Result {
        for part in [additions, seamless, fits, damaged, elements] {
            for (name, times) in part(self) {
                writeln!(f, "{name:<36}{:>15}", grouped(times))?;
            }
        }
        // What differs is a panic, and nothing is counted then.
        write!(f, "{:<36}{:>15}", "differences", 0)
    }
}

/// The decimal digits in groups of three.
fn grouped(number: u64) -> String {
    let digits = number.to_string();
    let mut text = String::new();
    for (place, digit) in digits.chars().enumerate() {
        if place > 0 && (digits.len() - place).is_multiple_of(3) {
            text.push(',');
        }
        text.push(digit);
    }
    text
}
