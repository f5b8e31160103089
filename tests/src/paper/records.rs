//! Records, as document 01's section "The shared set" has `sweep` read them.

use super::description::{Fields, Input};

/// A record of a longer curve ends the reading.
const MOST_CURVE_VERTICES: u32 = 512;

/// The records before the first that is short or has too long a curve, those of unknown kinds among them.
pub fn read(mut words: &[u32]) -> Vec<Input> {
    let mut records = Vec::new();
    while let Some((record, rest)) = split_first(words) {
        records.push(record);
        words = rest;
    }
    records
}

fn split_first(words: &[u32]) -> Option<(Input, &[u32])> {
    let (&head, rest) = words.split_first_chunk()?;
    let [kind, divisions, longitudes, centre, size, length, vertices] = head;
    if vertices > MOST_CURVE_VERTICES {
        return None;
    }
    let (coordinates, rest) = rest.split_at_checked(3 * vertices as usize)?;
    let fields = Fields {
        kind,
        divisions,
        longitudes,
        centred: centre != 0,
        size: f32::from_bits(size),
        length: f32::from_bits(length),
    };
    let curve = coordinates.iter().map(|&bits| f32::from_bits(bits));
    let curve = curve.collect();
    Some((Input { fields, curve }, rest))
}

/// The record of an addition; a curve that ends within a vertex has none.
pub fn words(input: &Input) -> Vec<u32> {
    let fields = input.fields;
    assert!(input.curve.len().is_multiple_of(3), "whole vertices");
    let mut words = vec![
        fields.kind,
        fields.divisions,
        fields.longitudes,
        u32::from(fields.centred),
        fields.size.to_bits(),
        fields.length.to_bits(),
        (input.curve.len() / 3) as u32,
    ];
    words.extend(input.curve.iter().map(|x| x.to_bits()));
    words
}
