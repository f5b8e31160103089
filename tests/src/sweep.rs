//! Document 01's program `sweep`, made of the ledger and of bodies as the adapted functions of del-msh give them.

use crate::{
    adapted,
    buffers::Lengths,
    paper::{description::Description, ledger::Ledger, records, twist},
};

/// What `sweep` lends.
pub const LENT: Lengths = Lengths {
    table: 385,
    vertices: 12_288,
    triangles: 12_288,
};

/// The bytes of the file for these bytes of records.
pub fn sweep(input: &[u8]) -> Vec<u8> {
    bytes(&file(&words(input)))
}

/// The words of the file for these words of records. Refused records and unknown kinds leave no
/// trace. A body of kind 6 with several best k would have no file of its own.
fn file(words: &[u32]) -> Vec<u32> {
    let mut ledger = Ledger::new(LENT, adapted::alone);
    for record in records::read(words) {
        if let Some(description) = Description::of(record.fields) {
            if ledger.add(description, &record.curve, None).is_ok() {
                twist::only(description, &record.curve);
            }
        }
    }
    let set = ledger.set();
    let totals = [ledger.vertex_total() as u32, ledger.triangle_total() as u32];
    let mut file = [&[1, set.table[0]], &totals, &set.table[1..]].concat();
    file.extend(set.vertices.iter().map(|x| x.to_bits()));
    file.extend(set.triangles);
    file
}

/// What the program says of this input on standard error: nothing, unless bytes are left after the last record that is
/// read. Document 01 leaves this open; docs/DECISIONS.md has it.
pub fn complaint(input: &[u8]) -> String {
    let records = records::read(&words(input));
    let lengths = records.iter().map(|record| 4 * (7 + record.curve.len()));
    let rest = &input[lengths.sum::<usize>()..];
    let what = match words(rest).get(6) {
        _ if rest.is_empty() => return String::new(),
        Some(513..) => "names more than 512 curve vertices",
        _ => "is cut short by the end of the input",
    };
    let number = records.len() + 1;
    format!("sweep: record {number} {what}; the set has only the records before it\n")
}

/// Little-endian words; bytes past the last whole word are left out.
pub fn words(bytes: &[u8]) -> Vec<u32> {
    let words = bytes.as_chunks().0.iter();
    words.map(|&word| u32::from_le_bytes(word)).collect()
}

pub fn bytes(words: &[u32]) -> Vec<u8> {
    words.iter().flat_map(|word| word.to_le_bytes()).collect()
}
