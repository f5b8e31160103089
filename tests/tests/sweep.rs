//! The proved program `sweep`, byte for byte beside the stored files, however its input comes; what it then says on
//! standard error; and the stored files beside what makes them.

use std::{fs::File, process::Stdio, time::Duration};
use togbefulo_tests::{
    met::Met,
    paper::{
        description::{number, Description},
        ledger::{by_the_paper, Ledger},
        records,
    },
    program::{feed, run, start, Run},
    record_files::{self, read_stored as stored, EXAMPLE, FILES, GATE},
    sweep,
};

/// A run on an input that comes in pieces.
fn piped(input: &[u8], piece: usize, pause: Duration) -> Run {
    let child = start(Stdio::piped(), Stdio::piped());
    run(child, |child| feed(child, input, piece, pause))
}

/// The set is as expected, standard error says what the input's end asks for and nothing else, and all ends well.
fn compare(run: &Run, input: &[u8], set: &[u8], what: &str) {
    assert!(run.written == set, "{what}");
    assert_eq!(run.said, sweep::complaint(input), "{what}");
    assert!(run.status.success(), "{what}: {}", run.status);
}

#[test]
fn stored_files_are_what_makes_them() {
    for (name, make) in FILES {
        let [records, set] = stored(name);
        assert!(records == make(), "{name}.records");
        assert!(set == sweep::sweep(&records), "{name}.set");
    }
    println!("{} stored files made again", FILES.len());
}

/// The answers of the records in a file, by the ledger.
fn answers(name: &str) -> Met {
    let mut met = Met::default();
    let mut ledger = Ledger::new(sweep::LENT, by_the_paper);
    for record in records::read(&sweep::words(&stored(name)[0])) {
        if let Some(description) = Description::of(record.fields) {
            met.count(number(ledger.add(description, &record.curve, None)));
        }
    }
    met
}

/// What the stored records are there for.
#[test]
fn stored_records_meet_the_refusals() {
    let expected: [(&str, &[u32]); 8] = [
        ("sample", &[0]),
        (GATE, &[0, 3, 4, 10, 11, 12, 13, 20, 21, 22, 23]),
        (EXAMPLE, &[0]),
        ("example_c", &[0, 13]),
        ("refusals", &[0, 3, 4, 10, 11, 12, 13, 20, 21, 22, 23]),
        ("entries", &[0, 2, 13]),
        ("exact", &[0, 3, 4]),
        ("unknown", &[0]),
    ];
    for (name, numbers) in expected {
        let met = answers(name);
        println!("{name}: {met}");
        assert_eq!(met.answers(), numbers, "{name}");
    }
}

/// The record and the 28 words that document 01 writes out.
#[test]
fn sample_of_document_01() {
    let [zero, one, two] = [0.0f32, 1.0, 2.0].map(f32::to_bits);
    assert_eq!(two, 0x40000000);
    let record = [
        1, 0, 0, 0, 0x40000000, 0, 2, zero, zero, zero, zero, zero, one,
    ];
    let head = [1, 1, 4, 2, 1, 0, 0, 4, 0, 2];
    let vertices = [
        zero, zero, zero, two, zero, zero, zero, zero, one, two, zero, one,
    ];
    let triangles = [0, 1, 2, 1, 3, 2];
    let set = [&head[..], &vertices, &triangles].concat();
    assert_eq!(set.len(), 28);
    let input = sweep::bytes(&record);
    let run = piped(&input, usize::MAX, Duration::ZERO);
    compare(&run, &input, &sweep::bytes(&set), "document 01's sample");
}

#[test]
fn files_are_the_stored_ones() {
    let mut complaints = 0;
    for (name, _) in FILES {
        let [records, set] = stored(name);
        let input = File::open(&record_files::stored(name)[0]);
        let child = start(input.expect("a file that was just read"), Stdio::piped());
        let from_file = run(child, |_| ());
        compare(&from_file, &records, &set, &format!("{name}, from a file"));
        let from_pipe = piped(&records, usize::MAX, Duration::ZERO);
        compare(&from_pipe, &records, &set, &format!("{name}, from a pipe"));
        complaints += usize::from(!from_pipe.said.is_empty());
    }
    assert_eq!(
        complaints, 5,
        "mixed, short, short_curve, count_513, unknown_513"
    );
    println!("{} files compared byte for byte", FILES.len());
}

#[test]
fn input_in_pieces() {
    let pieces = [
        ("sample", 1, 1_000),
        ("short_curve", 1, 1_000),
        (EXAMPLE, 5, 100),
        (GATE, 3, 100),
        ("refusals", 5, 0),
        ("count_513", 4_097, 1_000),
        ("exact", 4_097, 1_000),
        ("exact", 1, 0),
    ];
    for (name, piece, pause) in pieces {
        let [records, set] = stored(name);
        let run = piped(&records, piece, Duration::from_micros(pause));
        compare(&run, &records, &set, &format!("{name} by {piece}"));
    }
    println!("{} inputs fed in pieces", pieces.len());
}

/// From 1 to 27 bytes after the last record are a short one, and so are all the bytes of one but the last.
#[test]
fn bytes_after_the_last_record() {
    let [sample, set] = stored("sample");
    for more in 0..sample.len() {
        let input = [&sample[..], &sample[..more]].concat();
        let run = piped(&input, usize::MAX, Duration::ZERO);
        compare(&run, &input, &set, &format!("{more} bytes more"));
        assert_eq!(run.said.is_empty(), more == 0);
    }
    let both = [&sample[..], &sample].concat();
    let run = piped(&both, usize::MAX, Duration::ZERO);
    compare(&run, &both, &sweep::sweep(&both), "two records");
    assert!(run.written != set, "two records");
}

/// Nothing but the input's end ends the reading: records of no kind, as many as no stored file has, then a good one.
#[test]
fn many_records() {
    let [sample, set] = stored("sample");
    let unknown = sweep::bytes(&[9, 0, 0, 0, 0, 0, 0]);
    let input = [unknown.repeat(200_000), sample].concat();
    let run = piped(&input, usize::MAX, Duration::ZERO);
    compare(&run, &input, &set, "200,000 records of no kind before it");
}
