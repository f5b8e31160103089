//! The proved counts beside the reading of the papers, at and next to every limit.

use togbefulo_tests::{
    generator::Generator,
    inputs::any_kind,
    library::{self, UNKNOWN_KIND},
    met::Met,
    paper::description::{Description, Fields},
};

/// The papers' numbers, and others that are one of them in their low bits.
const KINDS: [u32; 12] = [0, 1, 2, 3, 4, 5, 6, 7, 8, 257, 65539, u32::MAX];

/// Each limit with its neighbours, and numbers that are permitted ones in their low bits or once they wrap.
const VERTICES: [usize; 19] = [
    0,
    1,
    2,
    3,
    4,
    5,
    4094,
    4095,
    4096,
    4097,
    65536,
    65538,
    1 << 32,
    (1 << 32) + 2,
    (1 << 32) + 3,
    1 << 63,
    usize::MAX / 3,
    usize::MAX - 1,
    usize::MAX,
];
const DIVISIONS: [u32; 10] = [0, 1, 2, 3, 4, 255, 256, 257, 65539, u32::MAX];
const LONGITUDES: [u32; 16] = [
    0,
    1,
    2,
    3,
    255,
    256,
    257,
    4095,
    4096,
    4097,
    65536,
    65537,
    (1 << 31) - 1,
    1 << 31,
    (1 << 31) + 1,
    u32::MAX,
];

/// Bits of sizes: zeros, subnormals, 1, the least and largest normal numbers, infinities and NaNs.
const SIZES: [u32; 15] = [
    0x00000000, 0x80000000, 0x00000001, 0x80000001, 0x007FFFFF, 0x00800000, 0x3F800000, 0xBF800000,
    0x7F7FFFFF, 0xFF7FFFFF, 0x7F800000, 0xFF800000, 0x7FC00000, 0x7F800001, 0xFFFFFFFF,
];

/// What the reading answers, and what it leaves in `counts`.
fn read(fields: Fields, vertices: usize, counts: [u32; 2]) -> (u32, [u32; 2]) {
    let Some(description) = Description::of(fields) else {
        return (UNKNOWN_KIND, counts);
    };
    match description.counts(vertices) {
        Ok(counts) => (0, counts),
        Err(refusal) => (refusal as u32, counts),
    }
}

/// Compares the answer and what is left in the two counts, which hold anything before.
fn compare(generator: &mut Generator, fields: Fields, vertices: usize) -> u32 {
    let before = [generator.word(), generator.word()];
    let mut counts = before;
    let answer = library::counts(fields, vertices, &mut counts);
    let expected = read(fields, vertices, before);
    assert_eq!((answer, counts), expected, "{fields:?}, {vertices}");
    answer
}

/// Every combination of the numbers and sizes above, centred or not.
fn for_each_fields(kind: u32, mut compare: impl FnMut(Fields)) {
    for divisions in DIVISIONS {
        for longitudes in LONGITUDES {
            for size in SIZES.map(f32::from_bits) {
                for length in SIZES.map(f32::from_bits) {
                    for centred in [false, true] {
                        compare(Fields {
                            kind,
                            divisions,
                            longitudes,
                            centred,
                            size,
                            length,
                        });
                    }
                }
            }
        }
    }
}

#[test]
fn counts_at_every_limit() {
    let mut generator = Generator::new(10);
    let mut met = Met::default();
    for kind in KINDS {
        for_each_fields(kind, |fields| {
            for vertices in VERTICES {
                met.count(compare(&mut generator, fields, vertices));
            }
        });
    }
    println!("counts: {met}");
    assert_eq!(met.answers(), [0, 10, 20, 21, 22, UNKNOWN_KIND]);
}

#[test]
fn counts_from_anywhere() {
    let mut generator = Generator::new(11);
    let mut met = Met::default();
    for _ in 0..1_000_000 {
        let fields = Fields {
            kind: any_kind(&mut generator),
            divisions: generator.between(2, 260),
            longitudes: generator.between(0, 300),
            centred: generator.one_in(2),
            size: f32::from_bits(generator.word()),
            length: f32::from_bits(generator.word()),
        };
        let vertices = match fields.kind {
            5 => generator.one_of(&[0, 0, 0, 1]),
            _ => generator.between(0, 4200),
        };
        met.count(compare(&mut generator, fields, vertices as usize));
    }
    println!("counts from anywhere: {met}");
    assert_eq!(met.answers(), [0, 10, 20, 21, 22]);
}

/// Any set of faults is answered with the one that comes first in the order 10, 20, 21, 22, as far as the
/// kind knows them.
#[test]
fn the_first_refusal_is_answered() {
    let known: [(u32, &[u32]); 6] = [
        (1, &[10, 22]),
        (2, &[10, 20, 22]),
        (3, &[10, 20, 21, 22]),
        (4, &[10, 20, 22]),
        (5, &[10, 20, 21, 22]),
        (6, &[10, 20, 22]),
    ];
    let mut met = Met::default();
    for (kind, numbers) in known {
        for set in 0..1 << numbers.len() {
            let chosen = |place: &usize| set >> place & 1 == 1;
            let faults: Vec<u32> = (0..numbers.len())
                .filter(chosen)
                .map(|place| numbers[place])
                .collect();
            let (fields, vertices) = with_faults(kind, &faults);
            let answer = library::counts(fields, vertices, &mut [0; 2]);
            let expected = faults.first().copied().unwrap_or(0);
            assert_eq!(answer, expected, "{faults:?} of kind {kind}");
            met.count(answer);
        }
    }
    println!("sets of faults: {met}");
}

fn with_faults(kind: u32, faults: &[u32]) -> (Fields, usize) {
    let fault = |number| faults.contains(&number);
    let fields = Fields {
        kind,
        divisions: if fault(20) { 2 } else { 3 },
        longitudes: if fault(21) { 5000 } else { 1 },
        centred: true,
        size: if fault(22) { f32::NAN } else { 1.0 },
        length: 1.0,
    };
    let vertices = match (kind, fault(10)) {
        (5, wrong) => usize::from(wrong),
        (_, wrong) => 4096 + usize::from(wrong),
    };
    (fields, vertices)
}
