//! The cases of the worked values, lists and bodies. The proved programs carry the same tables.

/// Bits of the numbers whose roots are worked out.
#[rustfmt::skip]
pub const ROOTS: [u32; 64] = [
    // both zeros
    0x00000000, 0x80000000,
    // subnormals: the smallest, both sides of 9 * 2^-140, the largest
    0x00000001, 0x00000002, 0x00000003, 0x00000004, 0x000011FF, 0x00001200, 0x00001201, 0x003FFFFF, 0x00400000,
    0x007FFFFE, 0x007FFFFF,
    // the smallest normals and the next binade
    0x00800000, 0x00800001, 0x00FFFFFF, 0x01000000,
    // 2^-24, 1/4, 1/2
    0x33800000, 0x3E800000, 0x3F000000,
    // round 1, 2, 3, 4, 9, 10, 100
    0x3F7FFFFF, 0x3F800000, 0x3F800002, 0x3FFFFFFF, 0x40000000, 0x40000001, 0x40400000, 0x40800000, 0x40800001,
    0x410FFFFF, 0x41100000, 0x41100001, 0x41200000, 0x42C7FFFF, 0x42C80000, 0x42C80001,
    // nearest below the middle of two f32, then nearest above it
    0x3F800001, 0x407FFFFF, 0x3F800003, 0x3FB0C6C3, 0x3FFC114A, 0x3F925859, 0x406E9372, 0x405AE03B,
    // round 2049^2, 4095^2 and 2^24
    0x4A802002, 0x4B7FE000, 0x4B7FE001, 0x4B7FE002, 0x4B800000, 0x4B800001,
    // the largest numbers and +infinity
    0x7E800000, 0x7F000000, 0x7F7FFFFE, 0x7F7FFFFF, 0x7F800000,
    // negative numbers and -infinity
    0x80000001, 0x80800000, 0xBF800000, 0xFF7FFFFF, 0xFF800000,
    // NaNs: quiet, signalling, both signs
    0x7FC00000, 0x7F800001, 0xFFC00000, 0xFFFFFFFF,
];

/// Pairs of k and n whose direction is worked out.
#[rustfmt::skip]
pub const TURNS: [[u32; 2]; 45] = [
    [0, 1], [0, 2], [1, 2],
    [0, 3], [1, 3], [2, 3],
    [0, 4], [1, 4], [2, 4], [3, 4],
    [0, 8], [1, 8], [2, 8], [3, 8], [4, 8], [5, 8], [6, 8], [7, 8],
    [1, 5], [3, 7], [5, 11],
    [1, 256], [31, 256], [32, 256], [33, 256], [100, 256], [255, 256],
    [1, 16777215], [8388607, 16777215], [16777214, 16777215],
    [1, 16777216], [2097151, 16777216], [2097152, 16777216], [2097153, 16777216], [16777215, 16777216],
    // outside: k not below n, n of 0, n above 2^24, products that wrap
    [1, 1], [8, 8], [0, 0], [1, 0], [16777216, 16777216], [0, 16777217], [16777216, 16777217],
    [536870912, 8], [4294967295, 4294967295], [0, 4294967295],
];

/// Bits of directions whose first frame is worked out.
#[rustfmt::skip]
pub const FIRST_FRAMES: [[u32; 3]; 31] = [
    // the axes, both ways
    [0x3F800000, 0x00000000, 0x00000000], [0xBF800000, 0x00000000, 0x00000000],
    [0x00000000, 0x3F800000, 0x00000000], [0x00000000, 0xBF800000, 0x00000000],
    [0x00000000, 0x00000000, 0x3F800000], [0x00000000, 0x00000000, 0xBF800000],
    // the axes among zeros of both signs
    [0x3F800000, 0x80000000, 0x80000000], [0xBF800000, 0x00000000, 0x80000000],
    [0x80000000, 0x3F800000, 0x00000000], [0x00000000, 0x3F800000, 0x80000000],
    [0x80000000, 0xBF800000, 0x80000000], [0x80000000, 0x80000000, 0x3F800000],
    [0x80000000, 0x00000000, 0xBF800000],
    // exactly 2^-4, then the next number, which is below it: along x and along z
    [0x3F800000, 0x4077DEF6, 0x00000000], [0x3F800000, 0x4077DEF7, 0x00000000],
    [0x80000000, 0x4077DEF6, 0x3F800000], [0x80000000, 0x4077DEF7, 0x3F800000],
    [0x00000000, 0xBF77DEF6, 0xBE800000], [0x00000000, 0xBF77DEF7, 0xBE800000],
    // above and below it with no zero
    [0xBF800000, 0x410A9066, 0x40000000], [0xBF800000, 0x410A9067, 0x40000000],
    // oblique
    [0x40400000, 0x00000000, 0x40800000], [0x00000000, 0x40400000, 0xC0800000],
    [0x3F800000, 0x40000000, 0x40400000], [0xC0400000, 0x3F000000, 0x3E800000],
    // the shortest and longest accepted segments: 2^-20 and 2^40
    [0x35800000, 0x00000000, 0x00000000], [0x00000000, 0xB5800000, 0x00000000],
    [0x53800000, 0x80000000, 0x00000000], [0x00000000, 0x53800000, 0x00000000],
    // no direction: the norm is +0
    [0x00000000, 0x00000000, 0x00000000], [0x0DA24260, 0x00000000, 0x00000000],
];

/// Bits of the segment before, the segment after and the frame whose transport is worked out.
/// Both segments are normalised first, the frame is taken as it is.
#[rustfmt::skip]
pub const TRANSPORT_STEPS: [[u32; 9]; 25] = [
    // straight on: along z, with another length, among zeros of both signs, oblique
    [0x00000000, 0x00000000, 0x3F800000, 0x00000000, 0x00000000, 0x3F800000, 0x3F800000, 0x00000000, 0x00000000],
    [0x00000000, 0x00000000, 0x40000000, 0x00000000, 0x00000000, 0x3F000000, 0x00000000, 0x3F800000, 0x00000000],
    [0x80000000, 0x00000000, 0x3F800000, 0x00000000, 0x80000000, 0x3F800000, 0x3F800000, 0x80000000, 0x80000000],
    [0x00000000, 0x80000000, 0x3F800000, 0x80000000, 0x80000000, 0x3F800000, 0x80000000, 0xBF800000, 0x80000000],
    [0x3F800000, 0x40000000, 0x40400000, 0x40000000, 0x40800000, 0x40C00000, 0x3F72DCE9, 0x00000000, 0xBEA1E89C],
    // right angles: z to x, z to y, x to y, y to z, y to minus x, x to minus z
    [0x00000000, 0x00000000, 0x3F800000, 0x3F800000, 0x00000000, 0x00000000, 0x3F800000, 0x00000000, 0x00000000],
    [0x00000000, 0x00000000, 0x3F800000, 0x3F800000, 0x00000000, 0x00000000, 0x00000000, 0x3F800000, 0x00000000],
    [0x00000000, 0x00000000, 0x3F800000, 0x00000000, 0x3F800000, 0x00000000, 0x3F800000, 0x00000000, 0x80000000],
    [0x3F800000, 0x00000000, 0x00000000, 0x00000000, 0x3F800000, 0x00000000, 0x00000000, 0x00000000, 0xBF800000],
    [0x00000000, 0x3F800000, 0x00000000, 0x00000000, 0x00000000, 0x3F800000, 0x00000000, 0x80000000, 0x3F800000],
    [0x80000000, 0x3F800000, 0x80000000, 0xBF800000, 0x80000000, 0x00000000, 0x80000000, 0x80000000, 0x3F800000],
    [0x3F800000, 0x80000000, 0x00000000, 0x80000000, 0x00000000, 0xBF800000, 0x80000000, 0x3F800000, 0x80000000],
    // an eighth of a turn, and three
    [0x00000000, 0x00000000, 0x3F800000, 0x00000000, 0x3F800000, 0x3F800000, 0x3F800000, 0x00000000, 0x00000000],
    [0x00000000, 0x00000000, 0x3F800000, 0x3F800000, 0x00000000, 0x3F800000, 0x3F800000, 0x00000000, 0x80000000],
    [0x00000000, 0x00000000, 0x3F800000, 0x00000000, 0xBF800000, 0xBF800000, 0x00000000, 0x3F800000, 0x00000000],
    // oblique: with the first frame, with a frame that is no unit vector
    [0x3F800000, 0x40000000, 0x40400000, 0x40400000, 0xBF800000, 0x40000000, 0x3F72DCE9, 0x00000000, 0xBEA1E89C],
    [0x40400000, 0xBF800000, 0x40000000, 0xC0400000, 0x3F000000, 0x3E800000, 0x40200000, 0xBF800000, 0x3E800000],
    // nearest fold that is accepted: 1 + c is 2^-12, with frames along x, y and both
    [0x00000000, 0x00000000, 0x3F800000, 0x3D07C95F, 0x00000000, 0xBFC00000, 0x3F800000, 0x00000000, 0x00000000],
    [0x00000000, 0x00000000, 0x3F800000, 0x3D07C95F, 0x00000000, 0xBFC00000, 0x00000000, 0x3F800000, 0x00000000],
    [0x00000000, 0x00000000, 0x3F800000, 0x3D07C95F, 0x80000000, 0xBFC00000, 0x3F3504F3, 0xBF3504F3, 0x80000000],
    // next number: the fold is refused, the step is defined all the same
    [0x00000000, 0x00000000, 0x3F800000, 0x3D07C95E, 0x00000000, 0xBFC00000, 0x3F800000, 0x00000000, 0x00000000],
    // the least turn: one unit of a component
    [0x00000000, 0x00000000, 0x3F800000, 0x00000001, 0x00000000, 0x3F800000, 0x3F800000, 0x00000000, 0x00000000],
    [0x3F800000, 0x3F800000, 0x3F800000, 0x3F800000, 0x3F800001, 0x3F800000, 0x3F3504F3, 0x80000000, 0xBF3504F3],
    // back onto itself: 1 + c is +0
    [0x00000000, 0x00000000, 0x3F800000, 0x00000000, 0x00000000, 0xBF800000, 0x3F800000, 0x00000000, 0x00000000],
    [0x3F800000, 0x00000000, 0x00000000, 0xBF800000, 0x38D1B717, 0x00000000, 0x00000000, 0x00000000, 0x3F800000],
];

/// Triangle lists: kind, divisions, longitudes, run, first vertex.
/// The kinds are document 01's numbers, sizes that a kind lacks are 0, and the run is the segments of a
/// ribbon, tube or capsule, the curve vertices of a torus, the layers of a closed cylinder.
#[rustfmt::skip]
pub const LISTS: [[u32; 5]; 14] = [
    [1, 0, 0, 1, 0], [1, 0, 0, 1, 1000], [1, 0, 0, 3, 1000],
    [2, 3, 0, 1, 0], [2, 3, 0, 1, 1000], [2, 4, 0, 2, 1000],
    [3, 3, 1, 1, 0], [3, 3, 0, 3, 1000], [3, 3, 2, 1, 1000],
    [4, 3, 0, 3, 0], [4, 4, 0, 3, 1000],
    [5, 3, 0, 1, 0], [5, 4, 0, 2, 1000], [5, 3, 0, 1, 268435448],
];

/// Curves of the worked bodies: the vertex count, then the bits of the coordinates, three words a vertex. Words past
/// the last vertex are 0.
#[rustfmt::skip]
pub const CURVES: [[u32; 16]; 8] = [
    // none
    [0,
     0x00000000, 0x00000000, 0x00000000,
     0x00000000, 0x00000000, 0x00000000,
     0x00000000, 0x00000000, 0x00000000,
     0x00000000, 0x00000000, 0x00000000,
     0x00000000, 0x00000000, 0x00000000],
    // along z
    [2,
     0x00000000, 0x00000000, 0x00000000,
     0x00000000, 0x00000000, 0x3F800000,
     0x00000000, 0x00000000, 0x00000000,
     0x00000000, 0x00000000, 0x00000000,
     0x00000000, 0x00000000, 0x00000000],
    // oblique, among zeros of both signs
    [2,
     0x80000000, 0x00000000, 0x80000000,
     0x40400000, 0x80000000, 0x40800000,
     0x00000000, 0x00000000, 0x00000000,
     0x00000000, 0x00000000, 0x00000000,
     0x00000000, 0x00000000, 0x00000000],
    // one bend at a right angle, zeros of both signs
    [3,
     0x80000000, 0x00000000, 0x00000000,
     0x40000000, 0x80000000, 0x00000000,
     0x40000000, 0x00000000, 0xBFC00000,
     0x00000000, 0x00000000, 0x00000000,
     0x00000000, 0x00000000, 0x00000000],
    // two oblique bends, subnormal coordinates
    [4,
     0x00000000, 0x00000001, 0x80000000,
     0x3F800000, 0x40000000, 0x3F000000,
     0x40200000, 0x40000000, 0xBF800000,
     0x40400000, 0x80400000, 0x3E800000,
     0x00000000, 0x00000000, 0x00000000],
    // three oblique bends
    [5,
     0x3DCCCCCD, 0xBE4CCCCD, 0x3E99999A,
     0x3F8CCCCD, 0x3ECCCCCD, 0x3E99999A,
     0x3FA66666, 0x3FD9999A, 0xBF19999A,
     0x3E4CCCCD, 0x40066666, 0xBFF33333,
     0xBFB33333, 0x3F99999A, 0xBF333333],
    // closed, a triangle
    [3,
     0x3F800000, 0x00000000, 0x80000000,
     0xBF000000, 0x3F400000, 0x00000003,
     0xBF000000, 0xBF400000, 0x3E800000,
     0x00000000, 0x00000000, 0x00000000,
     0x00000000, 0x00000000, 0x00000000],
    // closed, four vertices in no plane
    [4,
     0x3F800000, 0x3DCCCCCD, 0x80000000,
     0x00000000, 0x3F800000, 0x3F000000,
     0xBF800000, 0x807FFFFF, 0x00000000,
     0xBE4CCCCD, 0xBF800000, 0xBF000000,
     0x00000000, 0x00000000, 0x00000000],
];

/// Bodies: kind, divisions, longitudes, centred, bits of the size, bits of the length, place of
/// the curve above. The kinds are the papers' numbers, and what a kind lacks is 0. The longitudes
/// of a closed cylinder are its layers, and the size of a ribbon is its width, of the others the
/// radius.
#[rustfmt::skip]
pub const BODIES: [[u32; 7]; 17] = [
    [1, 0, 0, 0, 0x40000000, 0x00000000, 1],
    [1, 0, 0, 0, 0x3F400000, 0x00000000, 5],
    [2, 3, 0, 0, 0x3F800000, 0x00000000, 2],
    [2, 4, 0, 0, 0x00400000, 0x00000000, 3],
    [2, 5, 0, 0, 0x3E800000, 0x00000000, 4],
    [3, 3, 1, 0, 0x3F000000, 0x00000000, 2],
    [3, 4, 0, 0, 0x3F000000, 0x00000000, 4],
    [3, 5, 2, 0, 0x3FA00000, 0x00000000, 3],
    [3, 3, 2, 0, 0x3E99999A, 0x00000000, 5],
    [4, 3, 0, 0, 0x3E000000, 0x00000000, 6],
    [4, 5, 0, 0, 0x3E4CCCCD, 0x00000000, 7],
    [5, 4, 1, 0, 0x3F333333, 0x3DCCCCCD, 0],
    [5, 3, 2, 1, 0x3FC00000, 0x40400000, 0],
    [5, 3, 1, 1, 0x3F800000, 0x00000001, 0],
    // twists of no turn, of 128/4096 and of -60/4096 turn
    [6, 3, 0, 0, 0x3E000000, 0x00000000, 6],
    [6, 4, 0, 0, 0x3E800000, 0x00000000, 4],
    [6, 5, 0, 0, 0x3E4CCCCD, 0x00000000, 5],
];
