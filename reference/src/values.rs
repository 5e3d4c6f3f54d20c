//! Numbers that the questions put where they may hurt.

/// Feature numbers above 31. 287 is 256 + 31 and 65567 is 65536 + 31: a
/// narrowing cast would let them in.
pub const FEATURES_ABOVE: [u32; 16] = [
    32,
    33,
    36,
    63,
    64,
    128,
    255,
    256,
    287,
    65535,
    65536,
    65567,
    1 << 24,
    1 << 31,
    (1 << 31) + 31,
    u32::MAX,
];

/// Vector lengths that are not allowed, some of them allowed ones after a
/// narrowing cast.
pub const LENGTHS_NOT_ALLOWED: [u32; 20] = [
    0,
    1,
    64,
    127,
    129,
    192,
    255,
    384,
    640,
    2047,
    2049,
    4096,
    65535,
    65536,
    65536 + 128,
    65536 + 2048,
    (1 << 24) + 256,
    1 << 31,
    (1 << 31) + 128,
    u32::MAX,
];

/// The feature numbers under which the access flags are tried: with and
/// without SVE2p1, SME, SME2 and SME2p1.
pub const FEATURES_FOR_FLAGS: [u32; 7] = [3, 4, 7, 12, 28, 29, 31];

/// The feature numbers that differ in SVE2p1 and SME, on which PSEL hangs:
/// SVE2 alone, with SVE2p1, SME alone, with SVE2, and all three.
pub const FEATURES_FOR_PSEL: [u32; 5] = [1, 3, 4, 5, 7];

/// First portions: those of a word, those next to them, numbers that are
/// among them after a cast, and such as a sum with the number of portions, or
/// a double, takes around 2^32.
pub const FIRST_PORTIONS: [u32; 20] = [
    0,
    1,
    2,
    3,
    4,
    5,
    6,
    255,
    256,
    256 + 2,
    65536,
    65536 + 2,
    (1 << 31) - 2,
    1 << 31,
    (1 << 31) + 1,
    (1 << 31) + 2,
    u32::MAX - 3,
    u32::MAX - 2,
    u32::MAX - 1,
    u32::MAX,
];

/// Numbers of portions, chosen alike.
pub const NUMBERS_OF_PORTIONS: [u32; 17] = [
    0,
    1,
    2,
    3,
    4,
    255,
    256,
    256 + 1,
    256 + 2,
    65536,
    65536 + 1,
    65536 + 2,
    1 << 31,
    (1 << 31) + 1,
    (1 << 31) + 2,
    u32::MAX - 1,
    u32::MAX,
];

/// Values of PC at the wrap, at halves' ends and off the multiples of 4.
pub const PCS_OF_NOTE: [u64; 14] = [
    0,
    1,
    2,
    3,
    0xffff_fffb,
    0xffff_fffc,
    0xffff_ffff,
    0x7fff_ffff_ffff_fffc,
    0xffff_ffff_ffff_fff8,
    0xffff_ffff_ffff_fffb,
    0xffff_ffff_ffff_fffc,
    0xffff_ffff_ffff_fffd,
    0xffff_ffff_ffff_fffe,
    0xffff_ffff_ffff_ffff,
];

/// Predicate-as-counters: low nibble 0 with and without other bits, all true and all false, every
/// bit, and document 01's.
pub const NOTED_COUNTERS: [u16; 15] = [
    0x0000, 0x8000, 0x0010, 0x8010, 0x7ff0, 0xfff0, 0x0001, 0x8001, 0x000f, 0x8008, 0x7fff, 0xffff,
    0x0007, 0x0081, 0x8021,
];

/// Lengths of the three files, Z, P and ZT0, of which at least one is wrong:
/// a byte short, a byte long, and empty.
pub const WRONG_LENGTHS: [(u32, u32, u32); 10] = [
    (8191, 512, 64),
    (8193, 512, 64),
    (0, 512, 64),
    (8192, 511, 64),
    (8192, 513, 64),
    (8192, 0, 64),
    (8192, 512, 63),
    (8192, 512, 65),
    (8192, 512, 0),
    (0, 0, 0),
];

/// The words printed in document 01: the points on the board and the lister's
/// example.
pub const PRINTED_WORDS: [u32; 16] = [
    0xc08a_9000,
    0xc08a_8000,
    0xc08a_b000,
    0xc09a_9000,
    0xc09a_a000,
    0x4528_3800,
    0x452f_3800,
    0x4560_3800,
    0x457f_3800,
    0x4520_3800,
    0x252c_4000,
    0x25e0_4000,
    0x2520_741f,
    0xc08b_9000,
    0x2520_7010,
    0x2520_4000,
];

/// The first words of the narrowing family, by op:U:R:T from 0000 to 1111:
/// size 8, shift 8, Zn and Zd 0.
pub const NARROW_WORDS: [u32; 16] = [
    0x4528_0000,
    0x4528_0400,
    0x4528_0800,
    0x4528_0c00,
    0x4528_1000,
    0x4528_1400,
    0x4528_1800,
    0x4528_1c00,
    0x4528_2000,
    0x4528_2400,
    0x4528_2800,
    0x4528_2c00,
    0x4528_3000,
    0x4528_3400,
    0x4528_3800,
    0x4528_3c00,
];

/// Put into every field in turn. The first lines hold, for every field of
/// every form, both ends of its range and the numbers next to them; then come
/// numbers that are in a range after a cast to 8 or 16 bits, and extremes.
pub const FIELD_VALUES: [u32; 59] = [
    0,
    1,
    2,
    3,
    4,
    5,
    7,
    8,
    9,
    11,
    12,
    13,
    15,
    16,
    17,
    18,
    19,
    20,
    24,
    27,
    28,
    29,
    30,
    31,
    32,
    33,
    63,
    64,
    65,
    127,
    128,
    255,
    256,
    256 + 1,
    256 + 8,
    256 + 12,
    256 + 15,
    256 + 16,
    256 + 32,
    256 + 64,
    65535,
    65536,
    65536 + 1,
    65536 + 8,
    65536 + 12,
    65536 + 16,
    65536 + 32,
    65536 + 64,
    (1 << 24) + 8,
    (1 << 31) - 1,
    1 << 31,
    (1 << 31) + 1,
    (1 << 31) + 8,
    (1 << 31) + 12,
    (1 << 31) + 16,
    u32::MAX - 15,
    u32::MAX - 7,
    u32::MAX - 3,
    u32::MAX,
];
