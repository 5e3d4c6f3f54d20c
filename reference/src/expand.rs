//! How a machine's files are made from a few numbers, and how they are
//! compared by hash. This is shared by the programs that ask and answer step
//! questions; another program need only follow this page.
//!
//! **Stream.** From a 64-bit seed, with wrapping 64-bit arithmetic:
//!
//! ```text
//! state := seed
//! each output:
//!     state := state + 0x9E3779B97F4A7C15
//!     z := state
//!     z := (z XOR (z >> 30)) * 0xBF58476D1CE4E5B9
//!     z := (z XOR (z >> 27)) * 0x94D049BB133111EB
//!     output z XOR (z >> 31)
//! ```
//!
//! **Files.** One stream fills the Z file, then the P file, then ZT0, each to
//! its given length in bytes. An output gives eight bytes, low byte first.
//! Each file starts with a fresh output: what the file before left unused of
//! its last output is dropped. A file of no bytes takes no output.
//!
//! **Overrides.** After all three are filled, the 16-bit `p_value` is written
//! low byte first at byte `p_at` of the P file and the 32-bit `z_value` low
//! byte first at byte `z_at` of the Z file. An override is skipped if not all
//! of its bytes lie inside the file; offset 0xFFFFFFFF is no override at all.
//!
//! **Hash.** Of a file's bytes in order, 64 bits, wrapping:
//!
//! ```text
//! h := 0xCBF29CE484222325
//! each byte:
//!     h := (h XOR byte) * 0x100000001B3
//! ```

use crate::random::Random;

/// The offset that means no override.
pub const NO_OVERRIDE: u32 = u32::MAX;

/// Everything the three files are made from.
#[derive(Clone, Copy, Debug, PartialEq, Eq, Hash)]
pub struct Contents {
    pub seed: u64,
    pub z_length: u32,
    pub p_length: u32,
    pub zt_length: u32,
    pub p_at: u32,
    pub p_value: u16,
    pub z_at: u32,
    pub z_value: u32,
}

/// The three files.
#[derive(Clone, Debug, PartialEq, Eq)]
pub struct Files {
    pub z: Vec<u8>,
    pub p: Vec<u8>,
    pub zt0: Vec<u8>,
}

pub fn expand(contents: &Contents) -> Files {
    let mut stream = Random::new(contents.seed);
    let mut files = Files {
        z: fill(&mut stream, contents.z_length),
        p: fill(&mut stream, contents.p_length),
        zt0: fill(&mut stream, contents.zt_length),
    };
    put(&mut files.p, contents.p_at, &contents.p_value.to_le_bytes());
    put(&mut files.z, contents.z_at, &contents.z_value.to_le_bytes());
    files
}

fn fill(stream: &mut Random, length: u32) -> Vec<u8> {
    let length = length as usize;
    let mut bytes = Vec::new();
    while bytes.len() < length {
        bytes.extend_from_slice(&stream.next_u64().to_le_bytes());
    }
    bytes.truncate(length);
    bytes
}

fn put(file: &mut [u8], at: u32, value: &[u8]) {
    if at == NO_OVERRIDE {
        return;
    }
    let start = u64::from(at);
    let end = start + value.len() as u64;
    if end <= file.len() as u64 {
        // Both fit in a usize, being no greater than a length.
        file[start as usize..end as usize].copy_from_slice(value);
    }
}

pub fn hash(bytes: &[u8]) -> u64 {
    let mut h: u64 = 0xcbf2_9ce4_8422_2325;
    for &byte in bytes {
        h = (h ^ u64::from(byte)).wrapping_mul(0x0000_0100_0000_01b3);
    }
    h
}

#[cfg(test)]
mod tests {
    use super::*;

    fn contents(z_length: u32, p_length: u32, zt_length: u32) -> Contents {
        Contents {
            seed: 1_234_567,
            z_length,
            p_length,
            zt_length,
            p_at: NO_OVERRIDE,
            p_value: 0xabcd,
            z_at: NO_OVERRIDE,
            z_value: 0x0123_4567,
        }
    }

    /// The first two outputs for this seed, as published.
    const FIRST: u64 = 6_457_827_717_110_365_317;
    const SECOND: u64 = 3_203_168_211_198_807_973;

    #[test]
    fn each_file_starts_with_a_fresh_output() {
        let files = expand(&contents(3, 8, 0));
        assert_eq!(files.z, FIRST.to_le_bytes()[..3]);
        assert_eq!(files.p, SECOND.to_le_bytes());
        assert_eq!(files.zt0, []);
        // A file of no bytes takes no output.
        let files = expand(&contents(0, 1, 5));
        assert_eq!(files.p, FIRST.to_le_bytes()[..1]);
        assert_eq!(files.zt0, SECOND.to_le_bytes()[..5]);
    }

    #[test]
    fn overrides_lie_inside_or_are_skipped() {
        let plain = contents(8, 8, 8);
        let with = |p_at, z_at| {
            expand(&Contents {
                p_at,
                z_at,
                ..plain
            })
        };
        let files = with(6, 4);
        assert_eq!(files.p[6..], [0xcd, 0xab]);
        assert_eq!(files.p[..6], expand(&plain).p[..6]);
        assert_eq!(files.z[4..], [0x67, 0x45, 0x23, 0x01]);
        assert_eq!(files.z[..4], expand(&plain).z[..4]);
        for (p_at, z_at) in [(7, 5), (8, 8), (u32::MAX - 1, u32::MAX - 3)] {
            assert_eq!(with(p_at, z_at), expand(&plain));
        }
    }

    /// FNV-1a's published values.
    #[test]
    fn known_hashes() {
        assert_eq!(hash(b""), 0xcbf2_9ce4_8422_2325);
        assert_eq!(hash(b"a"), 0xaf63_dc4c_8601_ec8c);
        assert_eq!(hash(b"foobar"), 0x8594_4171_f739_67e8);
    }
}
