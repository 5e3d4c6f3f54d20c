//! Document 01's table of what a word touches, with request 1's T words,
//! written out once more by masks.

use reference::decode::decode;
use reference::layout::Row;
use reference::setting::FULL;

/// What a defined word reads and writes: Z registers in the low 32 bits, P
/// registers above them, W and ZT0 not at all, since nothing writes them.
pub fn masks(word: u32) -> (u64, u64) {
    let z = |register: u32| 1u64 << (register & 31);
    let p = |register: u32| 1u64 << (32 + (register & 15));
    let found = decode(FULL, word).unwrap();
    match found.row() {
        Row::Pext1 => (p(8 | word >> 5 & 7), p(word)),
        Row::Pext2 => (p(8 | word >> 5 & 7), p(word) | p(word + 1)),
        Row::Psel => (p(word >> 10) | p(word >> 5), p(word)),
        Row::Luti4c => (z(word >> 5), 15 << (word & 28)),
        Row::Luti4s => (z(word >> 5), 0x1111 << (word & 19)),
        // T, bit 10, also reads what it writes.
        Row::Narrow if word & 0x400 != 0 => (z(word >> 5) | z(word), z(word)),
        Row::Narrow => (z(word >> 5), z(word)),
    }
}

/// Whether two defined words conflict.
pub fn conflict(first: u32, second: u32) -> bool {
    let (first_reads, first_writes) = masks(first);
    let (second_reads, second_writes) = masks(second);
    first_writes & (second_reads | second_writes) != 0
        || second_writes & (first_reads | first_writes) != 0
}
