//! The C interface of include/gighull.h as it stands, with slices for the
//! pointers and lengths.
//!
//! Here files and lists may have any length and settings any numbers, and an
//! answer is a number: the library asks nothing of its arguments and answers
//! document 01's number for what it refuses. The rest of this crate is over
//! these functions; tests use them where lengths are to be wrong.

/// W12 to W15, PC and the access flags: `struct gighull_scalars`.
#[repr(C)]
#[derive(Clone, Copy, Debug, PartialEq, Eq, Hash)]
pub struct Scalars {
    pub w12: u32,
    pub w13: u32,
    pub w14: u32,
    pub w15: u32,
    pub pc: u64,
    /// V, vector access open
    pub v: bool,
    /// S, streaming on and open
    pub s: bool,
    /// T, ZT0 on and open
    pub t: bool,
}

/// How many numbers an instruction is read as and written from.
pub const FIELDS: usize = 7;

/// The archive that this crate is linked with.
pub const ARCHIVE: &str = env!("GIGHULL_ARCHIVE");

/// FNV-1a of its bytes, in hex, when it was linked.
pub const ARCHIVE_HASH: &str = env!("GIGHULL_ARCHIVE_HASH");

/// The functions declared here, by their C names.
pub const FUNCTIONS: [&str; 11] = [
    "gighull_interface_version",
    "gighull_step",
    "gighull_run",
    "gighull_decode",
    "gighull_encode",
    "gighull_conflict",
    "gighull_permitted",
    "gighull_psel_index",
    "gighull_vector",
    "gighull_predicate",
    "gighull_lines",
];

/// The header's declarations, one for one; also for whoever finds the functions
/// of another archive by their addresses.
pub mod c {
    use super::Scalars;

    unsafe extern "C" {
        pub fn gighull_interface_version() -> u32;
        #[allow(clippy::too_many_arguments)]
        pub fn gighull_step(
            z: *mut u8,
            z_len: usize,
            p: *mut u8,
            p_len: usize,
            zt: *mut u8,
            zt_len: usize,
            scalars: *mut Scalars,
            vl: u32,
            features: u32,
            word: u32,
        ) -> u32;
        #[allow(clippy::too_many_arguments)]
        pub fn gighull_run(
            z: *mut u8,
            z_len: usize,
            p: *mut u8,
            p_len: usize,
            zt: *mut u8,
            zt_len: usize,
            w12: u32,
            w13: u32,
            w14: u32,
            w15: u32,
            pc: *mut u64,
            v: bool,
            s: bool,
            t: bool,
            vl: u32,
            features: u32,
            words: *const u32,
            words_len: usize,
            done: *mut usize,
        ) -> u32;
        pub fn gighull_decode(
            vl: u32,
            features: u32,
            word: u32,
            fields: *mut u32,
            fields_len: usize,
        ) -> u32;
        pub fn gighull_encode(
            vl: u32,
            features: u32,
            fields: *const u32,
            fields_len: usize,
            word: *mut u32,
        ) -> u32;
        pub fn gighull_conflict(
            vl: u32,
            features: u32,
            first: u32,
            second: u32,
            conflict: *mut u32,
        ) -> u32;
        pub fn gighull_permitted(
            vl: u32,
            features: u32,
            words: *const u32,
            words_len: usize,
            order: *const u32,
            order_len: usize,
            permitted: *mut u32,
        ) -> u32;
        pub fn gighull_psel_index(
            vl: u32,
            size: u32,
            offset: u32,
            w: u32,
            sum: *mut u32,
            mask: *mut u32,
            index: *mut u32,
        ) -> u32;
        pub fn gighull_vector(
            file: *const u8,
            file_len: usize,
            vl: u32,
            register: u32,
            out: *mut u8,
            out_len: usize,
        ) -> usize;
        pub fn gighull_predicate(
            file: *const u8,
            file_len: usize,
            vl: u32,
            register: u32,
            out: *mut u8,
            out_len: usize,
        ) -> usize;
        pub fn gighull_lines(
            input: *const u8,
            input_len: usize,
            out: *mut u8,
            out_len: usize,
            written: *mut usize,
        ) -> usize;
    }
}

/// The version of the interface that the library has.
#[inline]
pub fn interface_version() -> u32 {
    // SAFETY: nothing is lent.
    unsafe { c::gighull_interface_version() }
}

/// One word on the lent machine: document 01's number. Where it is not 0,
/// nothing has changed.
#[inline]
pub fn step(
    z: &mut [u8],
    p: &mut [u8],
    zt: &mut [u8],
    scalars: &mut Scalars,
    vl: u32,
    features: u32,
    word: u32,
) -> u32 {
    // SAFETY: the pointers and lengths are of slices that live through the
    // call and, being lent for writing, overlap nothing else; the library
    // keeps none of them, and leaves 0 or 1 in the record's flags.
    unsafe {
        c::gighull_step(
            z.as_mut_ptr(),
            z.len(),
            p.as_mut_ptr(),
            p.len(),
            zt.as_mut_ptr(),
            zt.len(),
            scalars,
            vl,
            features,
            word,
        )
    }
}

/// A stretch of words on the lent machine: the number that it stops with, and
/// in `done` how many words were done. Of the scalars only PC is lent on.
#[inline]
#[allow(clippy::too_many_arguments)]
pub fn run(
    z: &mut [u8],
    p: &mut [u8],
    zt: &mut [u8],
    scalars: &mut Scalars,
    vl: u32,
    features: u32,
    words: &[u32],
    done: &mut usize,
) -> u32 {
    // SAFETY: as for `step`; the words are only read, and PC and `done` are
    // numbers that are lent for writing.
    unsafe {
        c::gighull_run(
            z.as_mut_ptr(),
            z.len(),
            p.as_mut_ptr(),
            p.len(),
            zt.as_mut_ptr(),
            zt.len(),
            scalars.w12,
            scalars.w13,
            scalars.w14,
            scalars.w15,
            &mut scalars.pc,
            scalars.v,
            scalars.s,
            scalars.t,
            vl,
            features,
            words.as_ptr(),
            words.len(),
            done,
        )
    }
}

/// What a word is read as: document 01's number. Where it is 0 and `fields` has
/// seven places, they hold the form's number and its fields; else `fields`
/// stays.
#[inline]
pub fn decode(vl: u32, features: u32, word: u32, fields: &mut [u32]) -> u32 {
    // SAFETY: the slice lives through the call, overlaps nothing else and is
    // not kept.
    unsafe { c::gighull_decode(vl, features, word, fields.as_mut_ptr(), fields.len()) }
}

/// The word that seven numbers are written as, in `word`, and document 01's
/// number; where that is not 0 the word is 0.
#[inline]
pub fn encode(vl: u32, features: u32, fields: &[u32], word: &mut u32) -> u32 {
    // SAFETY: the slice is only read, the word is lent for writing, both live
    // through the call and neither is kept.
    unsafe { c::gighull_encode(vl, features, fields.as_ptr(), fields.len(), word) }
}

/// Whether two words conflict, 1 or 0 in `conflict`, and document 01's number.
#[inline]
pub fn conflict(vl: u32, features: u32, first: u32, second: u32, conflict: &mut u32) -> u32 {
    // SAFETY: the number is lent for writing through the call and is not kept.
    unsafe { c::gighull_conflict(vl, features, first, second, conflict) }
}

/// Whether a stretch may be run in an order (the position in `words` of the
/// word that comes i-th, for each i), 1 or 0 in `permitted`, and document 01's
/// number.
#[inline]
pub fn permitted(vl: u32, features: u32, words: &[u32], order: &[u32], permitted: &mut u32) -> u32 {
    // SAFETY: both slices are only read, the number is lent for writing, all
    // live through the call and none is kept.
    unsafe {
        c::gighull_permitted(
            vl,
            features,
            words.as_ptr(),
            words.len(),
            order.as_ptr(),
            order.len(),
            permitted,
        )
    }
}

/// PSEL's index unit: in `sum` the low 32 bits of `w` + `offset`, in `mask` the
/// vector length divided by the size, less 1, in `index` the element that both
/// choose, and document 01's number; where that is not 0 all three are 0.
#[inline]
pub fn psel_index(
    vl: u32,
    size: u32,
    offset: u32,
    w: u32,
    sum: &mut u32,
    mask: &mut u32,
    index: &mut u32,
) -> u32 {
    // SAFETY: the three numbers are lent for writing and so overlap nothing; they
    // live through the call and are not kept.
    unsafe { c::gighull_psel_index(vl, size, offset, w, sum, mask, index) }
}

/// Copies a Z register's bytes to the start of `out`, and says how many they
/// are: 0 where the question is refused or `out` is too short.
#[inline]
pub fn vector(file: &[u8], vl: u32, register: u32, out: &mut [u8]) -> usize {
    // SAFETY: the file is only read, `out` is lent for writing and so overlaps
    // nothing else; both live through the call and neither is kept.
    unsafe {
        c::gighull_vector(
            file.as_ptr(),
            file.len(),
            vl,
            register,
            out.as_mut_ptr(),
            out.len(),
        )
    }
}

/// The same of a P register.
#[inline]
pub fn predicate(file: &[u8], vl: u32, register: u32, out: &mut [u8]) -> usize {
    // SAFETY: as for `vector`.
    unsafe {
        c::gighull_predicate(
            file.as_ptr(),
            file.len(),
            vl,
            register,
            out.as_mut_ptr(),
            out.len(),
        )
    }
}

/// Lists records to the start of `out`: how many bytes were read, and in
/// `written` how long the text is.
#[inline]
pub fn lines(input: &[u8], out: &mut [u8], written: &mut usize) -> usize {
    // SAFETY: the input is only read, `out` and `written` are lent for writing
    // and so overlap nothing else; all live through the call and none is kept.
    unsafe {
        c::gighull_lines(
            input.as_ptr(),
            input.len(),
            out.as_mut_ptr(),
            out.len(),
            written,
        )
    }
}
