//! The proved library's step and run against the reference, by the tests that
//! it shares with the plain interpreter.

#[path = "../../against-reference/mod.rs"]
mod against_reference;

/// The library with that one's interface.
mod interpreter {
    use gighull::ffi;

    pub use gighull::Setting;

    pub struct Files<'a> {
        pub z: &'a mut [u8],
        pub p: &'a mut [u8],
        pub zt0: &'a [u8],
    }

    pub struct Scalars {
        pub w: [u32; 4],
        pub pc: u64,
        pub v: bool,
        pub s: bool,
        pub t: bool,
    }

    pub struct Outcome {
        pub number: u32,
        pub done: usize,
    }

    pub fn step(setting: Setting, word: u32, files: &mut Files, scalars: &mut Scalars) -> u32 {
        let Setting { vl, features } = setting;
        lend(files, scalars, |z, p, zt0, scalars| {
            ffi::step(z, p, zt0, scalars, vl, features, word)
        })
    }

    pub fn run(
        setting: Setting,
        words: &[u32],
        files: &mut Files,
        scalars: &mut Scalars,
    ) -> Outcome {
        let Setting { vl, features } = setting;
        let mut done = usize::MAX;
        let number = lend(files, scalars, |z, p, zt0, scalars| {
            ffi::run(z, p, zt0, scalars, vl, features, words, &mut done)
        });
        Outcome { number, done }
    }

    /// The library could write to ZT0, but no word does.
    fn lend(
        files: &mut Files,
        scalars: &mut Scalars,
        act: impl FnOnce(&mut [u8], &mut [u8], &mut [u8], &mut gighull::Scalars) -> u32,
    ) -> u32 {
        let [w12, w13, w14, w15] = scalars.w;
        let Scalars { pc, v, s, t, .. } = *scalars;
        let mut zt0 = files.zt0.to_vec();
        let mut lent = gighull::Scalars {
            w12,
            w13,
            w14,
            w15,
            pc,
            v,
            s,
            t,
        };
        let number = act(files.z, files.p, &mut zt0, &mut lent);
        assert_eq!(zt0, files.zt0);
        *scalars = Scalars {
            w: [lent.w12, lent.w13, lent.w14, lent.w15],
            pc: lent.pc,
            v: lent.v,
            s: lent.s,
            t: lent.t,
        };
        number
    }
}
