//! An interpreter put on the reference's machines: the plain one and the proved
//! library. These pages are a module of a test file in the package of each, which
//! names it `interpreter`.

mod runs;
mod steps;

use crate::interpreter::{self, Files, Outcome, Scalars};
use reference::machine::{Flags, Machine};
use reference::random::Random;
use reference::refusal::number_of;
use reference::setting::Setting;

/// Does something with the interpreter on a machine of the reference.
fn lend<T>(
    setting: Setting,
    machine: &mut Machine,
    act: impl FnOnce(interpreter::Setting, &mut Files, &mut Scalars) -> T,
) -> T {
    let mut scalars = Scalars {
        w: machine.w,
        pc: machine.pc,
        v: machine.flags.v,
        s: machine.flags.s,
        t: machine.flags.t,
    };
    let mut files = Files {
        z: &mut machine.z,
        p: &mut machine.p,
        zt0: &machine.zt0,
    };
    let setting = interpreter::Setting {
        vl: setting.vl,
        features: setting.features,
    };
    let answer = act(setting, &mut files, &mut scalars);
    machine.w = scalars.w;
    machine.pc = scalars.pc;
    machine.flags = Flags {
        v: scalars.v,
        s: scalars.s,
        t: scalars.t,
    };
    answer
}

/// Both do the word and must agree; the machine is left as they leave it.
fn same_step(setting: Setting, word: u32, machine: &mut Machine) -> u32 {
    let mut ours = machine.clone();
    let number = number_of(&reference::step::step(setting, word, machine));
    let our_number = lend(setting, &mut ours, |setting, files, scalars| {
        interpreter::step(setting, word, files, scalars)
    });
    assert_eq!(our_number, number, "{word:08x} under {setting:?}");
    assert!(ours == *machine, "{word:08x} under {setting:?}");
    number
}

/// Both do the words and must agree; the machine is left as they leave it.
fn same_run(setting: Setting, words: &[u32], machine: &mut Machine) -> Outcome {
    let mut ours = machine.clone();
    let expected = reference::run::run(setting, words, machine);
    let outcome = lend(setting, &mut ours, |setting, files, scalars| {
        interpreter::run(setting, words, files, scalars)
    });
    assert_eq!(
        (outcome.number, outcome.done),
        (expected.number(), expected.done),
        "{words:08x?} under {setting:?}"
    );
    assert!(ours == *machine, "{words:08x?} under {setting:?}");
    outcome
}

/// Mostly open, so that words are done.
fn any_flags(random: &mut Random) -> Flags {
    let number = if random.coin() { 7 } else { random.below(8) };
    Flags::from_number(number).unwrap()
}
