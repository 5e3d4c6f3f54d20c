//! Which registers an instruction reads and writes: document 01's table, for
//! telling why two words conflict. Whether they do is the library's answer.

use gighull::Instruction;

use crate::register::Register::{self, P, W, Z, Zt0};

#[derive(Clone, Debug, PartialEq, Eq)]
pub struct Touch {
    pub reads: Vec<Register>,
    pub writes: Vec<Register>,
}

pub fn touch(instruction: Instruction) -> Touch {
    let (reads, writes) = match instruction {
        Instruction::Pext {
            portions,
            counter,
            pd,
            ..
        } => {
            let destinations = (0..portions).map(|portion| P((pd + portion) % 16));
            (vec![P(counter)], destinations.collect())
        }
        Instruction::Psel {
            index, pn, pm, pd, ..
        } => (vec![P(pn), P(pm), W(index)], vec![P(pd)]),
        Instruction::Luti4c { zn, zd, .. } => {
            (vec![Z(zn), Zt0], (0..4).map(|r| Z(zd + r)).collect())
        }
        Instruction::Luti4s { zn, zd, .. } => {
            (vec![Z(zn), Zt0], (0..4).map(|r| Z(zd + 4 * r)).collect())
        }
        // The even elements stay.
        Instruction::Narrow {
            narrowing, zn, zd, ..
        } if narrowing.t() => (vec![Z(zn), Z(zd)], vec![Z(zd)]),
        Instruction::Narrow { zn, zd, .. } => (vec![Z(zn)], vec![Z(zd)]),
    };
    Touch { reads, writes }
}

/// Why two instructions conflict: a register that one writes and the other
/// reads or writes, with what each does. The names are those that the two are
/// to be called by.
pub fn reason(first: (&str, &Touch), second: (&str, &Touch)) -> Option<String> {
    let reads_or_writes = |touch: &Touch, register: &Register| match (
        touch.reads.contains(register),
        touch.writes.contains(register),
    ) {
        (true, true) => Some("reads and writes"),
        (true, false) => Some("reads"),
        (false, true) => Some("writes"),
        (false, false) => None,
    };
    let meets = |(one, its): (&str, &Touch), (other, touch): (&str, &Touch)| {
        its.writes.iter().find_map(|register| {
            let how = reads_or_writes(touch, register)?;
            Some(format!("{one} writes {register} and {other} {how} it"))
        })
    };
    meets(first, second).or_else(|| meets(second, first))
}

/// `z0 and zt0`, `nothing`; each register once.
pub fn listed(registers: &[Register]) -> String {
    let mut names: Vec<String> = Vec::new();
    for name in registers.iter().map(Register::to_string) {
        if !names.contains(&name) {
            names.push(name);
        }
    }
    match names.as_slice() {
        [] => "nothing".to_string(),
        [one] => one.clone(),
        [start @ .., last] => format!("{} and {last}", start.join(", ")),
    }
}

#[cfg(test)]
mod tests {
    use super::*;
    use gighull::{Setting, decode};
    use reference::random::Random;
    use reference::setting::FULL;
    use reference::stretches::any_stretch;

    fn of_reference(registers: Vec<reference::touch::Register>) -> Vec<Register> {
        use reference::touch::Register as Theirs;
        let ours = |register| match register {
            Theirs::Z(k) => Z(k),
            Theirs::P(k) => P(k),
            Theirs::W(k) => W(k),
            Theirs::Zt0 => Zt0,
        };
        registers.into_iter().map(ours).collect()
    }

    #[test]
    fn the_table_is_the_reference_s() {
        let words = any_stretch(&mut Random::new(71), FULL, 2000);
        let mut touches = Vec::new();
        for &word in &words {
            let ours = touch(decode(Setting::FULL, word).unwrap());
            let theirs = reference::touch::touch(reference::decode::decode(FULL, word).unwrap());
            assert_eq!(ours.reads, of_reference(theirs.reads));
            assert_eq!(ours.writes, of_reference(theirs.writes));
            touches.push(ours);
        }
        let mut found = [0; 2];
        for place in 1..words.len() {
            let (a, b) = (words[place - 1], words[place]);
            let conflict = reference::touch::conflict(FULL, a, b).unwrap();
            let reason = reason(("a", &touches[place - 1]), ("b", &touches[place]));
            assert_eq!(reason.is_some(), conflict, "{a:08x} {b:08x}");
            found[usize::from(conflict)] += 1;
        }
        assert!(found.iter().all(|&count| count > 100), "{found:?}");
    }
}
