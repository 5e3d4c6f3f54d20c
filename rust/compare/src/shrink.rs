//! A smaller case that still differs.
//!
//! Each pass tries simpler values in one part of the case and keeps those with
//! which it still differs; passes are repeated until none keeps anything. A
//! kept value is always simpler (fewer words, fewer bits, a smaller number) or
//! more usual (a file of the right length, an open flag, all features), so that
//! this ends.

use reference::machine::{Flags, Machine, P_FILE_BYTES, Z_FILE_BYTES, ZT0_FILE_BYTES};
use reference::setting::{Setting, VECTOR_LENGTHS};

use crate::case::Case;
use crate::draw::ALLOWED_FEATURES;

pub fn shrink(case: &Case, differs: &dyn Fn(&Case) -> bool) -> Case {
    let mut shrinker = Shrinker {
        case: case.clone(),
        differs,
    };
    loop {
        let before = shrinker.case.clone();
        shrinker.lengths();
        shrinker.lists();
        shrinker.settings();
        shrinker.scalars();
        for file in 0..shrinker.files().len() {
            shrinker.zero_bytes(file);
        }
        shrinker.numbers();
        for file in 0..shrinker.files().len() {
            shrinker.clear_bits(file);
        }
        if shrinker.case == before {
            return before;
        }
    }
}

struct Shrinker<'a> {
    case: Case,
    differs: &'a dyn Fn(&Case) -> bool,
}

impl Shrinker<'_> {
    /// Keeps the change if the case still differs.
    fn attempt(&mut self, change: impl FnOnce(&mut Case)) -> bool {
        let mut changed = self.case.clone();
        change(&mut changed);
        if changed == self.case || !(self.differs)(&changed) {
            return false;
        }
        self.case = changed;
        true
    }

    /// Files of the right lengths; a shorter input; the usual room.
    fn lengths(&mut self) {
        for file in 0..self.files().len() {
            if let Some(length) = right_length(&self.case, file) {
                self.attempt(|case| files_of(case)[file].resize(length, 0));
            }
        }
        if let Case::Lines { input, .. } = &self.case {
            for length in 0..input.len() {
                if self.attempt(|case| files_of(case)[0].truncate(length)) {
                    break;
                }
            }
        }
        let Some(room) = room_of(&mut self.case).copied() else {
            return;
        };
        let usual = if matches!(self.case, Case::Decode { .. }) {
            7
        } else {
            19 * 64
        };
        if room != usual && self.attempt(|case| set_room(case, usual)) {
            return;
        }
        for smaller in 0..room.min(600) {
            if room != usual && self.attempt(|case| set_room(case, smaller)) {
                return;
            }
        }
    }

    /// Leaves out words, many at a time first. Of a stretch with an order, the
    /// position is left out of the order too.
    fn lists(&mut self) {
        let mut chunk = self.word_count();
        while chunk > 0 {
            let mut from = 0;
            while from < self.word_count() {
                let to = (from + chunk).min(self.word_count());
                if !self.attempt(|case| leave_out(case, from, to)) {
                    from = to;
                }
            }
            chunk /= 2;
        }
        // An order nearer to the stretch's own, and without what is too much.
        if let Case::Permitted { order, .. } = &self.case {
            for place in (0..order.len()).rev() {
                self.attempt(|case| {
                    if let Case::Permitted { order, .. } = case
                        && place < order.len()
                    {
                        order.remove(place);
                    }
                });
            }
            let length = match &self.case {
                Case::Permitted { order, .. } => order.len(),
                _ => 0,
            };
            for place in 1..length {
                self.attempt(|case| {
                    if let Case::Permitted { order, .. } = case
                        && order[place - 1] > order[place]
                    {
                        order.swap(place - 1, place);
                    }
                });
            }
        }
    }

    fn word_count(&mut self) -> usize {
        match &self.case {
            Case::Run { words, .. } | Case::Permitted { words, .. } => words.len(),
            _ => 0,
        }
    }

    fn settings(&mut self) {
        for vl in VECTOR_LENGTHS {
            if vl_of(&mut self.case).is_none_or(|now| *now == vl)
                || self.attempt(|case| *vl_of(case).unwrap() = vl)
            {
                break;
            }
        }
        for features in ALLOWED_FEATURES.into_iter().rev() {
            if setting_of(&mut self.case).is_none_or(|now| now.features == features)
                || self.attempt(|case| setting_of(case).unwrap().features = features)
            {
                break;
            }
        }
        // Of numbers that are not allowed, as few bits as may be.
        for bit in (0..32).rev() {
            if vl_of(&mut self.case).is_some_and(|vl| !VECTOR_LENGTHS.contains(vl)) {
                self.attempt(|case| *vl_of(case).unwrap() &= !(1 << bit));
            }
            let features = setting_of(&mut self.case).map(|setting| setting.features);
            if features.is_some_and(|features| !ALLOWED_FEATURES.contains(&features)) {
                self.attempt(|case| setting_of(case).unwrap().features &= !(1 << bit));
            }
        }
    }

    fn scalars(&mut self) {
        if machine_of(&mut self.case).is_none() {
            return;
        }
        self.attempt(|case| machine_of(case).unwrap().flags = Flags::OPEN);
        for open in [4, 2, 1] {
            self.attempt(|case| {
                let machine = machine_of(case).unwrap();
                let number = machine.flags.number() | open;
                machine.flags = Flags::from_number(number).unwrap();
            });
        }
        self.attempt(|case| machine_of(case).unwrap().pc = 0);
        for bit in 0..64 {
            self.attempt(|case| machine_of(case).unwrap().pc &= !(1 << bit));
        }
    }

    /// Numbers and words: 0 at once, else without each of their bits.
    fn numbers(&mut self) {
        for place in 0..numbers_of(&mut self.case).len() {
            if self.attempt(|case| *numbers_of(case)[place] = 0) {
                continue;
            }
            for bit in (0..32).rev() {
                self.attempt(|case| *numbers_of(case)[place] &= !(1 << bit));
            }
        }
    }

    fn files(&mut self) -> Vec<&mut Vec<u8>> {
        files_of(&mut self.case)
    }

    /// Halves, quarters and so on down to single bytes.
    fn zero_bytes(&mut self, file: usize) {
        let length = self.files()[file].len();
        let mut chunk = length.next_power_of_two();
        while chunk > 0 {
            for from in (0..length).step_by(chunk) {
                let to = (from + chunk).min(length);
                if self.files()[file][from..to].iter().any(|&byte| byte != 0) {
                    self.attempt(|case| files_of(case)[file][from..to].fill(0));
                }
            }
            chunk /= 2;
        }
    }

    fn clear_bits(&mut self, file: usize) {
        for at in 0..self.files()[file].len() {
            for bit in (0..8).rev() {
                if self.files()[file][at] >> bit & 1 == 1 {
                    self.attempt(|case| files_of(case)[file][at] &= !(1 << bit));
                }
            }
        }
    }
}

fn machine_of(case: &mut Case) -> Option<&mut Machine> {
    match case {
        Case::Step { machine, .. } | Case::Run { machine, .. } => Some(machine),
        _ => None,
    }
}

fn setting_of(case: &mut Case) -> Option<&mut Setting> {
    match case {
        Case::Decode { setting, .. }
        | Case::Encode { setting, .. }
        | Case::Step { setting, .. }
        | Case::Run { setting, .. }
        | Case::Conflict { setting, .. }
        | Case::Permitted { setting, .. } => Some(setting),
        Case::Vector(_) | Case::Predicate(_) | Case::Lines { .. } | Case::Index(_) => None,
    }
}

fn vl_of(case: &mut Case) -> Option<&mut u32> {
    match case {
        Case::Vector(request) | Case::Predicate(request) => Some(&mut request.vl),
        Case::Index(question) => Some(&mut question.vl),
        _ => setting_of(case).map(|setting| &mut setting.vl),
    }
}

fn room_of(case: &mut Case) -> Option<&mut usize> {
    match case {
        Case::Decode { room, .. } | Case::Lines { room, .. } => Some(room),
        Case::Vector(request) | Case::Predicate(request) => Some(&mut request.room),
        _ => None,
    }
}

fn set_room(case: &mut Case, to: usize) {
    if let Some(room) = room_of(case) {
        *room = to;
    }
}

fn files_of(case: &mut Case) -> Vec<&mut Vec<u8>> {
    match case {
        Case::Step { machine, .. } | Case::Run { machine, .. } => {
            vec![&mut machine.z, &mut machine.p, &mut machine.zt0]
        }
        Case::Vector(request) | Case::Predicate(request) => vec![&mut request.file],
        Case::Lines { input, .. } => vec![input],
        _ => Vec::new(),
    }
}

fn right_length(case: &Case, file: usize) -> Option<usize> {
    match case {
        Case::Step { .. } | Case::Run { .. } => {
            Some([Z_FILE_BYTES, P_FILE_BYTES, ZT0_FILE_BYTES][file])
        }
        Case::Vector(_) => Some(Z_FILE_BYTES),
        Case::Predicate(_) => Some(P_FILE_BYTES),
        _ => None,
    }
}

fn numbers_of(case: &mut Case) -> Vec<&mut u32> {
    match case {
        Case::Decode { word, .. } => vec![word],
        Case::Encode { numbers, .. } => numbers.iter_mut().collect(),
        Case::Step { word, machine, .. } => {
            let mut numbers = vec![word];
            numbers.extend(&mut machine.w);
            numbers
        }
        Case::Run { words, machine, .. } => words.iter_mut().chain(&mut machine.w).collect(),
        Case::Conflict { first, second, .. } => vec![first, second],
        Case::Permitted { words, .. } => words.iter_mut().collect(),
        Case::Vector(request) | Case::Predicate(request) => vec![&mut request.register],
        Case::Lines { .. } => Vec::new(),
        Case::Index(question) => {
            vec![&mut question.size, &mut question.offset, &mut question.w]
        }
    }
}

fn leave_out(case: &mut Case, from: usize, to: usize) {
    match case {
        Case::Run { words, .. } => {
            words.drain(from..to);
        }
        Case::Permitted { words, order, .. } => {
            words.drain(from..to);
            let left_out = from as u32..to as u32;
            order.retain(|position| !left_out.contains(position));
            for position in order {
                // Those that are no position stay what they are.
                if *position >= left_out.end && (*position as usize) < words.len() + (to - from) {
                    *position -= left_out.end - left_out.start;
                }
            }
        }
        _ => {}
    }
}

#[cfg(test)]
mod tests {
    use super::*;
    use crate::case::Kind;
    use crate::draw::{draw, random_of};

    /// "Differs" where a bit of Z5 is set and the word has some bits: nothing
    /// else may be left.
    #[test]
    fn only_what_matters_is_left() {
        let differs = |case: &Case| match case {
            Case::Step { machine, word, .. } => {
                machine.z.get(1283).is_some_and(|byte| byte & 4 != 0) && word & 0x30 == 0x30
            }
            _ => false,
        };
        let mut found = 0;
        for index in 0..200 {
            let case = draw(Kind::Step, &mut random_of(3, Kind::Step, index));
            if differs(&case) {
                found += 1;
                assert_eq!(
                    shrink(&case, &differs).to_string(),
                    "step vl=128 features=31 word=00000030 z=8192@1283=04 p=512 zt=64 \
                     w=0,0,0,0 pc=0 flags=vst"
                );
            }
        }
        assert!(found > 5, "{found}");
    }

    #[test]
    fn words_are_left_out_with_their_positions() {
        // Two copies of one word, the later first.
        let differs = |case: &Case| match case {
            Case::Permitted { words, order, .. } => order.windows(2).any(|pair| {
                let word = |place: u32| words.get(place as usize);
                pair[0] > pair[1] && word(pair[0]).is_some() && word(pair[0]) == word(pair[1])
            }),
            _ => false,
        };
        let mut found = 0;
        for index in 0..3000 {
            let case = draw(Kind::Permitted, &mut random_of(3, Kind::Permitted, index));
            if differs(&case) {
                found += 1;
                let Case::Permitted { words, order, .. } = shrink(&case, &differs) else {
                    panic!("another kind");
                };
                assert_eq!((words.len(), order), (2, vec![1, 0]));
            }
        }
        assert!(found > 5, "{found}");
    }

    #[test]
    fn every_kind_ends() {
        for kind in Kind::ALL {
            for index in 0..10 {
                let case = draw(kind, &mut random_of(4, kind, index));
                let smallest = shrink(&case, &|_| true);
                assert_eq!(shrink(&smallest, &|_| true), smallest);
            }
        }
    }
}
