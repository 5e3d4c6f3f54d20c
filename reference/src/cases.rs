//! Stretches on machines, with orders for them. The questions about runs and
//! those about permission are made from the same ones.
//!
//! Every stretch here is accepted throughout on its machine.

use crate::instruction::Form;
use crate::layout::Row;
use crate::machine::Flags;
use crate::random::Random;
use crate::rearrangement::{Permission, permitted};
use crate::roles::{
    PREDICATE_ROWS, PREDICATES_READ, PREDICATES_WRITTEN, Role, VECTOR_ROWS, VECTORS_READ,
    VECTORS_WRITTEN, apart, word_of, word_with,
};
use crate::samples::{matching_word, narrow_word};
use crate::setting::{ALL_FEATURES, Setting, VECTOR_LENGTHS, WITHOUT_SME};
use crate::start::Start;
use crate::stretches::{
    any_forbidden_order, any_permitted_order, any_setting, any_stretch, rearranged, stretch_of,
};
use crate::values::NOTED_COUNTERS;

#[derive(Clone, Debug, PartialEq, Eq)]
pub struct Case {
    pub start: Start,
    pub words: Vec<u32>,
    /// Permitted rearrangements.
    pub permitted: Vec<Vec<usize>>,
    /// Rearrangements that are not permitted.
    pub forbidden: Vec<Vec<usize>>,
}

impl Case {
    /// All rearrangements, the permitted ones first.
    pub fn orders(&self) -> impl Iterator<Item = &Vec<usize>> {
        self.permitted.iter().chain(&self.forbidden)
    }

    pub fn rearranged(&self, order: &[usize]) -> Vec<u32> {
        rearranged(&self.words, order)
    }
}

pub fn generate(random: &mut Random) -> Vec<Case> {
    let mut list = List {
        cases: Vec::new(),
        random,
    };
    list.one_register_in_two_roles();
    list.readers_of_one_register();
    list.copies();
    list.interleaved();
    list.narrowed_again();
    list.all_sixteen();
    list.every_order();
    list.any_stretches();
    list.long_stretches();
    list.selections();
    list.cases
}

struct List<'a> {
    cases: Vec<Case>,
    random: &'a mut Random,
}

impl List<'_> {
    /// Any machine, with all features at any length.
    fn start(&mut self) -> Start {
        let setting = Setting {
            vl: self.random.pick(&VECTOR_LENGTHS),
            features: ALL_FEATURES,
        };
        Start::any(self.random, setting)
    }

    fn add(
        &mut self,
        start: Start,
        words: Vec<u32>,
        permitted: &[Vec<usize>],
        forbidden: &[Vec<usize>],
    ) {
        self.cases.push(Case {
            start,
            words,
            permitted: permitted.to_vec(),
            forbidden: forbidden.to_vec(),
        });
    }

    /// Every role that writes with every role, on one register. Where PEXT2
    /// takes part this is P15 or P0, so that its pair goes around.
    fn one_register_in_two_roles(&mut self) {
        for written in PREDICATES_WRITTEN {
            for other in PREDICATES_WRITTEN.into_iter().chain(PREDICATES_READ) {
                if [written.row, other.row].contains(&Row::Pext2) {
                    self.beside_a_stranger(written, other, 0, &VECTOR_ROWS);
                    self.beside_a_stranger(written, other, 15, &VECTOR_ROWS);
                } else {
                    let register = 8 + self.random.below(8);
                    self.beside_a_stranger(written, other, register, &VECTOR_ROWS);
                }
            }
        }
        for written in VECTORS_WRITTEN {
            for other in VECTORS_WRITTEN.into_iter().chain(VECTORS_READ) {
                // A register that fits both roles, from anywhere on; there is
                // none for two different places in one LUTI4's four.
                let start = self.random.below(32);
                for register in (0..32).map(|n| (start + 5 * n) % 32) {
                    if self.beside_a_stranger(written, other, register, &PREDICATE_ROWS) {
                        break;
                    }
                }
            }
        }
    }

    /// Two words that conflict by the register, if it can have both roles,
    /// and between them one of the rows that touch no such register at all.
    /// By the toss of a coin one or the other of the two comes first.
    fn beside_a_stranger(&mut self, a: Role, b: Role, register: u32, strangers: &[Row]) -> bool {
        let first = word_with(self.random, a, register);
        let last = word_with(self.random, b, register);
        let (Some(mut first), Some(mut last)) = (first, last) else {
            return false;
        };
        if self.random.coin() {
            (first, last) = (last, first);
        }
        let row = self.random.pick(strangers);
        let stranger = matching_word(self.random, row);
        let kept = self.random.pick(&[[1, 0, 2], [0, 2, 1]]);
        let changed = self.random.pick(&[[2, 1, 0], [2, 0, 1], [1, 2, 0]]);
        let start = self.start();
        self.add(
            start,
            vec![first, stranger, last],
            &[kept.to_vec()],
            &[changed.to_vec()],
        );
        true
    }

    /// Two readers of one register that write elsewhere: any order will do.
    fn readers_of_one_register(&mut self) {
        for (roles, registers) in [(&PREDICATES_READ[..], 8..16), (&VECTORS_READ[..], 0..32)] {
            for &a in roles {
                for &b in roles {
                    let count = registers.end - registers.start;
                    let register = registers.start + self.random.below(count);
                    let (first, second) = apart(self.random, a, b, register);
                    let start = self.start();
                    self.add(start, vec![first, second], &[vec![1, 0]], &[]);
                }
            }
        }
    }

    /// Copies of one word are positions of their own. Exchanging them is not
    /// permitted, though it gives the same words again.
    fn copies(&mut self) {
        for row in Row::ALL {
            let strangers = if PREDICATE_ROWS.contains(&row) {
                VECTOR_ROWS
            } else {
                PREDICATE_ROWS
            };
            let word = matching_word(self.random, row);
            let stranger = self.random.pick(&strangers);
            let stranger = matching_word(self.random, stranger);
            let start = self.start();
            self.add(start, vec![word; 2], &[vec![0, 1]], &[vec![1, 0]]);
            let start = self.start();
            self.add(
                start,
                vec![word, stranger, word, word],
                &[vec![0, 2, 3, 1], vec![1, 0, 2, 3]],
                &[vec![2, 1, 0, 3], vec![0, 1, 3, 2], vec![3, 1, 0, 2]],
            );
        }
    }

    /// For each pair of B and T words, at every size: the halves of two
    /// registers side by side in a third, and a word that has no part in it.
    /// The other way around B would clear what T has put there.
    fn interleaved(&mut self) {
        for kind in 0..8 {
            for size in [8, 16, 32] {
                let shift = 1 + self.random.below(size);
                let [zn, zm, zd, other] = self.registers_apart();
                let bottom = family_word(2 * kind, [size, shift, zn, zd]);
                let top = family_word(2 * kind + 1, [size, shift, zm, zd]);
                let stranger = self.narrowing([size, shift, zn, other]);
                let start = self.start();
                self.add(
                    start,
                    vec![bottom, stranger, top],
                    &[vec![1, 0, 2], vec![0, 2, 1]],
                    &[vec![2, 1, 0], vec![2, 0, 1]],
                );
            }
        }
    }

    /// A register narrowed in place and again in place, then read, for each
    /// of the sixteen; the reader may not come earlier.
    fn narrowed_again(&mut self) {
        for bits in 0..16 {
            let size = self.random.pick(&[8, 16, 32]);
            let shift = 1 + self.random.below(size);
            let [zn, _, zd, _] = self.registers_apart();
            let in_place = family_word(bits, [size, shift, zn, zn]);
            let again = self.narrowing([size, 1, zn, zn]);
            let reader = self.narrowing([size, size, zn, zd]);
            let start = self.start();
            self.add(
                start,
                vec![in_place, again, reader],
                &[vec![0, 1, 2]],
                &[vec![1, 0, 2], vec![0, 2, 1], vec![2, 0, 1]],
            );
            let start = self.start();
            self.add(start, vec![in_place; 2], &[vec![0, 1]], &[vec![1, 0]]);
        }
    }

    /// All sixteen in one stretch: from one register into sixteen others, from
    /// sixteen into one, and as a chain.
    fn all_sixteen(&mut self) {
        for vl in VECTOR_LENGTHS {
            let size = self.random.pick(&[8, 16, 32]);
            let apart: Vec<u32> = (0..16)
                .map(|bits| family_word(bits, [size, size, 31, bits]))
                .collect();
            let into_one: Vec<u32> = (0..16)
                .map(|bits| family_word(bits, [size, 1, bits, 31]))
                .collect();
            let chain: Vec<u32> = (0..16)
                .map(|bits| family_word(bits, [size, 1, bits, bits + 1]))
                .collect();
            for words in [apart, into_one, chain] {
                let mut start = self.start();
                start.setting.vl = vl;
                self.add_any_orders(start, words);
            }
        }
    }

    /// Any of the sixteen, with size, shift, Zn and Zd.
    fn narrowing(&mut self, fields: [u32; 4]) -> u32 {
        family_word(self.random.below(16), fields)
    }

    /// Z registers of which no two are one.
    fn registers_apart(&mut self) -> [u32; 4] {
        let first = self.random.below(32);
        [0, 9, 14, 27].map(|distance| (first + distance) % 32)
    }

    /// All twenty-four orders of four words: where no two conflict, where all
    /// do, where they are two pairs, and of any words.
    fn every_order(&mut self) {
        let free: Vec<u32> = (0..4).map(|zd| self.narrowing([8, 8, 30, zd])).collect();
        let all: Vec<u32> = (0..4).map(|zn| self.narrowing([8, 8, zn, 30])).collect();
        // P1 is written and then read, Z1 is read and written and then written.
        let pairs = vec![0x2520_7011, 0x4528_3821, 0x252c_4020, 0xc08a_9000];
        let any = stretch_of(self.random, &Row::ALL, 4);
        for words in [free, all, pairs, any] {
            let start = self.start();
            let (kept, changed): (Vec<Vec<usize>>, Vec<Vec<usize>>) =
                orders_of_four().into_iter().partition(|order| {
                    permitted(start.setting, &words, order) == Permission::Permitted
                });
            self.add(start, words, &kept, &changed);
        }
    }

    /// Every length from 2 to 12 words at every vector length, under any
    /// features, with something chosen in the files now and then.
    fn any_stretches(&mut self) {
        for vl in VECTOR_LENGTHS {
            for length in 2..=12 {
                self.any_stretch(vl, length);
                self.any_stretch(vl, length);
            }
        }
    }

    fn any_stretch(&mut self, vl: u32, length: usize) {
        let (setting, words) = loop {
            let features = any_setting(self.random).features;
            let setting = Setting { vl, features };
            let words = any_stretch(self.random, setting, length);
            if !words.is_empty() {
                break (setting, words);
            }
        };
        let mut start = Start::any(self.random, setting);
        if self.random.coin() {
            let counter = self.random.pick(&NOTED_COUNTERS);
            start.set_predicate(8 + self.random.below(8), 0, counter);
            let (register, byte) = (self.random.below(32), self.random.below(vl / 8 - 3));
            start.set_vector(register, byte, self.random.next_u32());
        }
        self.add_any_orders(start, words);
    }

    /// One permitted order, sometimes two, and one that is not permitted.
    fn add_any_orders(&mut self, start: Start, words: Vec<u32>) {
        let setting = start.setting;
        let mut kept = vec![any_permitted_order(self.random, setting, &words)];
        if words.len() <= 12 && self.random.coin() {
            kept.push(any_permitted_order(self.random, setting, &words));
        }
        let changed = any_forbidden_order(self.random, setting, &words);
        self.add(start, words, &kept, changed.as_slice());
    }

    fn long_stretches(&mut self) {
        for length in [40, 100, 255, 256] {
            let start = self.start();
            let words = stretch_of(self.random, &Row::ALL, length);
            self.add_any_orders(start, words);
        }
    }

    /// PSEL of every size at every length, with SVE2p1 alone and only V open,
    /// by elements that are all true and by elements that are all false.
    fn selections(&mut self) {
        for vl in VECTOR_LENGTHS {
            for size in [8, 16, 32, 64] {
                let mut start = self.start();
                start.setting = Setting {
                    vl,
                    features: WITHOUT_SME,
                };
                start.flags = Flags {
                    v: true,
                    s: false,
                    t: false,
                };
                let number = self.random.below(8);
                let all_true = (vl / size).ilog2().is_multiple_of(2);
                let counter = if all_true { 0x8001 } else { 0x0001 };
                start.set_predicate(8 + number, 0, counter);
                let words = self.selection(size, number);
                self.add_any_orders(start, words);
            }
        }
    }

    /// A mask is extracted from the counter in P(8 + number), by its element
    /// another register is copied, and the copy is read as a counter, as a
    /// mask and whole. A narrowing word has no part in it.
    fn selection(&mut self, size: u32, number: u32) -> Vec<u32> {
        let [counter, source, copy] = [0, 2, 5].map(|distance| 8 + (number + distance) % 8);
        let [mask, first, second, third] = [0, 1, 3, 6].map(|distance| (number + distance) % 8);
        vec![
            self.extract(size, counter, mask),
            self.select(size, [source, mask, copy]),
            self.extract(size, copy, first),
            self.select(size, [counter, copy, second]),
            self.select(size, [copy, mask, third]),
            matching_word(self.random, Row::Narrow),
        ]
    }

    /// PEXT of any one portion.
    fn extract(&mut self, size: u32, counter: u32, pd: u32) -> u32 {
        let portion = self.random.below(4);
        word_of(Form::Pext, [size, portion, 1, counter, pd, 0])
    }

    /// PSEL at any index, with Pn, Pm and Pd.
    fn select(&mut self, size: u32, [pn, pm, pd]: [u32; 3]) -> u32 {
        let offset = self.random.below(128 / size);
        let index = 12 + self.random.below(4);
        word_of(Form::Psel, [size, offset, index, pn, pm, pd])
    }
}

/// The narrowing word with these four bits and size, shift, Zn and Zd.
fn family_word(bits: u32, [size, shift, zn, zd]: [u32; 4]) -> u32 {
    narrow_word(bits, 2 * size - shift, zn, zd)
}

fn orders_of_four() -> Vec<Vec<usize>> {
    let mut orders = vec![vec![]];
    for position in 0..4 {
        let mut longer = Vec::new();
        for order in &orders {
            for place in 0..=position {
                let mut order = order.clone();
                order.insert(place, position);
                longer.push(order);
            }
        }
        orders = longer;
    }
    orders
}
