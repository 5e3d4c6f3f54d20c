//! Whether the step questions ask about PSEL what document 02, request 2,
//! needs, for several seeds, and whether the slips that lie near would show.
//! Registers are looked up in the machines themselves.

use std::collections::HashSet;

use reference::decode::decode;
use reference::instruction::Instruction;
use reference::setting::{FULL, VECTOR_LENGTHS};
use reference::step::step;
use reference::step_question::StepQuestion;
use reference::step_questions::generate;

const SEEDS: [u64; 2] = [1, u64::MAX];
const SIZES: [u32; 4] = [8, 16, 32, 64];

/// A question about a PSEL word, and what it starts from.
struct Selection {
    question: StepQuestion,
    vl: u32,
    size: u32,
    offset: u32,
    /// what its W holds
    base: u32,
    /// the numbers of Pn, Pm and Pd
    registers: [u32; 3],
    /// their whole slots
    pn: Vec<bool>,
    pm: Vec<bool>,
    pd: Vec<bool>,
}

impl Selection {
    fn of(question: StepQuestion) -> Option<Selection> {
        let Ok(Instruction::Psel {
            size,
            offset,
            index,
            pn,
            pm,
            pd,
        }) = decode(FULL, question.word)
        else {
            return None;
        };
        let machine = question.start.machine();
        if !machine.has_right_lengths() || !question.start.setting.is_allowed() {
            return None;
        }
        let slot = |register| machine.predicate(register, 2048);
        Some(Selection {
            question,
            vl: question.start.setting.vl,
            size,
            offset,
            base: question.start.w[index as usize - 12],
            registers: [pn, pm, pd],
            pn: slot(pn),
            pm: slot(pm),
            pd: slot(pd),
        })
    }

    fn number(&self) -> u32 {
        self.question.answer()[0]
    }

    fn pl(&self) -> usize {
        self.vl as usize / 8
    }

    /// The bits from one element's to the next one's.
    fn distance(&self) -> usize {
        self.size as usize / 8
    }

    fn sum(&self) -> u64 {
        u64::from(self.base) + u64::from(self.offset)
    }

    /// The bit that stands for the element at this sum.
    fn bit_at(&self, sum: u64) -> usize {
        (sum % u64::from(self.vl / self.size)) as usize * self.distance()
    }

    fn bit(&self) -> usize {
        self.bit_at(self.sum())
    }

    fn element(&self) -> bool {
        self.pm[self.bit()]
    }

    /// Pd's slot afterwards, where this is the element: the request's words.
    fn result(&self, element: bool) -> Vec<bool> {
        let mut slot = self.pd.clone();
        for (b, bit) in slot.iter_mut().enumerate().take(self.pl()) {
            *bit = element && self.pn[b];
        }
        slot
    }

    /// Whether the element's bit differs from all of Pm that could be chosen:
    /// the 64 bits around it and sixteen at the other end.
    fn is_alone(&self) -> bool {
        let (pl, bit) = (self.pl(), self.bit());
        let other_end = if bit < 64 { pl - 16..pl } else { 0..16 };
        (0..pl)
            .filter(|&b| b != bit && (b / 64 == bit / 64 || other_end.contains(&b)))
            .all(|b| self.pm[b] != self.element())
    }

    /// Whether Pn has 64 bits in a row, or PL, that are set just so.
    fn copies(&self, wanted: impl Fn(usize) -> bool) -> bool {
        self.pn[..self.pl()]
            .chunks(64)
            .any(|part| part.iter().enumerate().all(|(b, &bit)| bit == wanted(b)))
    }
}

fn selections(seed: u64) -> Vec<Selection> {
    generate(seed)
        .into_iter()
        .filter_map(Selection::of)
        .collect()
}

/// Those that are done.
fn done(seed: u64) -> Vec<Selection> {
    let mut list = selections(seed);
    list.retain(|selection| selection.number() == 0);
    list
}

/// Whether some of them is so, at each size and length.
fn at_every_size_and_length(list: &[Selection], what: &str, with: impl Fn(&Selection) -> bool) {
    for vl in VECTOR_LENGTHS {
        for size in SIZES {
            let found = list.iter().any(|s| s.vl == vl && s.size == size && with(s));
            assert!(found, "{what} at {size} and {vl}");
        }
    }
}

/// All that are done, and all they leave, against the request's words.
#[test]
fn each_is_done_as_the_request_says() {
    for seed in SEEDS {
        for selection in done(seed) {
            let question = selection.question;
            let mut left = question.start.machine();
            let mut expected = left.clone();
            step(question.start.setting, question.word, &mut left).unwrap();
            let [.., pd] = selection.registers;
            expected.set_predicate(pd, &selection.result(selection.element()));
            expected.pc = expected.pc.wrapping_add(4);
            assert_eq!(left, expected);
        }
    }
}

/// SVE2p1 without SME at every size and length, with V open and closed; SVE2
/// alone, SME alone, and both with and without SVE2p1 at every size.
#[test]
fn under_every_feature_it_hangs_on() {
    for seed in SEEDS {
        let selections = selections(seed);
        let is = |s: &Selection, features: u32, flags: u32, number: u32| {
            let start = s.question.start;
            start.setting.features == features
                && start.flags.number() == flags
                && s.number() == number
        };
        for element in [true, false] {
            at_every_size_and_length(&selections, "open", |s| {
                is(s, 3, 1, 0) && s.element() == element
            });
        }
        at_every_size_and_length(&selections, "closed", |s| is(s, 3, 6, 4));
        for size in SIZES {
            for (features, open, closed) in [(1, 3, 3), (3, 0, 4), (4, 0, 4), (5, 0, 4), (7, 0, 4)]
            {
                for (flags, number) in [(1, open), (6, closed)] {
                    let asked = selections
                        .iter()
                        .any(|s| s.size == size && is(s, features, flags, number));
                    assert!(asked, "{size} {features} {flags}");
                }
            }
        }
    }
}

/// Pn all ones and all but the elements, with the element true and false; Pm
/// with only the bits between elements; and a Pd that must be cleared.
#[test]
fn bits_between_elements() {
    for seed in SEEDS {
        let done = done(seed);
        for element in [true, false] {
            let is = |s: &Selection| {
                let apart = !s.registers[..2].contains(&s.registers[2]);
                s.element() == element && apart && s.pd[..s.pl()].contains(&true)
            };
            at_every_size_and_length(&done, "all ones", |s| is(s) && s.copies(|_| true));
            at_every_size_and_length(&done, "only between", |s| {
                is(s) && s.copies(|b| b % s.distance() != 0)
            });
        }
        // No bit of Pm between elements makes the element true.
        at_every_size_and_length(&done, "only between in Pm", |s| {
            let part = s.bit() / 64 * 64;
            (part..s.pl().min(part + 64)).all(|b| s.pm[b] == (b % s.distance() != 0))
        });
    }
}

/// Pd is Pn, Pd is Pm, Pn is Pm, and all three are one.
#[test]
fn shared_registers() {
    for seed in SEEDS {
        let done = done(seed);
        for element in [true, false] {
            for shape in [
                [true, false, false],
                [false, true, false],
                [false, false, true],
                [true; 3],
            ] {
                at_every_size_and_length(&done, "shared registers", |s| {
                    let [pn, pm, pd] = s.registers;
                    [pd == pn, pd == pm, pn == pm] == shape && s.element() == element
                });
            }
        }
    }
}

/// Sums at, just below and just above 2^32 and from W = ffffffff on, for
/// several offsets, with an element that stands alone in Pm.
#[test]
fn sums_around_the_wrap() {
    for seed in SEEDS {
        let mut done = done(seed);
        done.retain(Selection::is_alone);
        for element in [true, false] {
            for vl in VECTOR_LENGTHS {
                for size in SIZES {
                    let asked: HashSet<(u32, u64)> = done
                        .iter()
                        .filter(|s| s.vl == vl && s.size == size && s.element() == element)
                        .map(|s| (s.offset, s.sum()))
                        .collect();
                    let last = 128 / size - 1;
                    for offset in [0, 1, last / 2 + 1, last] {
                        let far = u64::from(u32::MAX) + u64::from(offset);
                        let elements = u64::from(vl / size);
                        for sum in [(1 << 32) - 1, 1 << 32, (1 << 32) + 1, far, elements] {
                            // No W gives a greater sum with this offset.
                            let asked = sum > far || asked.contains(&(offset, sum));
                            assert!(asked, "{vl} {size} {offset} {sum:x}");
                        }
                    }
                }
            }
        }
    }
}

/// What a slip leaves in Pd's slot.
type Slip = fn(&Selection) -> Vec<bool>;

/// Where a slip is one: by the element size and the length.
type Where = fn(u32, u32) -> bool;

const SLIPS: [(&str, Slip, Where); 12] = [
    (
        "only elements are copied, as in the withdrawn draft",
        |s| {
            let mut slot = s.result(s.element());
            for b in (0..s.pl()).filter(|b| b % s.distance() != 0) {
                slot[b] = false;
            }
            slot
        },
        |size, _| size > 8,
    ),
    (
        "Pd is left where the element is false",
        |s| {
            if s.element() {
                s.result(true)
            } else {
                s.pd.clone()
            }
        },
        |_, _| true,
    ),
    (
        "only elements are cleared",
        |s| {
            let mut slot = s.result(s.element());
            for b in (0..s.pl()).filter(|b| b % s.distance() != 0) {
                slot[b] |= !s.element() && s.pd[b];
            }
            slot
        },
        |size, _| size > 8,
    ),
    (
        "a bit beside the element's makes it true",
        |s| s.result(s.pm[s.bit()..s.bit() + s.distance()].contains(&true)),
        |size, _| size > 8,
    ),
    (
        "Pm is copied where Pn's element is true",
        |s| {
            let mut slot = s.pd.clone();
            for (b, bit) in slot.iter_mut().enumerate().take(s.pl()) {
                *bit = s.pn[s.bit()] && s.pm[b];
            }
            slot
        },
        |_, _| true,
    ),
    (
        "Pd is cleared before Pn and Pm are read",
        |s| {
            let [pn, pm, pd] = s.registers;
            s.result(s.element() && pd != pn && pd != pm)
        },
        |_, _| true,
    ),
    (
        "the sum is saturated",
        |s| s.result(s.pm[s.bit_at(s.sum().min(u64::from(u32::MAX)))]),
        |_, _| true,
    ),
    (
        "the offset is not added",
        |s| s.result(s.pm[s.bit_at(u64::from(s.base))]),
        |_, _| true,
    ),
    (
        "the index is not reduced",
        |s| {
            let bit = s.sum() * s.distance() as u64;
            s.result(bit < 256 && s.pm[bit as usize])
        },
        |_, _| true,
    ),
    (
        "the index is reduced as at 128 bits",
        |s| s.result(s.pm[s.bit_at(s.sum() % u64::from(128 / s.size))]),
        |_, vl| vl > 128,
    ),
    (
        "the whole slot is copied",
        |s| {
            if s.element() {
                s.pn.clone()
            } else {
                s.result(false)
            }
        },
        |_, vl| vl < 2048,
    ),
    (
        "the whole slot is cleared",
        |s| {
            if s.element() {
                s.result(true)
            } else {
                vec![false; 256]
            }
        },
        |_, vl| vl < 2048,
    ),
];

/// Each slip leaves another Pd in some question at each size and length where
/// it is one, and nowhere else.
#[test]
fn every_slip_shows() {
    for seed in SEEDS {
        let done = done(seed);
        for (what, slip, is_one) in SLIPS {
            let shown: HashSet<(u32, u32)> = done
                .iter()
                .filter(|s| slip(s) != s.result(s.element()))
                .map(|s| (s.size, s.vl))
                .collect();
            for size in SIZES {
                for vl in VECTOR_LENGTHS {
                    let shows = shown.contains(&(size, vl));
                    assert_eq!(shows, is_one(size, vl), "{what} at {size} and {vl}");
                }
            }
        }
    }
}
