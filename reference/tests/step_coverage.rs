//! Whether the step questions ask what they are meant to ask, for several
//! seeds. Counters and elements are looked up in the machines themselves.

use std::collections::{HashMap, HashSet};

use reference::decode::decode;
use reference::instruction::{Form, Instruction};
use reference::layout::Row;
use reference::setting::{FULL, VECTOR_LENGTHS, vl_is_allowed};
use reference::step_question::StepQuestion;
use reference::step_questions::generate;
use reference::text::{STEP_QUESTION_BYTES, read_step_question, step_question_line};
use reference::values::{FEATURES_ABOVE, LENGTHS_NOT_ALLOWED, WRONG_LENGTHS};

const SEEDS: [u64; 2] = [1, u64::MAX];

/// The questions that are done, with their instructions.
fn done(questions: &[StepQuestion]) -> Vec<(StepQuestion, Instruction)> {
    questions
        .iter()
        .filter(|question| question.answer()[0] == 0)
        .map(|question| (*question, decode(FULL, question.word).unwrap()))
        .collect()
}

/// Form, length, fields of every question that is done.
type Asked = HashSet<(Form, u32, [u32; 6])>;

fn asked(done: &[(StepQuestion, Instruction)]) -> Asked {
    done.iter()
        .map(|(question, found)| (found.form(), question.start.setting.vl, found.fields()))
        .collect()
}

fn any(asked: &Asked, form: Form, vl: Option<u32>, with: impl Fn([u32; 6]) -> bool) -> bool {
    asked
        .iter()
        .any(|&(f, l, fields)| f == form && vl.is_none_or(|vl| vl == l) && with(fields))
}

#[test]
fn every_size_length_and_immediate() {
    for seed in SEEDS {
        let asked = asked(&done(&generate(seed)));
        for vl in VECTOR_LENGTHS {
            let here = |form, with: &dyn Fn([u32; 6]) -> bool| any(&asked, form, Some(vl), with);
            for size in [8, 16, 32, 64] {
                for first in 0..4 {
                    assert!(here(Form::Pext, &|f| f[..3] == [size, first, 1]));
                }
                for first in [0, 2] {
                    assert!(here(Form::Pext, &|f| f[..3] == [size, first, 2]));
                }
                for offset in 0..128 / size {
                    assert!(here(Form::Psel, &|f| f[..2] == [size, offset]));
                }
            }
            for size in [8, 16, 32] {
                for shift in 1..=size {
                    assert!(here(Form::Narrow, &|f| f[1..3] == [size, shift]));
                }
                for bits in 0..16 {
                    assert!(here(Form::Narrow, &|f| f[..2] == [bits, size]));
                }
            }
            for i1 in 0..2 {
                for place in 0..8 {
                    let first = 16 * (place / 4) + place % 4;
                    assert!(here(Form::Luti4s, &|f| f[1] == i1 && f[3] == first));
                    for size in [16, 32] {
                        let wanted = |f: [u32; 6]| f[..2] == [size, i1] && f[3] == 4 * place;
                        assert!(here(Form::Luti4c, &wanted));
                    }
                }
            }
        }
    }
}

#[test]
fn overlapping_registers() {
    for seed in SEEDS {
        let asked = asked(&done(&generate(seed)));
        for vl in VECTOR_LENGTHS {
            let here = |form, with: &dyn Fn([u32; 6]) -> bool| any(&asked, form, Some(vl), with);
            for counter in 8..16 {
                for wanted in [
                    [1, counter, counter],
                    [2, counter, counter],
                    [2, counter, counter - 1],
                ] {
                    assert!(here(Form::Pext, &|f| f[2..5] == wanted));
                }
            }
            for size in [8, 16, 32, 64] {
                for pd in [14, 15] {
                    let wanted = |f: [u32; 6]| f[0] == size && f[2] == 2 && f[4] == pd;
                    assert!(here(Form::Pext, &wanted));
                }
                let psel = |with: &dyn Fn(u32, u32, u32) -> bool| {
                    here(Form::Psel, &|f| f[0] == size && with(f[3], f[4], f[5]))
                };
                assert!(psel(&|pn, pm, pd| pd == pn && pd != pm));
                assert!(psel(&|pn, pm, pd| pd == pm && pd != pn));
                assert!(psel(&|pn, pm, pd| pn == pm && pd != pm));
                assert!(psel(&|pn, pm, pd| pn == pm && pd == pm));
            }
            for i1 in 0..2 {
                for r in 0..4 {
                    for size in [16, 32] {
                        let wanted = |f: [u32; 6]| f[..2] == [size, i1] && f[2] == f[3] + r;
                        assert!(here(Form::Luti4c, &wanted));
                    }
                    let wanted = |f: [u32; 6]| f[1] == i1 && f[2] == f[3] + 4 * r;
                    assert!(here(Form::Luti4s, &wanted));
                }
            }
            for bits in 0..16 {
                for size in [8, 16, 32] {
                    let wanted = |f: [u32; 6]| f[..2] == [bits, size] && f[3] == f[4];
                    assert!(here(Form::Narrow, &wanted));
                }
            }
        }
    }
}

/// The counter each PEXT question reads, with the bits above it and VL.
fn counters(done: &[(StepQuestion, Instruction)]) -> Vec<(u32, u32, u16, bool)> {
    done.iter()
        .filter(|(_, found)| found.form() == Form::Pext)
        .map(|(question, found)| {
            let slot = 32 * found.fields()[3] as usize;
            let p = question.start.machine().p;
            let counter = u16::from_le_bytes([p[slot], p[slot + 1]]);
            let above = p[slot + 2..slot + 32].iter().any(|&byte| byte != 0);
            (question.start.setting.vl, found.fields()[0], counter, above)
        })
        .collect()
}

#[test]
fn every_kind_of_counter() {
    for seed in SEEDS {
        let counters = counters(&done(&generate(seed)));
        for vl in VECTOR_LENGTHS {
            let m = (vl / 2).trailing_zeros();
            let ignored = 0x7fff & !((2 << m) - 1) as u16;
            let has = |with: &dyn Fn(u32, u16) -> bool| {
                counters
                    .iter()
                    .any(|&(l, size, counter, above)| l == vl && above && with(size, counter))
            };
            for counter in [0, 0x8000, 0x8001, 0x0001, 0xfff0] {
                assert!(has(&|_, c| c == counter), "{counter:04x} at {vl}");
            }
            for z in 0..4 {
                let greatest = (1u16 << (m - z)) - 1;
                for size in [8, 16, 32, 64] {
                    for inverted in [false, true] {
                        assert!(has(&|s, c| s == size
                            && c & 15 != 0
                            && c.trailing_zeros() == z
                            && (c >> 15 == 1) == inverted));
                    }
                    for wanted in [0, 1, greatest] {
                        assert!(has(&|s, c| s == size
                            && c & 15 != 0
                            && c.trailing_zeros() == z
                            && (c & !ignored & 0x7fff) >> (z + 1) == wanted));
                    }
                }
            }
            for bit in m..15 {
                for inverted in [false, true] {
                    let wanted = |_: u32, c: u16| c >> bit & 1 == 1 && (c >> 15 == 1) == inverted;
                    assert!(has(&wanted), "bit {bit} at {vl}");
                }
            }
        }
    }
}

/// A narrowing word by its four bits, size and shift.
type Narrowing = (u32, u32, u32);

/// The elements that each narrowing word reads.
fn elements(done: &[(StepQuestion, Instruction)]) -> HashMap<Narrowing, HashSet<u128>> {
    let mut elements: HashMap<Narrowing, HashSet<u128>> = HashMap::new();
    for (question, found) in done {
        let Instruction::Narrow {
            bits,
            size,
            shift,
            zn,
            ..
        } = *found
        else {
            continue;
        };
        let start = 256 * zn as usize;
        let z = question.start.machine().z;
        let source = &z[start..start + question.start.setting.vl as usize / 8];
        let seen = elements.entry((bits, size, shift)).or_default();
        for bytes in source.chunks_exact(size as usize / 4) {
            let mut element = [0; 16];
            element[..bytes.len()].copy_from_slice(bytes);
            seen.insert(u128::from_le_bytes(element));
        }
    }
    elements
}

/// For each of the sixteen words, each size and each shift: 0, 1, all ones,
/// the signed ends, those around the ties and those around the ends of the
/// result's range, as far as there are such elements.
#[test]
fn every_edge_of_rounding_and_saturation() {
    for seed in SEEDS {
        let elements = elements(&done(&generate(seed)));
        assert_eq!(elements.len(), 16 * 56);
        for (&(bits, size, shift), seen) in &elements {
            let wide = 2 * size;
            let half = 1i128 << (shift - 1);
            let round = if bits & 2 != 0 { half } else { 0 };
            let signed = bits & 4 == 0;
            // The least result and the first number above the greatest.
            let (least, above) = match bits >> 2 {
                2 => (-(1i128 << (size - 1)), 1i128 << (size - 1)),
                _ => (0, 1i128 << size),
            };
            let mut wanted = vec![0, 1, half - 1, half, half + 1];
            wanted.extend([(above << shift) - round - 1, (above << shift) - round]);
            wanted.extend([(1 << (wide - 1)) - 1]);
            if signed {
                wanted.extend([-1, -(1 << (wide - 1))]);
                wanted.extend([-half - 1, -half, -half + 1]);
                wanted.extend([(least << shift) - round - 1, (least << shift) - round]);
            } else {
                wanted.extend([1 << (wide - 1), (1 << wide) - 1]);
            }
            let ends = if signed {
                -(1i128 << (wide - 1))..1 << (wide - 1)
            } else {
                0..1 << wide
            };
            for number in wanted {
                if !ends.contains(&number) {
                    continue;
                }
                let element = (number & ((1 << wide) - 1)) as u128;
                assert!(
                    seen.contains(&element),
                    "{bits:04b} {size} {shift} {element:x}"
                );
            }
        }
    }
}

/// Every word at every size and shift with Zn = Zd and with two registers.
#[test]
fn in_place_and_apart() {
    for seed in SEEDS {
        let mut asked = HashSet::new();
        for (_, found) in done(&generate(seed)) {
            if let Instruction::Narrow {
                bits,
                size,
                shift,
                zn,
                zd,
            } = found
            {
                asked.insert((bits, size, shift, zn == zd));
            }
        }
        assert_eq!(asked.len(), 16 * 56 * 2);
    }
}

#[test]
fn index_sums_around_the_wrap() {
    for seed in SEEDS {
        let done = done(&generate(seed));
        for size in [8, 16, 32, 64] {
            for offset in 0..128 / size {
                let sums: HashSet<u64> = done
                    .iter()
                    .filter(|(_, i)| i.form() == Form::Psel && i.fields()[..2] == [size, offset])
                    .map(|(question, found)| {
                        let base = question.start.w[found.fields()[2] as usize - 12];
                        u64::from(base) + u64::from(offset)
                    })
                    .collect();
                for sum in [(1 << 32) - 1, (1 << 32) - 1 + u64::from(offset)] {
                    assert!(sums.contains(&sum), "{size} {offset} {sum:x}");
                }
                assert!(offset == 0 || sums.contains(&(1 << 32)));
            }
        }
    }
}

#[test]
fn every_feature_number_and_length() {
    for seed in SEEDS {
        let questions = generate(seed);
        for row in Row::ALL {
            let of_row: Vec<&StepQuestion> = questions
                .iter()
                .filter(|q| decode(FULL, q.word).map(|i| i.row()) == Ok(row))
                .collect();
            for features in (0..32).chain(FEATURES_ABOVE) {
                assert!(of_row.iter().any(|q| q.start.setting.features == features
                    && vl_is_allowed(q.start.setting.vl)
                    && q.start.flags.number() == 7));
            }
            for flags in 0..8 {
                for features in [3, 12, 28, 31] {
                    assert!(of_row.iter().any(|q| q.start.setting.features == features
                        && q.start.flags.number() == flags
                        && vl_is_allowed(q.start.setting.vl)));
                }
            }
            for pc in [0, 1, u64::MAX - 4, u64::MAX - 3, u64::MAX - 1, u64::MAX] {
                let asked = of_row
                    .iter()
                    .any(|q| q.start.pc == pc && q.answer()[0] == 0);
                assert!(asked, "{pc:x}");
            }
            for (z, p, zt) in WRONG_LENGTHS {
                assert!(of_row.iter().any(|q| {
                    let c = q.start.contents;
                    (c.z_length, c.p_length, c.zt_length) == (z, p, zt) && q.answer()[0] == 2
                }));
            }
        }
        for vl in LENGTHS_NOT_ALLOWED {
            assert!(questions.iter().any(|q| q.start.setting.vl == vl));
        }
    }
}

/// Every number is answered, and questions survive being written and read.
#[test]
fn numbers_and_text() {
    for seed in SEEDS {
        let questions = generate(seed);
        // A step answers 0 to 6; there is no place here for any other number.
        let mut counts = [0; 7];
        for question in &questions {
            counts[question.answer()[0] as usize] += 1;
            let line = step_question_line(question);
            let bytes: [u8; STEP_QUESTION_BYTES] = line.as_bytes().try_into().unwrap();
            assert_eq!(read_step_question(&bytes), Ok(*question));
        }
        assert!(counts[0] > 11_000);
        assert!(counts[1..].iter().all(|&count| count >= 20), "{counts:?}");
    }
}
