//! The lessons, as stored and at every vector length, against the reference.

mod support;

use std::fs;
use std::ops::Range;
use std::path::Path;

use reference::decode::decode;
use reference::index_unit::{IndexUnit, index_unit};
use reference::setting::{FULL, VECTOR_LENGTHS};
use support::by_reference::{Lesson, elements, lesson};
use support::told::{Compared, compare};
use support::{LESSONS, ROOT, folder, lesson_text, told};

/// A stored output, such as `adder-vl256-steps`: its lesson, by the reference at the
/// vector length that the name says, and whether it has steps.
fn named(stem: &str) -> (Lesson, bool) {
    let mut parts = stem.split('-');
    let text = lesson_text(parts.next().unwrap());
    let (mut vl, mut steps) = (None, false);
    for part in parts {
        match part.strip_prefix("vl") {
            Some(length) => vl = Some(length.parse().unwrap()),
            None => {
                assert_eq!(part, "steps");
                steps = true;
            }
        }
    }
    (lesson(&text, vl), steps)
}

/// How many of a lesson's words are PSEL, and so have an index.
fn psel_words(lesson: &Lesson) -> usize {
    let is_psel = |word: &&u32| decode(FULL, **word).unwrap().name() == "PSEL";
    lesson.words.iter().filter(is_psel).count()
}

#[test]
fn stored_outputs_are_the_reference_s() {
    let mut count = 0;
    for entry in fs::read_dir(Path::new(ROOT).join("lessons")).unwrap() {
        let path = entry.unwrap().path();
        if path.extension().is_none_or(|end| end != "expected") {
            continue;
        }
        let stem = path.file_stem().unwrap().to_str().unwrap();
        let (expected, steps) = named(stem);
        let found = compare(&fs::read_to_string(&path).unwrap(), &expected);
        assert!(found.registers > 0, "{stem}: {found:?}");
        assert_eq!(found.orders, expected.orders.len());
        let words = [expected.words.len(), psel_words(&expected)];
        let told = if steps { words } else { [0; 2] };
        assert_eq!([found.steps, found.indexes], told, "{stem}");
        count += 1;
    }
    assert!(count >= 10, "{count}");
}

#[test]
fn every_vector_length_is_the_reference_s() {
    for name in LESSONS {
        for vl in VECTOR_LENGTHS {
            let path = format!("lessons/{name}.lesson");
            let text = told(&["run", &path, "--vl", &vl.to_string(), "--steps"], 0);
            let expected = lesson(&lesson_text(name), Some(vl));
            let Compared {
                registers,
                steps,
                indexes,
                orders,
                ..
            } = compare(&text, &expected);
            assert!(registers > 3, "{name} at {vl}");
            assert_eq!(steps, expected.words.len());
            assert_eq!(indexes, psel_words(&expected));
            assert_eq!(orders, expected.orders.len());
        }
    }
}

/// A wrong number, a register left out, a wrong verdict, an index line left out or
/// too much: each is noticed.
#[test]
fn the_comparison_notices() {
    let stored = |name: &str| {
        let path = Path::new(ROOT).join(format!("lessons/{name}.expected"));
        fs::read_to_string(path).unwrap()
    };
    let without = |text: &str, start: &str, count: usize| {
        let mut lines: Vec<&str> = text.lines().collect();
        let at = lines
            .iter()
            .position(|line| line.starts_with(start))
            .unwrap();
        lines.drain(at..at + count);
        lines.join("\n")
    };
    let diode = stored("diode");
    let counters = stored("counters");
    let order = stored("order");
    let signed = stored("signed");
    let psel = stored("psel");
    let steps = "adder-vl256-steps";
    let adder = stored(steps);
    let wrong = [
        ("diode", diode.replace("17387", "17388")),
        ("diode", diode.replace("0x10", "0x14")),
        ("diode", diode.replace("4 of 4", "3 of 4")),
        ("diode", without(&diode, "z8.s", 3)),
        ("counters", counters.replace("11000000", "10000000")),
        ("counters", counters.replace("the first 19", "the first 18")),
        ("counters", without(&counters, "p5.b", 2)),
        ("order", order.replace("\npermitted", "\nforbidden")),
        ("order", order.replace("word 0 writes", "word 1 writes")),
        ("order", without(&order, "order 2 0", 6)),
        ("order", without(&order, "z8.h  lesson", 2)),
        ("signed", signed.replace("-26516", "-26517")),
        // The same bits without their sign.
        ("signed", signed.replace("-32768", " 32768")),
        ("signed", signed.replace("-600000", "4294367296")),
        ("signed", without(&signed, "z8.h", 2)),
        ("psel", psel.replace("after    0: 01", "after    0: 00")),
        ("psel", without(&psel, "p4.b", 2)),
        (steps, adder.replace("+ offset 1 =", "+ offset 2 =")),
        (steps, adder.replace("sum 0x00000000", "sum 0x00000001")),
        (steps, adder.replace(", wrapped", "")),
        (steps, adder.replace("mask 0x0000000f", "mask 0x0000001f")),
        (steps, adder.replace("= index 15", "= index 7")),
        (steps, adder.replace("p1.h element", "p0.h element")),
        (steps, adder.replace("element 15 is 0", "element 15 is 1")),
        (steps, without(&adder, "index ", 1)),
        (
            steps,
            adder.replace("p1.h  unchanged", "index    w12\np1.h  unchanged"),
        ),
    ];
    for (place, (name, text)) in wrong.into_iter().enumerate() {
        assert_ne!(text, stored(name), "edit {place} edits nothing");
        let (expected, _) = named(name);
        let noticed = std::panic::catch_unwind(|| compare(&text, &expected));
        assert!(noticed.is_err(), "edit {place} is not noticed");
    }
}

/// The eleven points, in nanoamperes.
const POINTS: [u64; 11] = [
    0, 20, 206, 1886, 16628, 120_318, 487_041, 1_112_796, 1_876_199, 2_709_707, 3_583_158,
];

/// The lesson's currents solve the lesson's equation, to the nanoampere.
#[test]
fn the_points_are_solved() {
    let voltage = |nanoamperes: f64| {
        let current = nanoamperes * 1e-9;
        100.0 * current + 1.752 * 0.025852 * (current / 2.52e-9).ln_1p()
    };
    let text = lesson_text("diode");
    let listed = POINTS.map(|point| point.to_string()).join(" ");
    assert!(text.contains(&format!("zt0.s = {listed}\n")));
    for (place, point) in POINTS.into_iter().enumerate() {
        let source = place as f64 / 10.0;
        let point = point as f64;
        assert!(
            voltage(point - 0.5) <= source && source <= voltage(point + 0.5),
            "{source} V"
        );
    }
}

/// The stored curve passes by its eleven points: each is as near as steps of
/// 64 nA allow, and none is cut. With steps of 32 nA two are.
#[test]
fn the_curve_passes_by_its_points() {
    let text = lesson_text("diode");
    let stored = |text: &str| {
        let found = lesson(text, None);
        let z8 = elements(&found.end, "z8.s", found.setting.vl);
        assert!(z8[11..].iter().all(|&value| value == 0));
        z8[..11].to_vec()
    };
    let page = fs::read_to_string(Path::new(ROOT).join("docs/LESSONS.md")).unwrap();
    for (point, value) in POINTS.into_iter().zip(stored(&text)) {
        // The page has this row of its table.
        let row = format!("| {point} | {value} | {} | ", 64 * value);
        assert!(page.contains(&row), "{row}");
        assert!(
            value < 65535 && (64 * value).abs_diff(point) <= 32,
            "{point}: {value}"
        );
    }
    let finer = stored(&text.replace("shift=6", "shift=5"));
    assert_eq!(finer[9..], [65535, 65535]);
    assert!(finer[..9].iter().all(|&value| value < 65535));
}

/// A drawing has as many points, as the register has them.
fn is_drawn(name: &str, register: &str, part: &str, count: usize) {
    let path = folder(&format!("curve-{name}")).join("curve.svg");
    let drawn = format!("{register}{part}");
    let lesson_path = format!("lessons/{name}.lesson");
    let arguments = ["run", &lesson_path, "--plot", &drawn];
    told(&[&arguments[..], &[path.to_str().unwrap()]].concat(), 0);
    let svg = fs::read_to_string(path).unwrap();
    let expected = lesson(&lesson_text(name), None);
    let values = expected.numbers(&expected.end, register, expected.done);
    for (index, value) in values[..count].iter().enumerate() {
        let title = format!("<title>element {index}: {value}</title>");
        assert!(svg.contains(&title), "{title}");
    }
    assert_eq!(svg.matches("<circle").count(), count);
    assert_eq!(svg.matches("<polyline").count(), 1);
    assert!(svg.contains(&format!(">element of {register}<")) && svg.contains(">value<"));
}

#[test]
fn curves_are_drawn() {
    is_drawn("diode", "z8.s", ":0-10", 11);
    is_drawn("signed", "z8.h", "", 8);
}

/// What the page says of the wave: cut at each end, and ties upwards.
#[test]
fn the_wave_is_cut_at_each_end() {
    let text = lesson_text("signed");
    let stored = |text: &str| {
        let found = lesson(text, None);
        found.numbers(&found.end, "z8.h", found.done)
    };
    let wave = [0, 26517, 32767, 26517, 0, -26516, -32768, -26516];
    assert_eq!(stored(&text), wave);
    let finer = stored(&text.replace("shift=4", "shift=5"));
    assert_eq!(finer, [0, 13258, 18750, 13258, 0, -13258, -18750, -13258]);
}

/// Whether each of these registers ends as a copy of P0, the nodes; else it is
/// without a node.
fn have_the_nodes(text: &str, vl: u32, registers: Range<u32>) -> Vec<bool> {
    let found = lesson(text, Some(vl));
    let nodes = elements(&found.start, "p0.b", vl);
    let has = |register| {
        let told = elements(&found.end, &format!("p{register}.b"), vl);
        let none = told.iter().all(|&bit| bit == 0);
        assert!(none || told == nodes, "p{register} at VL {vl}");
        !none
    };
    registers.map(has).collect()
}

/// What the page says of the switch: which steps have the nodes, where a register
/// has an element for four of them and where it has one for more.
#[test]
fn the_steps_come_round() {
    let text = lesson_text("psel");
    let steps = |vl| have_the_nodes(&text, vl, 4..8);
    assert_eq!(steps(128), [false, true, true, false]);
    assert_eq!(steps(256), [false, true, false, false]);
}

/// What the page says of the steps -1, 0 and 6, and of P1 with two periods.
#[test]
fn the_step_before_0_is_the_last_element() {
    let text = lesson_text("adder");
    let steps = |text: &str, vl| have_the_nodes(text, vl, 4..7);
    assert_eq!(steps(&text, 128), [true, true, false]);
    assert_eq!(steps(&text, 256), [false, true, false]);
    let values = "p1.h = 1 0 0 0 0 0 0 1";
    let twice = text.replace(values, &format!("{values} repeat"));
    assert_ne!(twice, text);
    assert_eq!(steps(&twice, 256), [true, true, false]);
}

/// A row of the page's bits: a name, bit 32 if it is shown, and bits 31 to 0 in fours.
fn row(name: &str, carry: &str, number: u32, words: &str) -> String {
    let digits: Vec<char> = format!("{number:032b}").chars().collect();
    let fours: Vec<String> = digits.chunks(4).map(String::from_iter).collect();
    let bits = fours.join(" ");
    format!("    {name:<13}  {carry:<1} {bits}  {words}\n")
}

/// The page's bits of two words of the lesson are the reference's.
#[test]
fn the_page_has_the_adder_s_bits() {
    let page = fs::read_to_string(Path::new(ROOT).join("docs/LESSONS.md")).unwrap();
    let w = lesson(&lesson_text("adder"), None).start.w[0];
    let hex = |number: u32| format!("{number:08x}");
    for offset in [0, 7] {
        let unit = |vl| index_unit(vl, 16, offset, w).unwrap();
        let sum = unit(128).sum;
        let carry = (u64::from(w) + u64::from(offset)) >> 32;
        let words = "the bit in front is the carry";
        let mut rows = row("W", "", w, &hex(w)) + &row("offset", "", offset, &hex(offset));
        rows += &row("W + offset", &carry.to_string(), sum, words);
        rows += &row("sum", "", sum, &hex(sum));
        for vl in [128, 256] {
            let IndexUnit { mask, index, .. } = unit(vl);
            rows += &row(&format!("mask, VL {vl}"), "", mask, &hex(mask));
            let element = format!("element {index}");
            rows += &row(&format!("index, VL {vl}"), "", index, &element);
        }
        assert!(page.contains(&rows), "{rows}");
    }
}
