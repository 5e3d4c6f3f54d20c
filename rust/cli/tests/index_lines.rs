//! What `--steps` says of the index of a PSEL word.

mod support;

use std::fmt::Write;

use reference::random::Random;
use reference::setting::VECTOR_LENGTHS;
use support::by_reference::lesson;
use support::told::compare;
use support::{folder, told_of};

/// The index lines of what was printed.
fn index_lines(text: &str) -> Vec<&str> {
    text.lines()
        .filter(|line| line.starts_with("index"))
        .collect()
}

/// A length and a size; the mask, the last element, and what is element 10 where
/// there are so many.
const UNITS: [(u32, &str, u32, u32, u32); 12] = [
    (128, "b", 0x0f, 15, 10),
    (128, "h", 0x07, 7, 2),
    (128, "s", 0x03, 3, 2),
    (128, "d", 0x01, 1, 0),
    (256, "b", 0x1f, 31, 10),
    (256, "h", 0x0f, 15, 10),
    (256, "s", 0x07, 7, 2),
    (256, "d", 0x03, 3, 2),
    (2048, "b", 0xff, 255, 10),
    (2048, "h", 0x7f, 127, 10),
    (2048, "s", 0x3f, 63, 10),
    (2048, "d", 0x1f, 31, 10),
];

/// The lines of three words of a size, of which the second wraps. Of P1 only
/// element 0 is true.
fn three_lines(letter: &str, mask: u32, last: u32, tenth: u32) -> [String; 3] {
    let truth = u32::from(tenth == 0);
    [
        ("w12 0xffffffff + offset 0 = sum 0xffffffff", last, 0),
        ("w12 0xffffffff + offset 1 = sum 0x00000000, wrapped", 0, 1),
        ("w13 0x00000009 + offset 1 = sum 0x0000000a", tenth, truth),
    ]
    .map(|(sum, index, truth)| {
        format!(
            "index    {sum}; sum AND mask 0x{mask:08x} = index {index}; \
             p1.{letter} element {index} is {truth}"
        )
    })
}

#[test]
fn every_size_at_three_lengths() {
    let folder = folder("index-sizes");
    let mut text = "p1.b = 1\nw12 = 0xffffffff\nw13 = 9\n".to_string();
    for size in [8, 16, 32, 64] {
        for word in [
            "offset=0 index=12",
            "offset=1 index=12",
            "offset=1 index=13",
        ] {
            let _ = writeln!(text, "PSEL size={size} {word} pn=0 pm=1 pd=2");
        }
    }
    text.push_str("end\n");
    for vl in [128, 256, 2048] {
        let units = UNITS.into_iter().filter(|unit| unit.0 == vl);
        let expected: Vec<String> = units
            .flat_map(|(_, letter, mask, last, tenth)| three_lines(letter, mask, last, tenth))
            .collect();
        let told = told_of(&folder, &text, &["--vl", &vl.to_string(), "--steps"], 0);
        assert_eq!(index_lines(&told), expected, "VL {vl}");
        let told = told_of(&folder, &text, &["--vl", &vl.to_string()], 0);
        assert!(index_lines(&told).is_empty(), "{told}");
    }
}

/// P1 is read before it is written: the first word finds element 1 true and copies
/// P0, in which it is false; the second finds that.
#[test]
fn the_element_is_that_of_before_the_word() {
    let text = "p0.h = 1\np1.h = 0 1\nw15 = 0xfffffffa\n\
                PSEL size=16 offset=7 index=15 pn=0 pm=1 pd=1\n\
                PSEL size=16 offset=7 index=15 pn=0 pm=1 pd=1\nend\n";
    let told = told_of(&folder("index-before"), text, &["--steps"], 0);
    let line = "index    w15 0xfffffffa + offset 7 = sum 0x00000001, wrapped; \
                sum AND mask 0x00000007 = index 1; p1.h element 1 is";
    assert_eq!(
        index_lines(&told),
        [1, 0].map(|truth| format!("{line} {truth}"))
    );
    let blocks = [
        "is 1\np1.h  before  0: 01000000\n      after   0: 10000000\n\nword 1",
        "is 0\np1.h  before  0: 10000000\n      after   all 0\n\nanswer",
    ];
    for block in blocks {
        assert!(told.contains(block), "{told}");
    }
}

/// A word that was not done has none, and no other form has.
#[test]
fn only_psel_words_that_were_done() {
    let folder = folder("index-refused");
    let psel = "PSEL size=16 offset=1 index=12 pn=0 pm=1 pd=2";
    for (text, status, answer, lines) in [
        (format!("flags s t\n{psel}\nend\n"), 2, "answer   4: ", 0),
        (
            format!("features sve2\n{psel}\nend\n"),
            2,
            "answer   3: ",
            0,
        ),
        (format!("{psel}\n00000000\nend\n"), 2, "answer   3: ", 1),
        (
            format!("25207010\n25207410\n{psel}\nc08a9000\nc09a9000\n45283801\nend\n"),
            0,
            "answer   0: ",
            1,
        ),
    ] {
        let told = told_of(&folder, &text, &["--steps"], status);
        // Of the last word that was tried, and of the run.
        assert!(told.matches(answer).count() >= 2, "{told}");
        assert_eq!(index_lines(&told).len(), lines, "{told}");
    }
}

/// Words of every size and offset on any predicates, Pd often Pm, by every W
/// register, near the wrap and not.
fn any_lesson(random: &mut Random, vl: u32) -> String {
    let mut text = format!("vl {vl}\n");
    for register in 0..16 {
        let _ = write!(text, "p{register}.b =");
        for _ in 0..vl / 8 {
            let _ = write!(text, " {}", random.below(2));
        }
        text.push('\n');
    }
    let near = random.below(16).wrapping_sub(16);
    for (register, w) in [
        (12, u32::MAX),
        (13, near),
        (14, 1 << 31),
        (15, random.next_u32()),
    ] {
        let _ = writeln!(text, "w{register} = {w:#x}");
    }
    for size in [8, 16, 32, 64] {
        for offset in 0..128 / size {
            for index in 12..16 {
                let [pn, pm, pd] = [0; 3].map(|_| random.below(16));
                let pd = if random.coin() { pm } else { pd };
                let _ = writeln!(
                    text,
                    "PSEL size={size} offset={offset} index={index} pn={pn} pm={pm} pd={pd}"
                );
            }
        }
    }
    text + "end\n"
}

#[test]
fn any_words_are_the_reference_s() {
    let folder = folder("index-any");
    let mut random = Random::new(18);
    for vl in VECTOR_LENGTHS {
        for _ in 0..4 {
            let text = any_lesson(&mut random, vl);
            let told = told_of(&folder, &text, &["--steps"], 0);
            let found = compare(&told, &lesson(&text, None));
            assert_eq!([found.steps, found.indexes], [120, 120]);
            for part in [", wrapped; ", " is 0\n", " is 1\n"] {
                assert!(told.contains(part), "{part} at VL {vl}");
            }
        }
    }
}
