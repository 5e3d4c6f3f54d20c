//! The programs as they are called; those about listers with programs that are
//! none, so that they must notice.

#[path = "../../called/mod.rs"]
mod called;

use std::fs;
use std::process::{Command, Output};

use called::{called, complained, text};
use gighull::ffi::{ARCHIVE, ARCHIVE_HASH};
use speed::cases::LENGTHS;

const HEADERS: &str = concat!(env!("CARGO_MANIFEST_DIR"), "/../../include");

fn listcheck(arguments: &[&str]) -> Output {
    called(env!("CARGO_BIN_EXE_listcheck"), arguments)
}

fn listspeed(arguments: &[&str]) -> Output {
    called(env!("CARGO_BIN_EXE_listspeed"), arguments)
}

fn archivespeed(arguments: &[&str]) -> Output {
    called(env!("CARGO_BIN_EXE_archivespeed"), arguments)
}

fn speedplot(arguments: &[&str]) -> Output {
    called(env!("CARGO_BIN_EXE_speedplot"), arguments)
}

/// With nothing in it.
fn new_folder(name: &str) -> String {
    let folder = format!("{}/{name}", env!("CARGO_TARGET_TMPDIR"));
    let _ = fs::remove_dir_all(&folder);
    fs::create_dir(&folder).unwrap();
    folder
}

#[test]
fn listcheck_names_the_smallest_input() {
    // Nothing is right for no bytes, but not for one.
    for wrong in ["true", "cat"] {
        let output = listcheck(&[wrong]);
        assert_eq!(output.status.code(), Some(1));
        let report = text(&output.stdout);
        assert!(report.contains("fails on 1 bytes (zeros), given as a file"));
        assert!(
            report.contains("line 1 should be \"SHORT 1\\n\""),
            "{report}"
        );
        assert!(report.contains("input: 00\n"));
    }
}

#[test]
fn listcheck_sees_the_status() {
    let output = listcheck(&["false"]);
    assert_eq!(output.status.code(), Some(1));
    let report = text(&output.stdout);
    assert!(report.contains("fails on 0 bytes"), "{report}");
    assert!(report.contains("exit status: 1"), "{report}");
}

#[test]
fn listcheck_sees_too_much() {
    // Prints without end, whatever comes in.
    let output = listcheck(&["yes"]);
    assert_eq!(output.status.code(), Some(1));
    let report = text(&output.stdout);
    assert!(
        report.contains("fails on 0 bytes") && report.contains("and is \"y\\n\""),
        "{report}"
    );
}

#[test]
fn listspeed_times_equal_programs() {
    let output = listspeed(&["cat", "cat", "Cargo.toml", "2"]);
    assert!(output.status.success());
    let report = text(&output.stdout);
    assert!(report.starts_with("outputs equal: "), "{report}");
    for part in ["proved: minimum", "fast:   minimum", "ratio of medians"] {
        assert!(report.contains(part), "{report}");
    }
}

#[test]
fn listspeed_refuses_different_programs() {
    let output = listspeed(&["cat", "true", "Cargo.toml"]);
    assert_eq!(output.status.code(), Some(1));
    assert!(output.stdout.is_empty());
    let line = text(&output.stderr);
    assert!(line.contains("the outputs differ in line 1"), "{line}");
    // The right output and a wrong status will not do either.
    let output = listspeed(&["false", "true", "Cargo.toml"]);
    assert_eq!(output.status.code(), Some(1));
    assert!(text(&output.stderr).contains("false: exit status: 1"));
}

#[test]
fn archivespeed_has_a_line_for_each_case_and_length() {
    let output = archivespeed(&[ARCHIVE, ARCHIVE, "1"]);
    assert!(output.status.success(), "{output:?}");
    let report = text(&output.stdout);
    // 67 stretches and 65 times steps at each length, and the listing.
    let lines = 5 + (67 + 65) * LENGTHS.len() + 1 + 1;
    assert_eq!(report.lines().count(), lines, "{report}");
    for part in [
        "\n| PEXT1 B | 128 | ",
        "\n| SQSHRUNB B | 128 | ",
        "\n| SQRSHRNT H | 2048 | ",
        "\n| step: UQRSHRNT S | 512 | ",
        "\n| PSEL B, false | 512 | ",
        "\n| mixed, 3 | 2048 | ",
        "\n| step: V closed | 128 | ",
        "\n| listing | - | ",
        "\nall equal after every case; ",
    ] {
        assert_eq!(report.matches(part).count(), 1, "{part} in {report}");
    }
    assert_eq!(report.matches(ARCHIVE_HASH).count(), 2, "{report}");
}

/// An archive that says no version of its interface is given only words that
/// were there before the narrowing words.
#[test]
fn archivespeed_times_old_words_with_an_old_archive() {
    let old = format!("{}/old.a", new_folder("old-archive"));
    let hide = "--localize-symbol=gighull_interface_version";
    assert!(called("objcopy", &[hide, ARCHIVE, &old]).status.success());
    for arguments in [[&old, ARCHIVE, "1"], [ARCHIVE, &old, "1"]] {
        let output = archivespeed(&arguments);
        assert!(output.status.success(), "{output:?}");
        let report = text(&output.stdout);
        // 22 stretches and 20 times steps at each length, and the listing.
        let lines = 5 + (22 + 20) * LENGTHS.len() + 1 + 1;
        assert_eq!(report.lines().count(), lines, "{report}");
        let row = |start: &str| report.lines().find(|line| line.starts_with(start));
        let narrow = row("| UQRSHRNB H | 2048 | ").unwrap();
        assert!(narrow.contains(" | 1.25"), "{narrow}");
        let pext = row("| PEXT1 B | 128 | ").unwrap();
        assert!(pext.contains(" | 1.05"), "{pext}");
        assert_eq!(row("| SQRSHRNT H"), None);
    }
}

/// Where one of two archives has a version from before PSEL, the words at its
/// layout may leave other bytes and have another name, but not another answer.
#[test]
fn archivespeed_lets_psel_differ_from_its_predecessor() {
    let folder = new_folder("predecessor");
    let archive = |name: &str, version: u32, is_other: &str, change: &str| {
        other_archive(&folder, name, version, is_other, change)
    };
    let is_psel = "(word & 0xff20c210) == 0x25204000 && (word & 0x5c0000) != 0";
    let bytes = "p[511] = 0x77";
    let old = archive("old", 2, is_psel, bytes);
    for arguments in [[&old, ARCHIVE, "1"], [ARCHIVE, &old, "1"]] {
        let output = archivespeed(&arguments);
        assert!(output.status.success(), "{output:?}");
        let end = "\nall equal after every case, but of PSEL the answers alone are compared; ";
        let report = text(&output.stdout);
        assert!(report.contains(end), "{report}");
    }
    for (archive, line) in [
        (
            archive("new", 3, is_psel, bytes),
            "PSEL B at VL 128: the machines differ",
        ),
        (
            archive("refused", 2, is_psel, "answer = 4"),
            "PSEL B at VL 128: another answer",
        ),
        (
            archive("pext", 2, IS_PEXT1, bytes),
            "PEXT1 B at VL 128: the machines differ",
        ),
    ] {
        let output = archivespeed(&[ARCHIVE, &archive, "1"]);
        assert!(complained(&output), "{output:?}");
        assert_eq!(text(&output.stderr), format!("archivespeed: {line}\n"));
    }
}

/// That PEXT is one form now does not show in a step, a run or a listing: with an
/// archive of before, everything is compared.
#[test]
fn archivespeed_compares_all_with_the_archive_before() {
    let folder = new_folder("before");
    let archive = |name: &str, is_other: &str, change: &str| {
        other_archive(&folder, name, 4, is_other, change)
    };
    let same = archive("same", "0", "answer = 4");
    let output = archivespeed(&[&same, ARCHIVE, "1"]);
    assert!(output.status.success(), "{output:?}");
    let report = text(&output.stdout);
    assert!(
        report.contains("\nall equal after every case; "),
        "{report}"
    );
    let is_pext2 = "(word & 0xff3ffe10) == 0x25207410";
    for (archive, line) in [
        (
            archive("one", IS_PEXT1, "p[511] = 0x77"),
            "PEXT1 B at VL 128: the machines differ",
        ),
        (
            archive("two", is_pext2, "p[511] = 0x77"),
            "PEXT2 B at VL 128: the machines differ",
        ),
        (
            archive("refused", is_pext2, "answer = 4"),
            "PEXT2 B at VL 128: another answer",
        ),
        (
            archive("listed", is_pext2, "(void)0"),
            "listing: another answer or text",
        ),
    ] {
        let output = archivespeed(&[&archive, ARCHIVE, "1"]);
        assert!(complained(&output), "{output:?}");
        assert_eq!(text(&output.stderr), format!("archivespeed: {line}\n"));
    }
}

/// PEXT of one portion, as a test in C.
const IS_PEXT1: &str = "(word & 0xff3ffc10) == 0x25207010";

/// The archive with a version of the interface, and with a change to a run, and
/// another listing, where a word is one of these.
fn other_archive(folder: &str, name: &str, version: u32, is_other: &str, change: &str) -> String {
    let path = |end: &str| format!("{folder}/{name}.{end}");
    let (page, archive, object) = (path("c"), path("a"), path("o"));
    fs::write(&page, OTHER).unwrap();
    let renames = ["interface_version", "run", "lines"]
        .map(|name| format!("--redefine-sym=gighull_{name}=own_{name}"));
    let [a, b, c] = renames.each_ref().map(String::as_str);
    let renamed = called("objcopy", &[a, b, c, ARCHIVE, &archive]);
    assert!(renamed.status.success(), "{renamed:?}");
    let macros = [
        format!("-DVERSION={version}"),
        format!("-DIS_OTHER(word)=({is_other})"),
        format!("-DCHANGE={change}"),
    ];
    let [a, b, c] = macros.each_ref().map(String::as_str);
    let options = ["-c", "-fPIC", "-I", HEADERS, a, b, c, &page, "-o", &object];
    assert!(called("cc", &options).status.success());
    assert!(called("ar", &["r", &archive, &object]).status.success());
    archive
}

/// An archive's functions, but for some words.
const OTHER: &str = r#"
#include "gighull.h"
__typeof__(gighull_run) own_run;
__typeof__(gighull_lines) own_lines;
uint32_t gighull_interface_version(void) {
    return VERSION;
}
uint32_t gighull_run(uint8_t *z, size_t z_len, uint8_t *p, size_t p_len, uint8_t *zt, size_t zt_len, uint32_t w12,
                     uint32_t w13, uint32_t w14, uint32_t w15, uint64_t *pc, bool v, bool s, bool t, uint32_t vl,
                     uint32_t features, const uint32_t *words, size_t words_len, size_t *done) {
    uint32_t answer = own_run(z, z_len, p, p_len, zt, zt_len, w12, w13, w14, w15, pc, v, s, t, vl, features, words,
                              words_len, done);
    for (size_t i = 0; i < words_len; i++)
        if (IS_OTHER(words[i]))
            CHANGE;
    return answer;
}
size_t gighull_lines(const uint8_t *input, size_t input_len, uint8_t *out, size_t out_len, size_t *written) {
    size_t read = own_lines(input, input_len, out, out_len, written);
    for (size_t i = 0; i + 4 <= read; i += 4)
        if (IS_OTHER((input[i] | input[i + 1] << 8 | input[i + 2] << 16 | (uint32_t)input[i + 3] << 24)))
            out[0] = '?';
    return read;
}
"#;

#[test]
fn archivespeed_refuses_other_archives() {
    let folder = new_folder("archives");
    // The linker does not mind that these are single objects.
    let compiled = |name: &str, source: &str| {
        let (page, archive) = (format!("{folder}/{name}.c"), format!("{folder}/{name}.a"));
        fs::write(&page, source).unwrap();
        let options = ["-c", "-fPIC", "-I", HEADERS, &page, "-o", &archive];
        assert!(called("cc", &options).status.success());
        archive
    };
    let empty = compiled("empty", "int nothing;\n");
    let line = "there is no gighull_run in it\n";
    for arguments in [[ARCHIVE, &empty], [&empty, ARCHIVE]] {
        let output = archivespeed(&arguments);
        assert!(complained(&output), "{output:?}");
        assert!(text(&output.stderr).ends_with(line), "{output:?}");
    }
    let idle = compiled("idle", IDLE);
    let line = "archivespeed: PEXT1 B at VL 128: the machines differ\n";
    for arguments in [[ARCHIVE, &idle], [&idle, ARCHIVE]] {
        let output = archivespeed(&arguments);
        assert!(complained(&output), "{output:?}");
        assert_eq!(text(&output.stderr), line);
    }
}

/// Answers as if all words were done.
const IDLE: &str = r#"
#include "gighull.h"
uint32_t gighull_run(uint8_t *z, size_t z_len, uint8_t *p, size_t p_len, uint8_t *zt, size_t zt_len, uint32_t w12,
                     uint32_t w13, uint32_t w14, uint32_t w15, uint64_t *pc, bool v, bool s, bool t, uint32_t vl,
                     uint32_t features, const uint32_t *words, size_t words_len, size_t *done) {
    *done = words_len;
    return 0;
}
uint32_t gighull_step(uint8_t *z, size_t z_len, uint8_t *p, size_t p_len, uint8_t *zt, size_t zt_len,
                      struct gighull_scalars *scalars, uint32_t vl, uint32_t features, uint32_t word) {
    return 0;
}
size_t gighull_lines(const uint8_t *input, size_t input_len, uint8_t *out, size_t out_len, size_t *written) {
    return 0;
}
"#;

#[test]
fn archivespeed_leaves_no_file() {
    let folder = new_folder("archivespeed");
    for (after, status) in [(ARCHIVE, 0), ("Cargo.toml", 1)] {
        let output = Command::new(env!("CARGO_BIN_EXE_archivespeed"))
            .args([ARCHIVE, after, "1"])
            .env("TMPDIR", &folder)
            .output()
            .unwrap();
        assert_eq!(output.status.code(), Some(status), "{output:?}");
        assert_eq!(fs::read_dir(&folder).unwrap().count(), 0);
    }
}

#[test]
fn speedplot_writes_all_or_nothing() {
    let folder = new_folder("speedplot");
    let (table, plot) = (format!("{folder}/table.md"), format!("{folder}/plot.svg"));
    let good = "| form | VL | median | bar |\n|---|---|---|---|\n| A | 128 | 0.5 | inf |\n";
    fs::write(&table, good).unwrap();
    let output = speedplot(&[&table, &plot]);
    assert!(output.status.success() && output.stdout.is_empty());
    let drawn = fs::read(&plot).unwrap();
    assert!(drawn.ends_with(b"</svg>\n"));
    fs::write(&table, good.replace("0.5", "0,5")).unwrap();
    let output = speedplot(&[&table, &plot]);
    assert_eq!(output.status.code(), Some(1));
    let line = text(&output.stderr);
    assert!(line.ends_with("line 3: \"0,5\" is no ratio\n"), "{line}");
    assert_eq!(fs::read(&plot).unwrap(), drawn);
    assert_eq!(fs::read_dir(&folder).unwrap().count(), 2);
}

#[test]
fn wrong_use_is_one_line_and_a_status() {
    let outputs = [
        listcheck(&[]),
        listcheck(&["cat", "x"]),
        listcheck(&["no-such-program"]),
        listspeed(&["cat", "cat"]),
        listspeed(&["cat", "cat", "Cargo.toml", "0"]),
        listspeed(&["cat", "cat", "no-such-file"]),
        listspeed(&["cat", "no-such-program", "Cargo.toml"]),
        archivespeed(&[ARCHIVE]),
        archivespeed(&[ARCHIVE, ARCHIVE, "0"]),
        archivespeed(&[ARCHIVE, ARCHIVE, "1", "1"]),
        archivespeed(&[ARCHIVE, "no-such-file"]),
        archivespeed(&["no-such-file", ARCHIVE]),
        archivespeed(&["src", ARCHIVE]),
        archivespeed(&["Cargo.toml", ARCHIVE]),
        speedplot(&["Cargo.toml"]),
        speedplot(&["Cargo.toml", "no-such-folder/plot.svg"]),
        speedplot(&["no-such-file", "no-such-folder/plot.svg"]),
    ];
    for output in outputs {
        assert!(complained(&output), "{output:?}");
    }
}
