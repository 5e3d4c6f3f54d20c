//! Request 8 changes neither words nor results: the questions about steps,
//! conflicts, runs and permission, and their answers, are as they were before
//! it. Held as FNV-1a hashes of what the program printed then.

use std::io::Write;
use std::process::{Command, Stdio};

use reference::expand::hash;

fn printed(arguments: &[&str], input: &[u8]) -> Vec<u8> {
    let mut child = Command::new(env!("CARGO_BIN_EXE_reference"))
        .args(arguments)
        .stdin(Stdio::piped())
        .stdout(Stdio::piped())
        .spawn()
        .unwrap();
    let mut pipe = child.stdin.take().unwrap();
    let input = input.to_vec();
    let feeder = std::thread::spawn(move || pipe.write_all(&input));
    let output = child.wait_with_output().unwrap();
    feeder.join().unwrap().unwrap();
    assert!(output.status.success());
    output.stdout
}

#[test]
fn questions_and_answers_as_they_were_before_request_8() {
    for (command, seed, questions, answers) in [
        (
            "step-questions",
            "1",
            0xe72c_97df_7648_dc93,
            0x176c_80da_62bb_000c,
        ),
        (
            "conflict-questions",
            "1",
            0x79b3_07d6_8468_d336,
            0x80b4_9015_a44a_8049,
        ),
        (
            "conflict-questions",
            "2",
            0x719d_7881_01e6_cbf9,
            0x6576_1742_d354_fe89,
        ),
        (
            "run-questions",
            "1",
            0x8e26_d071_060f_26cf,
            0x437d_2b35_0ece_16bc,
        ),
        (
            "permitted-questions",
            "1",
            0xff11_76c1_0e4f_77a6,
            0xf696_fd81_53b3_c8d3,
        ),
    ] {
        let asked = printed(&[command, seed], b"");
        assert_eq!(hash(&asked), questions, "{command} {seed}");
        let answered = printed(&["answers"], &asked);
        assert_eq!(hash(&answered), answers, "{command} {seed}");
    }
}
