//! The binary against the reference on whole inputs.

use std::io::Write;
use std::process::{Command, Stdio};

use reference::lister::list;
use reference::samples::listing_words;

fn fastlist(chunks: Vec<Vec<u8>>) -> Vec<u8> {
    let mut child = Command::new(env!("CARGO_BIN_EXE_fastlist"))
        .stdin(Stdio::piped())
        .stdout(Stdio::piped())
        .spawn()
        .unwrap();
    let mut pipe = child.stdin.take().unwrap();
    let feeder = std::thread::spawn(move || {
        for chunk in chunks {
            pipe.write_all(&chunk).unwrap();
            pipe.flush().unwrap();
        }
    });
    let output = child.wait_with_output().unwrap();
    feeder.join().unwrap();
    assert!(output.status.success());
    output.stdout
}

#[test]
fn example_of_document_01() {
    let input = [
        0x10, 0x70, 0x20, 0x25, 0x00, 0x40, 0x20, 0x25, 0x00, 0x38, 0x28, 0x45,
    ];
    let text = b"25207010 PEXT1\n25204000 UNDEFINED\n45283800 UQRSHRNB\n";
    assert_eq!(fastlist(vec![input.to_vec()]), text);
}

#[test]
fn lengths_and_chunks() {
    let bytes: Vec<u8> = listing_words(2, 50_000)
        .flat_map(|word| word.to_le_bytes())
        .collect();
    let lengths = (0..12)
        .chain(65_533..65_541)
        .chain([131_071, 131_072, 199_999]);
    for length in lengths {
        let input = &bytes[..length];
        for step in [7, 4093, 65_535] {
            let chunks = input.chunks(step).map(<[u8]>::to_vec).collect();
            assert_eq!(
                fastlist(chunks),
                list(input),
                "length {length}, step {step}"
            );
        }
    }
}
