//! Links the proved library, target/staticlib/libgighull.a of this repository.
//!
//! Where the archive is missing, or is older than the crates that it is made
//! of, the kit proves and writes it (`./library`, which may take
//! minutes), and a warning says so. The environment variable
//! GIGHULL_STATICLIB names a folder with another archive; that one is taken as
//! it is, whatever its age, and a warning says so too.
//!
//! An archive whose interface has another version than the crate is written for
//! is refused.

use std::collections::BTreeSet;
use std::fs;
use std::path::{Path, PathBuf};
use std::process::Command;
use std::time::SystemTime;

#[path = "src/version.rs"]
mod version;

use version::INTERFACE_VERSION;

const ARCHIVE: &str = "libgighull.a";
const OTHER_FOLDER: &str = "GIGHULL_STATICLIB";

fn main() {
    println!("cargo::rerun-if-env-changed={OTHER_FOLDER}");
    let folder = match std::env::var_os(OTHER_FOLDER) {
        Some(folder) => other(&PathBuf::from(folder)),
        None => own(&Path::new(env!("CARGO_MANIFEST_DIR")).join("../..")),
    };
    let folder = folder
        .canonicalize()
        .unwrap_or_else(|error| panic!("{}: {error}", folder.display()));
    let archive = folder.join(ARCHIVE);
    println!("cargo::rerun-if-changed={}", archive.display());
    println!("cargo::rerun-if-changed=src/version.rs");
    let bytes = fs::read(&archive).unwrap_or_else(|error| panic!("{}: {error}", archive.display()));
    let version = version_of(&archive, &bytes);
    assert!(
        version == INTERFACE_VERSION,
        "{} has version {version} of the interface, and this crate is for {INTERFACE_VERSION}",
        archive.display()
    );
    println!("cargo::rustc-env=GIGHULL_ARCHIVE={}", archive.display());
    println!("cargo::rustc-env=GIGHULL_ARCHIVE_HASH={}", hash(&bytes));
    println!("cargo::rustc-link-search=native={}", folder.display());
    println!("cargo::rustc-link-lib=static=gighull");
}

/// An archive that somebody named.
fn other(folder: &Path) -> PathBuf {
    let archive = folder.join(ARCHIVE);
    assert!(
        archive.exists(),
        "{OTHER_FOLDER}: there is no {}",
        archive.display()
    );
    println!(
        "cargo::warning={OTHER_FOLDER}: {} is taken as it is",
        archive.display()
    );
    folder.to_path_buf()
}

/// This repository's archive, made anew where it must be.
fn own(root: &Path) -> PathBuf {
    let folder = root.join("target/staticlib");
    let archive = folder.join(ARCHIVE);
    let sources = sources(root);
    for source in &sources {
        println!("cargo::rerun-if-changed={}", source.display());
    }
    let newest = sources.iter().map(|source| newest(source)).max();
    let newest = newest.expect("crates.txt is one of the sources");
    let reason = match changed(&archive) {
        None => "is not there",
        Some(made) if made < newest => "is older than its crates",
        Some(_) => return folder,
    };
    println!("cargo::warning=target/staticlib/{ARCHIVE} {reason}: ./library");
    let status = Command::new(root.join("library"))
        .status()
        .expect("the repository has its script `library`");
    assert!(status.success(), "./library: {status}");
    // The kit may leave an archive alone that is still right.
    fs::File::open(&archive)
        .and_then(|file| file.set_modified(SystemTime::now()))
        .unwrap_or_else(|error| panic!("{}: {error}", archive.display()));
    folder
}

/// What the archive is made of: the list of crates, and the code, definitions
/// and proofs of `gighull` and of all that it depends on.
fn sources(root: &Path) -> Vec<PathBuf> {
    let list = root.join("crates.txt");
    let text =
        fs::read_to_string(&list).unwrap_or_else(|error| panic!("{}: {error}", list.display()));
    let needs = |name: &str| {
        let line = text.lines().find_map(|line| {
            let (start, rest) = line.split_once(':')?;
            (start.split_whitespace().next() == Some(name)).then_some(rest)
        });
        line.unwrap_or("").split_whitespace()
    };
    let mut names = BTreeSet::from(["gighull"]);
    let mut open = vec!["gighull"];
    while let Some(name) = open.pop() {
        open.extend(needs(name).filter(|&need| names.insert(need)));
    }
    let mut sources = vec![list];
    for name in names {
        for part in ["src", "specs", "proofs"] {
            let path = root.join("crates").join(name).join(part);
            // A dependency may be a crate of the kit, which is not here.
            if path.exists() {
                sources.push(path);
            }
        }
    }
    sources
}

/// What the archive says of itself, by a program that asks it. One without the
/// function is older than the numbers, and counts as 1.
fn version_of(archive: &Path, bytes: &[u8]) -> u32 {
    const FUNCTION: &str = "gighull_interface_version";
    if !bytes
        .windows(FUNCTION.len())
        .any(|part| part == FUNCTION.as_bytes())
    {
        return 1;
    }
    let folder = PathBuf::from(std::env::var_os("OUT_DIR").expect("cargo sets OUT_DIR"));
    let (page, program) = (folder.join("version.c"), folder.join("version"));
    let text = format!(
        "#include <stdio.h>\nunsigned {FUNCTION}(void);\n\
         int main(void) {{ printf(\"%u\", {FUNCTION}()); return 0; }}\n"
    );
    fs::write(&page, text).unwrap_or_else(|error| panic!("{}: {error}", page.display()));
    let mut compiler = Command::new("cc");
    compiler.arg(&page).arg(archive).arg("-o").arg(&program);
    let compiled = compiler.status().expect("a C compiler is there");
    assert!(compiled.success(), "cc: {compiled}");
    let asked = Command::new(&program).output();
    let answer = asked.unwrap_or_else(|error| panic!("{}: {error}", program.display()));
    let text = String::from_utf8_lossy(&answer.stdout).into_owned();
    text.parse()
        .unwrap_or_else(|_| panic!("{}: {text:?} is no version", archive.display()))
}

/// FNV-1a of the archive's bytes, for figures to name it by.
fn hash(bytes: &[u8]) -> String {
    let hash = bytes.iter().fold(0xcbf2_9ce4_8422_2325_u64, |hash, &byte| {
        (hash ^ u64::from(byte)).wrapping_mul(0x0000_0100_0000_01b3)
    });
    format!("{hash:016x}")
}

fn changed(path: &Path) -> Option<SystemTime> {
    fs::metadata(path).and_then(|data| data.modified()).ok()
}

/// When a file, or any file or folder below a folder, last changed.
fn newest(path: &Path) -> SystemTime {
    let mut newest = changed(path).unwrap_or(SystemTime::UNIX_EPOCH);
    if let Ok(entries) = fs::read_dir(path) {
        for entry in entries.flatten() {
            newest = newest.max(self::newest(&entry.path()));
        }
    }
    newest
}
