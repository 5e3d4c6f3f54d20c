//! Archives of the proved library (`libgighull.a`), opened in this process one
//! beside the other, each as shared objects of its own.

use std::ffi::OsStr;
use std::fs;
use std::io;
use std::path::{Path, PathBuf};
use std::process::Command;
use std::sync::atomic::{AtomicU32, Ordering};

use crate::functions::Functions;
use crate::object::Object;

/// How often an archive is opened. Now and then one of many copies of the same
/// code is slower by some per cent, as it seems for where it lies; so rounds go
/// from copy to copy.
pub const COPIES: usize = 4;

/// An archive that is open until the process ends.
pub struct Archive {
    /// FNV-1a of its bytes, in hex.
    pub hash: String,
    /// The version of its interface.
    pub version: u32,
    copies: Vec<Functions>,
}

impl Archive {
    /// Says in one line what is wrong.
    pub fn open(path: &OsStr) -> Result<Archive, String> {
        let opened = fs::read(path)
            .map_err(|error| error.to_string())
            .and_then(|bytes| Archive::of(&bytes));
        opened.map_err(|problem| format!("{}: {problem}", path.display()))
    }

    /// Links just the bytes that the hash is of.
    fn of(bytes: &[u8]) -> Result<Archive, String> {
        // Gone when this returns: what is open stays.
        let folder = Folder::fresh().map_err(|error| format!("a temporary folder: {error}"))?;
        let path = |name: &str| folder.0.join(name);
        let (archive, object) = (path("libgighull.a"), path("libgighull.so"));
        write(&archive, bytes)?;
        link(&archive, &object)?;
        let code = fs::read(&object).map_err(|error| format!("{}: {error}", object.display()))?;
        let mut version = 0;
        let copies = (0..COPIES).map(|number| {
            let copy = path(&format!("{number}.so"));
            write(&copy, &code)?;
            let object = Object::open(&copy)?;
            version = Functions::version(&object);
            Functions::of(&object)
        });
        Ok(Archive {
            hash: hash(bytes),
            copies: copies.collect::<Result<_, String>>()?,
            version,
        })
    }

    /// The functions for a round: of one copy for two rounds, so that each copy
    /// goes first and second.
    pub fn functions(&self, round: usize) -> &Functions {
        &self.copies[round / 2 % COPIES]
    }

    /// Whether no object is of both: else one side would be timed twice.
    pub fn is_apart_from(&self, other: &Archive) -> bool {
        let bases = |archive: &Archive| {
            let copies = archive.copies.iter();
            copies.flat_map(Functions::bases).collect::<Vec<_>>()
        };
        let others = bases(other);
        let apart = |base: &Option<usize>| base.is_some() && !others.contains(base);
        bases(self).iter().all(apart)
    }
}

/// FNV-1a in hex, as the build script of `gighull` has it.
fn hash(bytes: &[u8]) -> String {
    let hash = bytes.iter().fold(0xcbf2_9ce4_8422_2325_u64, |hash, &byte| {
        (hash ^ u64::from(byte)).wrapping_mul(0x0000_0100_0000_01b3)
    });
    format!("{hash:016x}")
}

fn write(path: &Path, bytes: &[u8]) -> Result<(), String> {
    fs::write(path, bytes).map_err(|error| format!("{}: {error}", path.display()))
}

/// A folder that nobody else has, as long as this lives.
struct Folder(PathBuf);

impl Folder {
    fn fresh() -> io::Result<Folder> {
        // Counted on, so that no object has a name that is open already.
        static NUMBER: AtomicU32 = AtomicU32::new(0);
        let parent = std::env::temp_dir().canonicalize()?;
        let process = std::process::id();
        loop {
            let number = NUMBER.fetch_add(1, Ordering::Relaxed);
            let folder = parent.join(format!("gighull-archive-{process}-{number}"));
            match fs::create_dir(&folder) {
                Ok(()) => return Ok(Folder(folder)),
                Err(error) if error.kind() == io::ErrorKind::AlreadyExists => {}
                Err(error) => return Err(error),
            }
        }
    }
}

impl Drop for Folder {
    fn drop(&mut self) {
        let _ = fs::remove_dir_all(&self.0);
    }
}

/// Begins every function at a multiple of 64 bytes. Where in a cache line it
/// begins can change its time by some per cent, and would depend on the lengths
/// of the functions before it.
const ALIGNED: &str =
    "SECTIONS { .aligned : SUBALIGN(64) { *(.text .text.*) } } INSERT BEFORE .text;\n";

/// All of the archive is in the object, which calls its own functions and takes
/// none but the C library's.
fn link(archive: &Path, object: &Path) -> Result<(), String> {
    let script = archive.with_extension("ld");
    write(&script, ALIGNED.as_bytes())?;
    let mut linker = Command::new("cc");
    linker
        .args(["-shared", "-Wl,-Bsymbolic", "-Wl,-z,defs", "-Wl,-z,text"])
        .arg("-T")
        .arg(script)
        .arg("-Wl,--whole-archive")
        .arg(archive)
        .arg("-Wl,--no-whole-archive")
        .arg("-o")
        .arg(object);
    let output = linker.output().map_err(|error| format!("cc: {error}"))?;
    if output.status.success() {
        return Ok(());
    }
    let complaint = String::from_utf8_lossy(&output.stderr);
    let line = complaint.lines().next().unwrap_or_default();
    Err(format!("cc: {}: {line}", output.status))
}

#[cfg(test)]
mod tests {
    use super::*;
    use gighull::ffi;

    #[test]
    fn copies_are_apart() {
        let [a, b] = [(); 2].map(|()| Archive::open(OsStr::new(ffi::ARCHIVE)).unwrap());
        assert!(a.is_apart_from(&b) && b.is_apart_from(&a));
        assert!(!a.is_apart_from(&a));
        let bases = |round| a.functions(round).bases();
        let program = crate::object::base(ffi::c::gighull_run as *const () as usize);
        for round in 0..2 * COPIES {
            // One object for the three, which is neither another copy nor the
            // program.
            assert_eq!(bases(round), [bases(round)[0]; 3]);
            assert_eq!(bases(round) == bases(0), round < 2);
            assert_ne!(bases(round)[0], program);
        }
        assert_eq!(bases(2 * COPIES), bases(0));
    }

    #[test]
    fn an_archive_does_its_work() {
        let archive = Archive::open(OsStr::new(ffi::ARCHIVE)).unwrap();
        assert_eq!(archive.hash, ffi::ARCHIVE_HASH);
        assert_eq!(archive.version, gighull::INTERFACE_VERSION);
        for round in 0..2 * COPIES {
            let (input, mut out) = ([0x10, 0x70, 0x20, 0x25, 0xff], [0; 40]);
            assert_eq!(archive.functions(round).lines(&input, &mut out), (5, 23));
            assert_eq!(&out[..23], b"25207010 PEXT1\nSHORT 1\n");
        }
    }

    #[test]
    fn only_its_own_functions_are_found() {
        let folder = Folder::fresh().unwrap();
        let path = folder.0.join("libgighull.so");
        link(Path::new(ffi::ARCHIVE), &path).unwrap();
        let object = Object::open(&path).unwrap();
        assert!(object.function(c"gighull_run").is_ok());
        // The C library's, whether it is linked with that or not.
        assert!(object.function(c"memcpy").is_err());
        assert!(object.function(c"gighull_walk").is_err());
    }

    #[test]
    fn functions_begin_with_a_cache_line() {
        let archive = Archive::open(OsStr::new(ffi::ARCHIVE)).unwrap();
        assert_eq!(archive.functions(0).addresses().map(|at| at % 64), [0; 3]);
    }

    #[test]
    fn nothing_is_left_behind() {
        let folder = Folder::fresh().unwrap();
        let path = folder.0.clone();
        fs::write(path.join("a"), "a").unwrap();
        assert_ne!(Folder::fresh().unwrap().0, path);
        drop(folder);
        assert!(!path.exists());
    }
}
