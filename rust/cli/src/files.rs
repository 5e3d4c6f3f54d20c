//! Files that are written whole or not at all.

use std::fs::{self, File};
use std::io::{self, Write};
use std::path::{Path, PathBuf};

use crate::failure::Failure;

/// A file that stands beside its place until it takes it. Dropped before
/// that, it is removed.
struct Pending {
    beside: PathBuf,
    place: PathBuf,
}

impl Pending {
    fn write(path: &Path, number: usize, text: &str) -> io::Result<Pending> {
        let place = place_of(path)?;
        let name = place
            .file_name()
            .ok_or_else(|| io::Error::other("this is no file's name"))?;
        let mut beside = std::ffi::OsString::from(".");
        beside.push(name);
        beside.push(format!(".{}-{number}.part", std::process::id()));
        let pending = Pending {
            beside: place.with_file_name(beside),
            place,
        };
        let mut file = File::create_new(&pending.beside)?;
        file.write_all(text.as_bytes())?;
        file.sync_all()?;
        Ok(pending)
    }

    fn take_place(self) -> io::Result<()> {
        fs::rename(&self.beside, &self.place)
    }
}

impl Drop for Pending {
    fn drop(&mut self) {
        // Where it has taken its place there is nothing left to remove.
        let _ = fs::remove_file(&self.beside);
    }
}

/// Where a file is to stand: behind links, and never over a folder or device.
fn place_of(path: &Path) -> io::Result<PathBuf> {
    match fs::canonicalize(path) {
        Ok(place) if place.is_file() => Ok(place),
        Ok(_) => Err(io::Error::other("there is something that is no plain file")),
        Err(error) if error.kind() == io::ErrorKind::NotFound => Ok(path.to_path_buf()),
        Err(error) => Err(error),
    }
}

/// Writes all of them; where one cannot be written, none is there.
pub fn write(files: &[(&Path, String)]) -> Result<(), Failure> {
    let mut pending = Vec::new();
    for (number, (path, text)) in files.iter().enumerate() {
        let written = Pending::write(path, number, text);
        pending.push(written.map_err(|error| Failure::of_file(path, &error))?);
    }
    for (file, (path, _)) in pending.into_iter().zip(files) {
        file.take_place()
            .map_err(|error| Failure::of_file(path, &error))?;
    }
    Ok(())
}

/// Whether two paths lead to one file, that is there or is to be written.
pub fn same(a: &Path, b: &Path) -> bool {
    let place = |path: &Path| {
        let folder = match path.parent() {
            Some(folder) if folder != Path::new("") => folder,
            _ => Path::new("."),
        };
        fs::canonicalize(path).ok().or_else(|| {
            let folder = fs::canonicalize(folder).ok()?;
            Some(folder.join(path.file_name()?))
        })
    };
    a == b || place(a).is_some_and(|place_of_a| Some(place_of_a) == place(b))
}
