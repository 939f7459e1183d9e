//! Files that the command writes.

use crate::input::{Source, MAGIC};
use crate::{reason, Failure};
use std::fs::{self, File};
use std::io::{Read, Write};
use std::os::unix::fs::MetadataExt;
use std::path::Path;

/// Whether two paths lead to one file, by whatever names.
fn same(one: &Path, other: &Path) -> bool {
    match (fs::metadata(one), fs::metadata(other)) {
        (Ok(one), Ok(other)) => (one.dev(), one.ino()) == (other.dev(), other.ino()),
        _ => false,
    }
}

/// Whether a file is there and starts as a map does.
fn is_map(path: &Path) -> bool {
    let mut front = [0; MAGIC.len()];
    // A pipe is not read: somebody may wait for what is written to it.
    if !fs::metadata(path).is_ok_and(|about| about.is_file()) {
        return false;
    }
    let read = File::open(path).and_then(|mut file| file.read_exact(&mut front));
    read.is_ok() && front == MAGIC
}

/// Opens a file to write to, unless it is one that is read, or another map.
pub fn create(to: &str, sources: &[Source]) -> Result<File, Failure> {
    let path = Path::new(to);
    if let Some(source) = sources.iter().find(|source| same(path, source.file())) {
        let text = format!("cannot write {to}: it is the map {}: name another file", source.name);
        return Err(Failure::Mistake(text));
    }
    if is_map(path) {
        return Err(Failure::Mistake(format!("cannot write {to}: it is a map: name another file")));
    }
    File::create(path).map_err(|error| unwritten(to, &error))
}

/// Writes a whole file, or to standard output where none is named.
pub fn write(
    to: Option<&str>,
    sources: &[Source],
    content: &[u8],
    out: &mut dyn Write,
) -> Result<(), Failure> {
    match to {
        None | Some("-") => Ok(out.write_all(content)?),
        Some(to) => {
            let mut file = create(to, sources)?;
            file.write_all(content).map_err(|error| unwritten(to, &error))
        }
    }
}

pub fn unwritten(to: &str, error: &std::io::Error) -> Failure {
    Failure::Mistake(format!("cannot write {to}: {}", reason(error)))
}
