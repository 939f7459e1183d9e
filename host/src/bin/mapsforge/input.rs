//! Map files, folders of them, and standard input.

use crate::Failure;
use mapsforge::{Map, MapFile, Refusal};
use std::ffi::OsStr;
use std::fs;
use std::io::{self, IsTerminal};
use std::path::{Path, PathBuf};

/// How a map starts.
pub const MAGIC: [u8; 20] = *b"mapsforge binary OSM";

/// What is read of standard input at the most.
const MOST: u64 = 1 << 30;

/// A map that was named, or found in a folder that was.
#[derive(Clone, Debug, PartialEq, Eq)]
pub struct Source {
    /// As it was named.
    pub name: String,
    from: Origin,
}

#[derive(Clone, Debug, PartialEq, Eq)]
enum Origin {
    File(PathBuf),
    StandardInput,
    /// A folder that has no maps, or cannot be read, and why.
    Nothing(String),
}

impl Source {
    /// What a word of the command line names; `-` is standard input.
    pub fn named(word: &str) -> Source {
        let from = match word {
            "-" => Origin::StandardInput,
            path => Origin::File(path.into()),
        };
        Source { name: word.into(), from }
    }

    fn found(path: PathBuf) -> Source {
        Source { name: path.to_string_lossy().into_owned(), from: Origin::File(path) }
    }

    fn nothing(folder: &Path, why: &str) -> Source {
        let name = folder.to_string_lossy().into_owned();
        Source { name, from: Origin::Nothing(why.into()) }
    }

    /// The file by which the system knows it.
    pub fn file(&self) -> &Path {
        match &self.from {
            Origin::File(path) => path,
            Origin::StandardInput => Path::new("/dev/stdin"),
            Origin::Nothing(_) => Path::new(""),
        }
    }

    /// Its bytes, or a sentence.
    pub fn open(&self) -> Result<MapFile, Failure> {
        let file = match &self.from {
            Origin::File(path) => MapFile::open(path),
            Origin::StandardInput if io::stdin().is_terminal() => {
                return Err(self.unread("it is a terminal: send a map to it"))
            }
            Origin::StandardInput => MapFile::from_reader(io::stdin().lock(), MOST),
            Origin::Nothing(why) => return Err(self.unread(why)),
        };
        let file = file.map_err(|error| self.failed(&error))?;
        if file.bytes().is_empty() {
            return Err(self.unread("it is empty: copy or fetch the map again"));
        }
        Ok(file)
    }

    fn failed(&self, error: &io::Error) -> Failure {
        let advice = match error.kind() {
            io::ErrorKind::InvalidInput if self.file().is_dir() => "name a map in it",
            io::ErrorKind::InvalidInput => {
                "give the path of a map, or - and the map on standard input"
            }
            io::ErrorKind::PermissionDenied => "ask for the permission to read it",
            io::ErrorKind::FileTooLarge => "save it to a file first",
            _ => "give the path of a map",
        };
        self.unread(&format!("{}: {advice}", crate::reason(error)))
    }

    fn unread(&self, why: &str) -> Failure {
        Failure::Mistake(format!("cannot read {}: {why}", self.shown()))
    }

    fn shown(&self) -> &str {
        match self.from {
            Origin::StandardInput => "standard input",
            _ => &self.name,
        }
    }

    /// The map in its file, or a sentence.
    pub fn map<'a>(&self, file: &'a MapFile) -> Result<Map<'a>, Failure> {
        file.map().map_err(|refusal| {
            // A file too short to start as a map does may yet be seen to be none.
            let other = refusal == Refusal::Source && !is_front(file.bytes());
            let told = if other { Refusal::InvalidMagic } else { refusal };
            let number = refusal.number();
            Failure::Mistake(format!("cannot open {}: refused with {number}: {told}", self.shown()))
        })
    }
}

/// Whether bytes are the front of a map, as far as they go.
fn is_front(bytes: &[u8]) -> bool {
    MAGIC.iter().zip(bytes).all(|(one, other)| one == other)
}

/// The maps that words name, one after the other: a folder stands for all files in it and below it that end in `.map`.
pub fn sources(words: &[String]) -> Vec<Source> {
    words.iter().flat_map(|word| expand(word)).collect()
}

fn expand(word: &str) -> Vec<Source> {
    let folder = Path::new(word);
    if word == "-" || !folder.is_dir() {
        return vec![Source::named(word)];
    }
    let mut found = Vec::new();
    walk(folder, &mut found);
    if found.is_empty() {
        found.push(Source::nothing(folder, "no file in this folder ends in .map"));
    }
    found
}

/// All maps of a folder and of those in it, in the order of their names. Links to folders are not followed: they may lead
/// back.
fn walk(folder: &Path, found: &mut Vec<Source>) {
    let entries = fs::read_dir(folder).and_then(|entries| entries.collect::<io::Result<Vec<_>>>());
    let mut entries = match entries {
        Ok(entries) => entries,
        Err(error) => return found.push(Source::nothing(folder, &crate::reason(&error))),
    };
    entries.sort_by_key(fs::DirEntry::file_name);
    for entry in entries {
        let path = entry.path();
        if entry.file_type().is_ok_and(|kind| kind.is_dir()) {
            walk(&path, found);
        } else if is_map(&path) && !path.is_dir() {
            found.push(Source::found(path));
        }
    }
}

fn is_map(path: &Path) -> bool {
    path.extension().and_then(OsStr::to_str).is_some_and(|end| end.eq_ignore_ascii_case("map"))
}
