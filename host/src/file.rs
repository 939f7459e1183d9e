//! Map files.

use crate::raw::Mapping;
use crate::{Map, Refusal};
use std::fs::{self, File};
use std::io::{self, Read};
use std::os::unix::fs::FileTypeExt;
use std::path::Path;

/// A map file's bytes, mapped into memory: only the parts that are read are loaded.
///
/// The file must not be changed while this value lives. The mapping is private and read-only, so nothing that this
/// program does can change the file; but if another program writes to it, the bytes seen here may change, and if one
/// makes it shorter, reading what is gone ends this program by a signal (SIGBUS). Programs that replace a map should
/// write a new file and rename it. Where that cannot be relied on, use [`MapFile::read`].
///
/// ```
/// # use mapsforge::MapFile;
/// let file = MapFile::open(concat!(env!("CARGO_MANIFEST_DIR"), "/../maps/islands.map"))?;
/// assert_eq!(file.bytes().len(), 29815);
/// assert_eq!(file.map()?.header().version, 5);
/// # Ok::<(), Box<dyn std::error::Error>>(())
/// ```
#[derive(Debug)]
pub struct MapFile {
    content: Content,
}

/// How much is read before the header is looked at.
const FIRST_READ: u64 = 1 << 16;

/// Refuses what is no regular file. It is asked before opening, which would wait at a pipe for somebody to write to it.
fn regular(path: &Path) -> io::Result<()> {
    let about = fs::metadata(path)?;
    if about.is_file() {
        return Ok(());
    }
    let text = format!("it is {}, not a file", file_kind(about.file_type()));
    Err(io::Error::new(io::ErrorKind::InvalidInput, text))
}

/// What a file is that is none, in a word.
fn file_kind(kind: fs::FileType) -> &'static str {
    if kind.is_dir() {
        "a folder"
    } else if kind.is_fifo() {
        "a pipe"
    } else if kind.is_socket() {
        "a socket"
    } else {
        "a device"
    }
}

#[derive(Debug)]
enum Content {
    Mapped(Mapping),
    Read(Vec<u8>),
}

impl MapFile {
    /// Maps a file into memory. What is no regular file (a folder, a pipe, a device) is refused: reading it may never end. Pipes
    /// are for [`MapFile::from_reader`].
    pub fn open(path: impl AsRef<Path>) -> io::Result<MapFile> {
        regular(path.as_ref())?;
        let file = File::open(path)?;
        let length = usize::try_from(file.metadata()?.len()).map_err(io::Error::other)?;
        if length == 0 {
            return Ok(MapFile { content: Content::Read(Vec::new()) });
        }
        Ok(MapFile { content: Content::Mapped(Mapping::new(&file, length)?) })
    }

    /// Reads a map from something that may have no end. It reads until the map opens, then as far as the header says that
    /// the file goes and one byte more, by which what is behind it is noticed. It stops at once where this is no map, and
    /// at `most` bytes with an error.
    pub fn from_reader(mut reader: impl Read, most: u64) -> io::Result<MapFile> {
        let mut bytes = Vec::new();
        let mut wanted = FIRST_READ.min(most);
        loop {
            let missing = wanted.saturating_sub(bytes.len() as u64);
            let ended = (reader.by_ref().take(missing).read_to_end(&mut bytes)? as u64) < missing;
            let next = match Map::open(&bytes) {
                Ok(map) => map.header().file_size.saturating_add(1),
                Err(Refusal::Source) => wanted.saturating_mul(2),
                Err(_) => wanted,
            };
            if ended || next <= wanted {
                return Ok(MapFile { content: Content::Read(bytes) });
            }
            if wanted == most {
                let text = format!("has more than {most} bytes");
                return Err(io::Error::new(io::ErrorKind::FileTooLarge, text));
            }
            wanted = next.min(most);
        }
    }

    /// Reads a file whole into this program's own memory, so that nobody can change it.
    pub fn read(path: impl AsRef<Path>) -> io::Result<MapFile> {
        regular(path.as_ref())?;
        Ok(MapFile { content: Content::Read(fs::read(path)?) })
    }

    /// The file's bytes.
    pub fn bytes(&self) -> &[u8] {
        match &self.content {
            Content::Mapped(mapping) => mapping.bytes(),
            Content::Read(bytes) => bytes,
        }
    }

    /// Opens the map.
    pub fn map(&self) -> Result<Map<'_>, Refusal> {
        Map::open(self.bytes())
    }
}
