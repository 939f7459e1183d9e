//! The byte source of the runs (document 01, error.rs and io.rs): a lent map and a position.

use mapsforge_rs::error::MapforgeError;
use mapsforge_rs::io::{ByteRead, ByteSource};
use mapsforge_rs::Result;

/// Seeking always succeeds, also past the end; a read that needs bytes past the end is refused and
/// leaves the position; a read of 0 bytes succeeds anywhere.
pub struct Source<'a> {
    shown: &'a [u8],
    map: &'a [u8],
    at: u64,
}

impl<'a> Source<'a> {
    pub fn new(map: &'a [u8]) -> Self {
        Source::with_header(map, map)
    }

    /// A map that shows another header. Places past the header are only reached by seeking, so from
    /// the first seek on the map itself is shown.
    pub fn with_header(header: &'a [u8], map: &'a [u8]) -> Self {
        Source { shown: header, map, at: 0 }
    }

    /// The map itself.
    pub fn map(&self) -> &'a [u8] {
        self.map
    }

    /// The place of the next byte.
    pub fn at(&self) -> u64 {
        self.at
    }

    /// The next `size` bytes, if the map has them.
    fn ahead(&self, size: usize) -> Option<&'a [u8]> {
        let start = usize::try_from(self.at).ok()?;
        self.shown.get(start..start.checked_add(size)?)
    }
}

impl ByteRead for Source<'_> {
    fn read_bytes(&mut self, buf: &mut [u8]) -> Result<()> {
        if buf.is_empty() {
            return Ok(());
        }
        let bytes = self.ahead(buf.len()).ok_or(MapforgeError::Source)?;
        buf.copy_from_slice(bytes);
        self.at += bytes.len() as u64;
        Ok(())
    }
}

impl ByteSource for Source<'_> {
    fn seek_to(&mut self, pos: u64) -> Result<()> {
        self.shown = self.map;
        self.at = pos;
        Ok(())
    }

    fn position(&mut self) -> Result<u64> {
        Ok(self.at)
    }
}
