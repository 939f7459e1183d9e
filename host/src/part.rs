//! Parts of the map: texts and signatures as they are stored.

use crate::{raw, word};
use std::fmt;

/// A part of the map's bytes: a text as stored, or a signature.
///
/// Its `Display` replaces what is no UTF-8 by U+FFFD, as the library does.
#[derive(Clone, Copy, Debug, PartialEq, Eq, Hash)]
pub struct Part<'a> {
    bytes: &'a [u8],
    start: usize,
}

impl<'a> Part<'a> {
    /// The part at a place, cut at the map's end.
    pub(crate) fn new(map: &'a [u8], start: u64, size: u64) -> Part<'a> {
        let start = usize::try_from(start).unwrap_or(map.len()).min(map.len());
        let size = usize::try_from(size).unwrap_or(map.len()).min(map.len() - start);
        Part { bytes: &map[start..start + size], start }
    }

    /// The part that the words at the front name, if it is there.
    pub(crate) fn from_words(map: &'a [u8], words: &[u64]) -> Option<Part<'a>> {
        let (start, size) = (words[word::PART_PLACE], words[word::PART_SIZE]);
        (words[word::PART_THERE] != 0).then(|| Part::new(map, start, size))
    }

    /// The bytes as stored.
    pub fn bytes(self) -> &'a [u8] {
        self.bytes
    }

    /// The place of the first one in the map.
    pub fn start(self) -> usize {
        self.start
    }

    /// The text, if it is UTF-8.
    pub fn as_str(self) -> Option<&'a str> {
        std::str::from_utf8(self.bytes).ok()
    }

    /// The text with each ill-formed part replaced by U+FFFD.
    pub fn to_text(self) -> String {
        let mut words = [0; word::TEXT_WORDS];
        let mut buffer = vec![0; self.bytes.len()];
        if raw::text(self.bytes, &mut buffer, &mut words) == 15 {
            buffer = vec![0; words[word::NEEDED_BUFFER] as usize];
            raw::text(self.bytes, &mut buffer, &mut words);
        }
        buffer.truncate(words[word::TEXT_SIZE] as usize);
        String::from_utf8_lossy(&buffer).into_owned()
    }
}

impl fmt::Display for Part<'_> {
    fn fmt(&self, f: &mut fmt::Formatter<'_>) -> fmt::Result {
        f.pad(&self.to_text())
    }
}
