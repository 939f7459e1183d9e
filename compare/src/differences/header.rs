//! Headers with a text whose length `read_vbe_u` cannot hold.

use std::ops::Range;

use super::{number, text, unsigned, Text, TEXT_LIMIT};
use crate::answer::Answer;

/// The bytes from the magic bytes to the tile size.
const FRONT: usize = 20 + 4 + 4 + 8 + 8 + 16 + 2;
/// The sizes of start position and start zoom, with their flags.
const FIXED: [(u8, usize); 2] = [(0x40, 8), (0x20, 1)];
/// The flags of language, comment and created by.
const TEXTS: [u8; 3] = [0x10, 0x08, 0x04];
/// A length of at most 2^20 is in the first three bytes of a padded one.
const PLAIN_BYTES: usize = 3;

/// What the Rust is shown in place of a map's header.
pub struct Header {
    /// The header with each padded length in three bytes. It ends before a text that the port refuses
    /// and the Rust would not, so that the Rust gives either an earlier refusal or 1.
    pub plain: Vec<u8>,
    /// The port's refusal of that text.
    pub refusal: Option<Answer>,
}

/// "`read_vbe_u` keeps 32 bits, so length 80 80 80 80 10 becomes 0; here it is 9." None if no text
/// that the header is read up to has such a length.
pub fn header(map: &[u8]) -> Option<Header> {
    let mut walk = Walk::of(map);
    walk.header();
    let Walk { left, mut plain, refusal, padded, .. } = walk;
    match refusal {
        None if !padded => return None,
        None => plain.extend(left),
        Some(_) => {}
    }
    Some(Header { plain, refusal })
}

/// Where the parts of a header stand that can be read.
#[cfg(feature = "both")]
pub struct HeaderParts {
    /// Projection, language, comment, created by, and all tags, as far as they are there.
    pub texts: Vec<Range<usize>>,
    /// Where each of these starts, which is the first byte of its length.
    pub starts: Vec<usize>,
    /// The places of the points' and the ways' first tag.
    pub tables: [usize; 2],
    /// The place of the number of intervals.
    pub intervals: usize,
}

#[cfg(feature = "both")]
pub fn header_parts(map: &[u8]) -> Option<HeaderParts> {
    let mut walk = Walk::of(map);
    walk.header()?;
    let [.., points, ways] = walk.tables[..] else { return None };
    let intervals = walk.at();
    let (texts, starts) = (walk.texts, walk.starts);
    Some(HeaderParts { texts, starts, tables: [points, ways], intervals })
}

/// The way through a header as far as its texts go, whether or not its other fields are good.
struct Walk<'a> {
    left: &'a [u8],
    plain: Vec<u8>,
    refusal: Option<Answer>,
    padded: bool,
    length: usize,
    texts: Vec<Range<usize>>,
    #[cfg_attr(not(feature = "both"), allow(dead_code))]
    starts: Vec<usize>,
    tables: Vec<usize>,
}

impl<'a> Walk<'a> {
    fn of(map: &'a [u8]) -> Self {
        let (plain, texts, tables) = (Vec::new(), Vec::new(), Vec::new());
        let (length, starts) = (map.len(), Vec::new());
        Walk { left: map, plain, refusal: None, padded: false, length, texts, starts, tables }
    }

    fn at(&self) -> usize {
        self.length - self.left.len()
    }

    /// None where the way ends early: at the map's end, or at a text that is refused.
    fn header(&mut self) -> Option<()> {
        self.bytes(FRONT)?;
        self.text()?;
        let flags = self.bytes(1)?[0];
        for (_, size) in FIXED.iter().filter(|(flag, _)| flags & flag != 0) {
            self.bytes(*size)?;
        }
        for _ in TEXTS.iter().filter(|&flag| flags & flag != 0) {
            self.text()?;
        }
        self.tags()?;
        self.tags()
    }

    fn tags(&mut self) -> Option<()> {
        let count = self.bytes(2)?;
        self.tables.push(self.at());
        for _ in 0..u16::from_be_bytes([count[0], count[1]]) {
            self.text()?;
        }
        Some(())
    }

    fn text(&mut self) -> Option<()> {
        self.starts.push(self.at());
        match text(self.left) {
            Some(Text::Refused(refusal)) => {
                self.refusal = Some(refusal);
                None
            }
            Some(Text::Stored { start, size }) => {
                self.length_in_three_bytes(start);
                self.stored(size)
            }
            None => {
                let length = number(self.left)?;
                let size = Some(unsigned(length)).filter(|&size| size <= TEXT_LIMIT)?;
                self.bytes(length.len())?;
                self.stored(size as usize)
            }
        }
    }

    fn stored(&mut self, size: usize) -> Option<()> {
        self.texts.push(self.at()..self.at() + size);
        self.bytes(size).map(drop)
    }

    fn length_in_three_bytes(&mut self, size: usize) {
        self.padded = true;
        self.plain.extend(&self.left[..PLAIN_BYTES]);
        let last = self.plain.len() - 1;
        self.plain[last] &= 0x7F;
        self.left = &self.left[size..];
    }

    fn bytes(&mut self, size: usize) -> Option<&'a [u8]> {
        let (bytes, left) = self.left.split_at_checked(size)?;
        self.plain.extend(bytes);
        self.left = left;
        Some(bytes)
    }
}
