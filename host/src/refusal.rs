//! What the library refuses.

use crate::word;
use std::fmt;

/// The lengths that a call's lists and its buffer need, where they were too short.
#[derive(Clone, Copy, Debug, Default, PartialEq, Eq, Hash)]
pub struct Lengths {
    /// The lists, in the order in which the call takes them; 0 where it takes fewer.
    pub lists: [u64; 5],
    /// The buffer.
    pub buffer: u64,
}

/// A refusal: its number in document 01, and the values that come with it.
///
/// A refused call has changed nothing: a stream stands where it stood, lent lists have what they had.
///
/// ```
/// use mapsforge::{Map, Refusal};
///
/// let refusal = Map::open(&[0; 20]).unwrap_err();
/// assert_eq!(refusal, Refusal::InvalidMagic);
/// assert_eq!(refusal.number(), 2);
/// assert!(refusal.to_string().contains("is not a Mapsforge map"));
/// ```
#[derive(Clone, Copy, Debug, PartialEq, Eq, Hash)]
#[non_exhaustive]
pub enum Refusal {
    /// 1: the map ends too early: in its header, in a sub file's signature or in a feature.
    Source,
    /// 2: the file does not start as a Mapsforge map does.
    InvalidMagic,
    /// 3: a version below 3.
    UnsupportedVersion(u64),
    /// 4: a bounding box beyond the earth, or reversed.
    InvalidBoundingBox,
    /// 5: the header says that its size is 0.
    InvalidHeaderSize,
    /// 6: a sub file of a debug map does not start with its signature.
    InvalidIndexSignature,
    /// 7: a feature has a tag that the header does not have.
    InvalidTagId(u64),
    /// 8: no such sub file or tile.
    InvalidTileIndex,
    /// 9: a text of more than 2^20 bytes.
    TextTooLong,
    /// 10: a block of more than 2^20 nodes.
    TooManyNodes,
    /// 11: a number of more than nine bytes.
    NumberTooLong,
    /// 12: a coordinate above 2^53 microdegrees.
    CoordinateTooLarge,
    /// 13: a zoom interval whose minimum is above its maximum.
    ReversedInterval,
    /// 14: a reversed grid, or one of more than 2^32 - 1 tiles.
    InvalidGrid,
    /// 15: a lent list or buffer is shorter than the result.
    TooShort(Lengths),
    /// 16: next while a way waits, or accept, decline or skip while none does.
    OutOfTurn,
    /// 17: a feature number at or above the count.
    InvalidFeature,
    /// 18: a zoom above 63 in the arithmetic of columns.
    ZoomTooLarge,
    /// 19: the map ends before a tile's index entry does, with the entry's place. 2^64 - 1 stands for any larger place,
    /// here and below.
    IndexCutOff(u64),
    /// 20: the map ends in a tile's head, with the place of what is missing: of the signature's first byte, or of the
    /// byte of the zoom table or the first-way offset that is not there.
    TileHeadCutOff(u64),
    /// 22: showing rules whose length is no multiple of 4, or one with a tag id outside the map, or with its lowest zoom
    /// above its highest.
    InvalidRules,
    /// 23: two showing rules or more name a way tag and zoom: the smallest tag id, and its smallest zoom.
    RulesOverlap(u64, u64),
    /// 24: no showing rule names a way tag and zoom: the smallest tag id, and its smallest zoom.
    RulesGap(u64, u64),
    /// A number that this crate does not know, of a later library.
    Other(u64),
}

impl Refusal {
    /// The refusal of a call that gave this number and these words, if the number is not 0.
    pub fn check(number: u64, words: &[u64]) -> Result<(), Refusal> {
        if number == 0 {
            return Ok(());
        }
        Err(Refusal::new(number, words))
    }

    /// The refusal of this number, with the values at the front of the words.
    pub(crate) fn new(number: u64, words: &[u64]) -> Refusal {
        let value = |k: usize| words.get(k).copied().unwrap_or(0);
        match number {
            1 => Refusal::Source,
            2 => Refusal::InvalidMagic,
            3 => Refusal::UnsupportedVersion(value(word::VALUE)),
            4 => Refusal::InvalidBoundingBox,
            5 => Refusal::InvalidHeaderSize,
            6 => Refusal::InvalidIndexSignature,
            7 => Refusal::InvalidTagId(value(word::VALUE)),
            8 => Refusal::InvalidTileIndex,
            9 => Refusal::TextTooLong,
            10 => Refusal::TooManyNodes,
            11 => Refusal::NumberTooLong,
            12 => Refusal::CoordinateTooLarge,
            13 => Refusal::ReversedInterval,
            14 => Refusal::InvalidGrid,
            15 => Refusal::TooShort(Lengths {
                lists: [
                    value(word::NEEDED_NODE_COUNTS),
                    value(word::NEEDED_LATITUDES),
                    value(word::NEEDED_LONGITUDES),
                    value(word::NEEDED_INITIAL_LATITUDES),
                    value(word::NEEDED_INITIAL_LONGITUDES),
                ],
                buffer: value(word::NEEDED_BUFFER),
            }),
            16 => Refusal::OutOfTurn,
            17 => Refusal::InvalidFeature,
            18 => Refusal::ZoomTooLarge,
            19 => Refusal::IndexCutOff(value(word::VALUE)),
            20 => Refusal::TileHeadCutOff(value(word::VALUE)),
            22 => Refusal::InvalidRules,
            23 => Refusal::RulesOverlap(value(word::RULES_TAG), value(word::RULES_ZOOM)),
            24 => Refusal::RulesGap(value(word::RULES_TAG), value(word::RULES_ZOOM)),
            other => Refusal::Other(other),
        }
    }

    /// Its number in document 01.
    pub fn number(self) -> u64 {
        match self {
            Refusal::Source => 1,
            Refusal::InvalidMagic => 2,
            Refusal::UnsupportedVersion(_) => 3,
            Refusal::InvalidBoundingBox => 4,
            Refusal::InvalidHeaderSize => 5,
            Refusal::InvalidIndexSignature => 6,
            Refusal::InvalidTagId(_) => 7,
            Refusal::InvalidTileIndex => 8,
            Refusal::TextTooLong => 9,
            Refusal::TooManyNodes => 10,
            Refusal::NumberTooLong => 11,
            Refusal::CoordinateTooLarge => 12,
            Refusal::ReversedInterval => 13,
            Refusal::InvalidGrid => 14,
            Refusal::TooShort(_) => 15,
            Refusal::OutOfTurn => 16,
            Refusal::InvalidFeature => 17,
            Refusal::ZoomTooLarge => 18,
            Refusal::IndexCutOff(_) => 19,
            Refusal::TileHeadCutOff(_) => 20,
            Refusal::InvalidRules => 22,
            Refusal::RulesOverlap(..) => 23,
            Refusal::RulesGap(..) => 24,
            Refusal::Other(number) => number,
        }
    }

    /// The values that come with it, zeros behind them.
    pub fn values(self) -> [u64; 6] {
        match self {
            Refusal::UnsupportedVersion(value)
            | Refusal::InvalidTagId(value)
            | Refusal::IndexCutOff(value)
            | Refusal::TileHeadCutOff(value) => [value, 0, 0, 0, 0, 0],
            Refusal::RulesOverlap(tag, zoom) | Refusal::RulesGap(tag, zoom) => {
                [tag, zoom, 0, 0, 0, 0]
            }
            Refusal::TooShort(Lengths { lists: [a, b, c, d, e], buffer }) => {
                [a, b, c, d, e, buffer]
            }
            _ => [0; 6],
        }
    }

    /// The same refusal in a sentence that names the tile that was asked for.
    ///
    /// ```
    /// use mapsforge::Refusal;
    ///
    /// let told = Refusal::TileHeadCutOff(12300).of_tile(10).to_string();
    /// assert!(told.starts_with("the head of tile 10 is cut off at byte 12300"));
    /// ```
    pub fn of_tile(self, tile: usize) -> TileRefusal {
        TileRefusal { refusal: self, tile }
    }
}

/// A refusal of a call about a tile; see [`Refusal::of_tile`].
#[derive(Clone, Copy, Debug, PartialEq, Eq, Hash)]
pub struct TileRefusal {
    /// Why it was refused.
    pub refusal: Refusal,
    /// The tile's number.
    pub tile: usize,
}

impl fmt::Display for TileRefusal {
    fn fmt(&self, f: &mut fmt::Formatter<'_>) -> fmt::Result {
        match self.refusal {
            Refusal::TileHeadCutOff(place) => {
                head_cut_off(f, format_args!("the head of tile {}", self.tile), place)
            }
            other => other.fmt(f),
        }
    }
}

impl std::error::Error for TileRefusal {}

fn head_cut_off(f: &mut fmt::Formatter<'_>, head: fmt::Arguments<'_>, place: u64) -> fmt::Result {
    write!(
        f,
        "{head} is cut off at byte {place}: the file is incomplete, or the tile's entry is \
         damaged; copy or fetch the map anew"
    )
}

impl fmt::Display for Refusal {
    fn fmt(&self, f: &mut fmt::Formatter<'_>) -> fmt::Result {
        match self {
            Refusal::Source => {
                write!(f, "the map ends in the middle of what is read: it is cut off or damaged")
            }
            Refusal::InvalidMagic => write!(
                f,
                "this is not a Mapsforge map: it does not start with \"mapsforge binary OSM\""
            ),
            Refusal::UnsupportedVersion(version) => write!(
                f,
                "the map has format version {version}, which is too old: write it again as \
                 version 3 or later"
            ),
            Refusal::InvalidBoundingBox => write!(
                f,
                "the map's bounding box is reversed or goes beyond the earth: the header is \
                 damaged"
            ),
            Refusal::InvalidHeaderSize => {
                write!(f, "the map's header says that its size is 0: the header is damaged")
            }
            Refusal::InvalidIndexSignature => write!(
                f,
                "a sub file does not start with its signature though the map has the debug \
                 flag: the flag or the sub file's place is damaged"
            ),
            Refusal::InvalidTagId(id) => write!(
                f,
                "a feature has the tag {id}, which the header does not have: the tile is damaged"
            ),
            Refusal::InvalidTileIndex => {
                write!(f, "the map has no such sub file, or the sub file no such tile")
            }
            Refusal::TextTooLong => write!(
                f,
                "a text has more than 1048576 bytes, which no real one has: the map is damaged \
                 there"
            ),
            Refusal::TooManyNodes => write!(
                f,
                "a part of a way has more than 1048576 nodes, which no real one has: the tile \
                 is damaged"
            ),
            Refusal::NumberTooLong => {
                write!(f, "a number goes on after nine bytes: the map is damaged there")
            }
            Refusal::CoordinateTooLarge => write!(
                f,
                "a coordinate is so large that it cannot be given exactly: the map is damaged \
                 there"
            ),
            Refusal::ReversedInterval => {
                write!(f, "the sub file's lowest zoom is above its highest: the header is damaged")
            }
            Refusal::InvalidGrid => write!(
                f,
                "the sub file's grid is reversed or has more than 4294967295 tiles: the header \
                 is damaged, or the grid is another map's"
            ),
            Refusal::TooShort(Lengths { lists: [a, b, c, d, e], buffer }) => write!(
                f,
                "a lent list or buffer is too short: the lists need {a}, {b}, {c}, {d} and {e} \
                 entries, the buffer {buffer} bytes"
            ),
            Refusal::OutOfTurn => write!(
                f,
                "a call out of turn: accept or decline the way that waits before the next call, \
                 and only then"
            ),
            Refusal::InvalidFeature => write!(f, "the tile has no feature of this number"),
            Refusal::ZoomTooLarge => {
                write!(f, "a zoom is above 63, for which columns cannot be computed")
            }
            Refusal::IndexCutOff(place) => write!(
                f,
                "the index is cut off at byte {place}: the file is incomplete, or its header is \
                 damaged; copy or fetch the map anew"
            ),
            Refusal::TileHeadCutOff(place) => {
                head_cut_off(f, format_args!("the tile's head"), *place)
            }
            Refusal::InvalidRules => write!(
                f,
                "the showing rules are damaged, or of another map: their length is no multiple of \
                 4, a rule has a tag id outside the map, or its lowest zoom is above its highest"
            ),
            Refusal::RulesOverlap(tag, zoom) => write!(
                f,
                "way tag {tag}, zoom {zoom}: named twice in the showing rules; take out all rules \
                 for it but one"
            ),
            Refusal::RulesGap(tag, zoom) => write!(
                f,
                "way tag {tag}, zoom {zoom}: not named in the showing rules; add a rule for it"
            ),
            Refusal::Other(number) => write!(
                f,
                "the library refuses this by number {number}, which this program does not know: \
                 build it with the library's own wrapper"
            ),
        }
    }
}

impl std::error::Error for Refusal {}
