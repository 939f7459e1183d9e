//! What a map's header says.

use crate::{raw, word, Part, Position, Refusal};

/// The box that a map covers, in degrees.
#[derive(Clone, Copy, Debug, PartialEq)]
pub struct BoundingBox {
    /// The lowest latitude.
    pub south: f64,
    /// The lowest longitude.
    pub west: f64,
    /// The highest latitude.
    pub north: f64,
    /// The highest longitude.
    pub east: f64,
}

/// The zoom levels that a sub file serves, and where it stands.
#[derive(Clone, Copy, Debug, PartialEq, Eq)]
pub struct ZoomInterval {
    /// The zoom whose tiles the sub file is cut into.
    pub base_zoom: u8,
    /// The lowest zoom that it serves.
    pub min_zoom: u8,
    /// The highest one.
    pub max_zoom: u8,
    /// The sub file's place in the map.
    pub start: u64,
    /// Its size in bytes, as stored.
    pub size: u64,
}

impl ZoomInterval {
    /// The interval of a sub file that the header has.
    pub(crate) fn read(
        map: &[u8],
        layout: &[u64; word::LAYOUT_WORDS],
        sub_file: usize,
    ) -> Result<ZoomInterval, Refusal> {
        let (mut words, mut interval) = ([0; word::VALUES], [0; word::INTERVAL_WORDS]);
        Refusal::check(raw::interval(map, layout, sub_file, &mut words, &mut interval), &words)?;
        if interval[word::INTERVAL_THERE] == 0 {
            return Err(Refusal::InvalidTileIndex);
        }
        Ok(ZoomInterval {
            base_zoom: interval[word::INTERVAL_BASE_ZOOM] as u8,
            min_zoom: interval[word::INTERVAL_MIN_ZOOM] as u8,
            max_zoom: interval[word::INTERVAL_MAX_ZOOM] as u8,
            start: interval[word::INTERVAL_START],
            size: interval[word::INTERVAL_SIZE],
        })
    }

    /// As the library gave it, and takes it.
    pub(crate) fn words(&self) -> [u64; word::INTERVAL_WORDS] {
        let mut interval = [0; word::INTERVAL_WORDS];
        interval[word::INTERVAL_THERE] = 1;
        interval[word::INTERVAL_BASE_ZOOM] = self.base_zoom.into();
        interval[word::INTERVAL_MIN_ZOOM] = self.min_zoom.into();
        interval[word::INTERVAL_MAX_ZOOM] = self.max_zoom.into();
        interval[word::INTERVAL_START] = self.start;
        interval[word::INTERVAL_SIZE] = self.size;
        interval
    }
}

/// The header's fields. Tag names and zoom intervals are the [`crate::Map`]'s.
#[derive(Clone, Debug)]
pub struct Header<'a> {
    /// The format's version.
    pub version: u32,
    /// The header's size as stored, counted from behind this number.
    pub header_size: u32,
    /// The place behind the header, as it was read.
    pub end: u64,
    /// The file's size as stored.
    pub file_size: u64,
    /// When the map was made, in milliseconds since 1970.
    pub date: u64,
    /// The box that the map covers.
    pub bounding_box: BoundingBox,
    /// The size of a tile in pixels.
    pub tile_size: u16,
    /// The projection's name.
    pub projection: Part<'a>,
    /// The flags as stored.
    pub flags: u8,
    /// Where to start showing the map.
    pub start_position: Option<Position>,
    /// At which zoom to start.
    pub start_zoom: Option<u8>,
    /// The languages of names, the preferred one first.
    pub language: Option<Part<'a>>,
    /// A comment.
    pub comment: Option<Part<'a>>,
    /// The program that made the map.
    pub created_by: Option<Part<'a>>,
}

impl<'a> Header<'a> {
    /// The header of the words that opening gave.
    pub(crate) fn new(
        map: &'a [u8],
        words: &[u64; word::OPEN_WORDS],
        degrees: &[f64; word::OPEN_DEGREES],
    ) -> Header<'a> {
        let start_position = Position {
            latitude: degrees[word::OPEN_START_LATITUDE],
            longitude: degrees[word::OPEN_START_LONGITUDE],
        };
        let start_zoom = words[word::OPEN_START_ZOOM] as u8;
        let projection = words[word::OPEN_PROJECTION];
        Header {
            end: words[word::OPEN_END],
            header_size: words[word::OPEN_HEADER_SIZE] as u32,
            version: words[word::OPEN_VERSION] as u32,
            file_size: words[word::OPEN_FILE_SIZE],
            date: words[word::OPEN_DATE],
            bounding_box: BoundingBox {
                south: degrees[word::OPEN_SOUTH],
                west: degrees[word::OPEN_WEST],
                north: degrees[word::OPEN_NORTH],
                east: degrees[word::OPEN_EAST],
            },
            tile_size: words[word::OPEN_TILE_SIZE] as u16,
            flags: words[word::OPEN_FLAGS] as u8,
            projection: Part::new(map, projection, words[word::OPEN_PROJECTION_SIZE]),
            start_position: (words[word::OPEN_HAS_START_POSITION] != 0).then_some(start_position),
            start_zoom: (words[word::OPEN_HAS_START_ZOOM] != 0).then_some(start_zoom),
            language: Part::from_words(map, &words[word::OPEN_LANGUAGE..]),
            comment: Part::from_words(map, &words[word::OPEN_COMMENT..]),
            created_by: Part::from_words(map, &words[word::OPEN_CREATED_BY..]),
        }
    }

    /// Whether the map has signatures for debugging.
    pub fn debug(&self) -> bool {
        self.flags & 0x80 != 0
    }
}
