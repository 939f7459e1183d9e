//! A small writer of maps. Numbers and texts are written as given, also if they are wrong.

use crate::leaves::sample::unsigned;

pub const INDEX_SIGNATURE: &[u8; 16] = b"+++IndexStart+++";
pub const DEBUG: u8 = 0x80;

/// The place of the first field without a fixed size.
pub const PROJECTION: usize = 20 + 4 + 4 + 8 + 8 + 16 + 2;

/// The flags of the optional fields.
pub const START: u8 = 0x40;
pub const START_ZOOM: u8 = 0x20;
pub const LANGUAGE: u8 = 0x10;
pub const COMMENT: u8 = 0x08;
pub const CREATED_BY: u8 = 0x04;

/// A header. Its texts and its lists of tags are given as stored, with lengths and counts.
#[derive(Clone)]
pub struct Header {
    pub magic: Vec<u8>,
    /// The number of bytes behind it if it is not given.
    pub header_size: Option<u32>,
    pub version: u32,
    pub file_size: u64,
    pub created: u64,
    /// Min latitude, min longitude, max latitude, max longitude, in microdegrees.
    pub bounds: [i32; 4],
    pub tile_size: u16,
    pub projection: Vec<u8>,
    /// Flags beside those of the optional fields.
    pub flags: u8,
    /// Latitude and longitude, in microdegrees.
    pub start: Option<[i32; 2]>,
    pub start_zoom: Option<u8>,
    pub language: Option<Vec<u8>>,
    pub comment: Option<Vec<u8>>,
    pub created_by: Option<Vec<u8>>,
    pub poi_tags: Vec<u8>,
    pub way_tags: Vec<u8>,
    pub intervals: Vec<Interval>,
}

/// A zoom interval: its base, lowest and highest zoom, and its sub file.
#[derive(Clone, Copy)]
pub struct Interval {
    pub zooms: [u8; 3],
    pub start: u64,
    pub size: u64,
}

impl Header {
    /// The shortest header.
    pub fn tiny() -> Self {
        Header {
            magic: b"mapsforge binary OSM".to_vec(),
            header_size: None,
            version: 3,
            file_size: 0,
            created: 0,
            bounds: [0; 4],
            tile_size: 256,
            projection: text(b""),
            flags: 0,
            start: None,
            start_zoom: None,
            language: None,
            comment: None,
            created_by: None,
            poi_tags: tags(&[]),
            way_tags: tags(&[]),
            intervals: Vec::new(),
        }
    }

    /// One more interval, with the size of a sub file of one entry.
    pub fn with_interval(mut self, zooms: [u8; 3], start: u64) -> Self {
        self.intervals.push(Interval { zooms, start, size: 5 });
        self
    }

    pub fn bytes(&self) -> Vec<u8> {
        let rest = self.behind_size();
        let size = self.header_size.unwrap_or(rest.len() as u32);
        [self.magic.as_slice(), &size.to_be_bytes(), &rest].concat()
    }

    /// The header's length.
    pub fn length(&self) -> u64 {
        self.bytes().len() as u64
    }

    /// The header before a sub file.
    pub fn before(&self, sub_file: &[u8]) -> Vec<u8> {
        [&self.bytes(), sub_file].concat()
    }

    /// The header before the sub files of its intervals, whose starts and sizes are set.
    pub fn before_all(mut self, sub_files: &[Vec<u8>]) -> Vec<u8> {
        let mut start = self.length();
        for (interval, sub_file) in self.intervals.iter_mut().zip(sub_files) {
            let size = sub_file.len() as u64;
            (interval.start, interval.size) = (start, size);
            start += size;
        }
        self.before(&sub_files.concat())
    }

    fn behind_size(&self) -> Vec<u8> {
        [
            &self.version.to_be_bytes()[..],
            &self.file_size.to_be_bytes(),
            &self.created.to_be_bytes(),
            &numbers(&self.bounds),
            &self.tile_size.to_be_bytes(),
            &self.projection,
            &[self.all_flags()],
            &numbers(self.start.as_ref().map_or(&[], |start| start)),
            self.start_zoom.as_slice(),
            optional(&self.language),
            optional(&self.comment),
            optional(&self.created_by),
            &self.poi_tags,
            &self.way_tags,
            &[self.intervals.len() as u8],
            &self.interval_table(),
        ]
        .concat()
    }

    fn all_flags(&self) -> u8 {
        let fields = [
            (START, self.start.is_some()),
            (START_ZOOM, self.start_zoom.is_some()),
            (LANGUAGE, self.language.is_some()),
            (COMMENT, self.comment.is_some()),
            (CREATED_BY, self.created_by.is_some()),
        ];
        let present = fields.iter().filter(|(_, present)| *present);
        present.fold(self.flags, |flags, (flag, _)| flags | flag)
    }

    fn interval_table(&self) -> Vec<u8> {
        let row = |interval: &Interval| {
            let places = [interval.start.to_be_bytes(), interval.size.to_be_bytes()];
            [&interval.zooms[..], places.as_flattened()].concat()
        };
        self.intervals.iter().flat_map(row).collect()
    }
}

fn numbers(numbers: &[i32]) -> Vec<u8> {
    numbers.iter().flat_map(|number| number.to_be_bytes()).collect()
}

fn optional(field: &Option<Vec<u8>>) -> &[u8] {
    field.as_deref().unwrap_or(&[])
}

/// A text behind its length.
pub fn text(bytes: &[u8]) -> Vec<u8> {
    [&unsigned(bytes.len() as u64), bytes].concat()
}

/// Tags behind their count.
pub fn tags(tags: &[&[u8]]) -> Vec<u8> {
    let texts: Vec<u8> = tags.iter().flat_map(|tag| text(tag)).collect();
    counted(tags.len() as u16, &texts)
}

/// A list of tags with any count.
pub fn counted(count: u16, texts: &[u8]) -> Vec<u8> {
    [&count.to_be_bytes(), texts].concat()
}

/// An index entry.
pub fn entry(water: bool, offset: u64) -> [u8; 5] {
    let word = offset | u64::from(water) << 39;
    word.to_be_bytes()[3..].try_into().expect("five bytes")
}
