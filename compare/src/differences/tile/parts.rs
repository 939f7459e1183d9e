//! Where the features of a stream stand in the map.

use std::ops::Range;

use super::super::ENTRY_BYTES;
use super::reader::{Read, Reader};
use crate::tiles::feature::{Text, Way};
use crate::tiles::Address;

/// The places of a tile's entry and the next one, and of its points and ways up to a zoom.
pub struct StreamParts {
    pub entry: Range<usize>,
    /// None of the last tile.
    pub next_entry: Option<Range<usize>>,
    pub points: Vec<PointParts>,
    pub ways: Vec<WayParts>,
}

/// The places of a point, and of its texts that are valid.
pub struct PointParts {
    pub bytes: Range<usize>,
    pub texts: Vec<Range<usize>>,
}

/// A way and its places.
pub struct WayParts {
    /// Up to the last byte of its tag ids and values.
    pub head: Range<usize>,
    /// In the head.
    pub size: Range<usize>,
    pub bitmap: Range<usize>,
    /// Behind the head, up to the data start plus stored size.
    pub rest: Range<usize>,
    /// Those that are valid.
    pub texts: Vec<Range<usize>>,
    pub way: Way,
}

impl Reader<'_> {
    /// All ways are read whole; a stored size leads to the next way if it is the decoded length.
    pub fn stream_parts(&mut self, address: &Address, zoom: u8) -> Read<StreamParts> {
        let head = self.head(address)?;
        let [points, ways] = self.counts(head.rows(zoom));
        let entries = self.entries.clone().expect("the head is behind the entry");
        let (start, end) = (entries.start as usize, entries.end as usize);
        let entry = start..start + ENTRY_BYTES as usize;
        let next_entry = (entry.end < end).then_some(entry.end..end);
        let points = (0..points).map(|_| self.point_parts()).collect::<Read<_>>()?;
        self.seek(head.ways);
        let ways = (0..ways).map(|_| self.way_parts()).collect::<Read<_>>()?;
        Ok(StreamParts { entry, next_entry, points, ways })
    }

    fn point_parts(&mut self) -> Read<PointParts> {
        let start = self.at() as usize;
        self.texts.clear();
        let point = self.point()?;
        let texts = self.last_texts([&point.name, &point.house_number]);
        Ok(PointParts { bytes: start..self.at() as usize, texts })
    }

    fn way_parts(&mut self) -> Read<WayParts> {
        let start = self.at() as usize;
        let head = self.way_head()?;
        let size = self.sizes.last().expect("the head has one").clone();
        let (bitmap, behind) = (size.end..size.end + 2, self.at() as usize);
        let rest = behind..head.stored_end as usize;
        self.texts.clear();
        let way = self.way_body(head)?;
        let texts = self.last_texts([&way.name, &way.house_number, &way.reference]);
        Ok(WayParts { head: start..behind, size, bitmap, rest, texts, way })
    }

    /// The places of the texts of the last feature; one that is not valid is empty, and so is its place.
    fn last_texts<const N: usize>(&self, texts: [&Option<Text>; N]) -> Vec<Range<usize>> {
        let places = self.texts.iter().map(|&place| place as usize);
        let place = |(start, text): (usize, &Text)| start..start + text.len();
        places.zip(texts.into_iter().flatten()).map(place).collect()
    }
}
