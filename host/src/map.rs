//! An opened map.

use crate::tags::TagLists;
use crate::{raw, word, Header, Refusal, SubFile, TagNames, ZoomInterval};

/// A map over its bytes: header, tag names, zoom intervals. Tiles are read on demand.
///
/// It keeps the lists of its tags that opening filled. They are this map's alone: nothing writes them, and every call of
/// this crate takes them from the map whose bytes it reads.
///
/// ```
/// use mapsforge::Map;
///
/// let bytes = std::fs::read(concat!(env!("CARGO_MANIFEST_DIR"), "/../maps/islands.map"))?;
/// let map = Map::open(&bytes)?;
/// assert_eq!(map.header().version, 5);
/// assert_eq!((map.point_tags().len(), map.way_tags().len()), (43, 58));
/// assert!(map.way_tags().iter().any(|tag| tag.is("route", "ferry")));
/// assert_eq!(map.intervals()[2].base_zoom, 13);
/// # Ok::<(), Box<dyn std::error::Error>>(())
/// ```
#[derive(Clone, Debug)]
pub struct Map<'a> {
    bytes: &'a [u8],
    header: Header<'a>,
    layout: [u64; word::LAYOUT_WORDS],
    lists: TagLists,
    point_tags: TagNames<'a>,
    way_tags: TagNames<'a>,
    intervals: Vec<ZoomInterval>,
}

/// What opening gives.
struct Opened {
    words: [u64; word::OPEN_WORDS],
    degrees: [f64; word::OPEN_DEGREES],
    layout: [u64; word::LAYOUT_WORDS],
    lists: TagLists,
}

impl Opened {
    /// Opens the map without lists, which a map with tags refuses; then with lists of the lengths that it asks for.
    fn of(bytes: &[u8]) -> Result<Opened, Refusal> {
        let mut opened = Opened {
            words: [0; word::OPEN_WORDS],
            degrees: [0.0; word::OPEN_DEGREES],
            layout: [0; word::LAYOUT_WORDS],
            lists: TagLists::default(),
        };
        match opened.fill(bytes) {
            Err(Refusal::TooShort(needed)) => {
                let [starts, letters] =
                    [word::NEEDED_STARTS, word::NEEDED_LETTERS].map(|list| needed.lists[list]);
                opened.lists = TagLists::of(starts, letters);
                opened.fill(bytes)?;
            }
            first => first?,
        }
        Ok(opened)
    }

    fn fill(&mut self, bytes: &[u8]) -> Result<(), Refusal> {
        let TagLists { starts, letters } = &mut self.lists;
        let number =
            raw::open(bytes, starts, letters, &mut self.words, &mut self.degrees, &mut self.layout);
        Refusal::check(number, &self.words)
    }
}

impl<'a> Map<'a> {
    /// Reads the header, and in a debug map each sub file's signature.
    pub fn open(bytes: &'a [u8]) -> Result<Map<'a>, Refusal> {
        let opened = Opened::of(bytes)?;
        let Opened { words, layout, ref lists, .. } = opened;
        let [points, ways] = [word::OPEN_POINT_TAG_COUNT, word::OPEN_WAY_TAG_COUNT]
            .map(|count| words[count] as usize);
        let intervals = (0..words[word::OPEN_SUB_FILES] as usize)
            .map(|sub_file| ZoomInterval::read(bytes, &layout, sub_file))
            .collect::<Result<_, _>>()?;
        Ok(Map {
            bytes,
            header: Header::new(bytes, &words, &opened.degrees),
            layout,
            point_tags: TagNames::read(bytes, lists, 0, points)?,
            way_tags: TagNames::read(bytes, lists, points, ways)?,
            intervals,
            lists: opened.lists,
        })
    }

    /// The map's bytes.
    pub fn bytes(&self) -> &'a [u8] {
        self.bytes
    }

    /// The header's fields.
    pub fn header(&self) -> &Header<'a> {
        &self.header
    }

    /// What the calls of [`raw`] about tiles and sub files take of the header.
    pub fn layout(&self) -> &[u64; word::LAYOUT_WORDS] {
        &self.layout
    }

    /// Where each tag of points, and behind them each tag of ways, starts in the map: what [`raw::tag`] and [`raw::fetch`]
    /// take with these bytes and no others.
    pub fn starts(&self) -> &[u64] {
        &self.lists.starts
    }

    /// The letters of the same tags, by which inline values are skipped: `b`, `h`, `i`, `f` or `s`, or 0. What [`raw`]'s
    /// calls that read features take with these bytes and no others.
    pub fn letters(&self) -> &[u8] {
        &self.lists.letters
    }

    /// The tag names of points.
    pub fn point_tags(&self) -> &TagNames<'a> {
        &self.point_tags
    }

    /// The tag names of ways.
    pub fn way_tags(&self) -> &TagNames<'a> {
        &self.way_tags
    }

    /// The zoom intervals, one for each sub file.
    pub fn intervals(&self) -> &[ZoomInterval] {
        &self.intervals
    }

    /// A sub file with the grid of the map's bounding box. Refusal 8 if there is none, 18 if its base zoom is above 63.
    pub fn sub_file(&self, number: usize) -> Result<SubFile<'_, 'a>, Refusal> {
        SubFile::new(self, number)
    }

    /// All sub files, in order.
    pub fn sub_files(&self) -> impl Iterator<Item = Result<SubFile<'_, 'a>, Refusal>> {
        (0..self.intervals.len()).map(|number| self.sub_file(number))
    }

    /// The first sub file that serves the zoom, if there is one.
    pub fn sub_file_for_zoom(&self, zoom: u8) -> Result<Option<SubFile<'_, 'a>>, Refusal> {
        let mut words = [0; word::SUB_FILE_WORDS];
        Refusal::check(raw::sub_file(self.bytes, &self.layout, zoom, &mut words), &words)?;
        if words[word::SUB_FILE_THERE] == 0 {
            return Ok(None);
        }
        self.sub_file(words[word::SUB_FILE_NUMBER] as usize).map(Some)
    }
}
