//! A sub file: the tiles of a zoom interval.

use crate::grid::latitude_of_row;
use crate::{raw, word, Grid, Map, Position, Refusal, Stream, Tile, ZoomInterval};

/// Where a tile is: its number in the index, its column and row at the base zoom.
#[derive(Clone, Copy, Debug, PartialEq, Eq, Hash)]
pub struct TilePlace {
    /// The number in the sub file's index, row by row.
    pub number: usize,
    /// The column.
    pub x: i32,
    /// The row.
    pub y: i32,
}

/// A tile's entry in the index.
#[derive(Clone, Copy, Debug, PartialEq, Eq)]
pub struct IndexEntry {
    /// Whether the tile is marked as water.
    pub water: bool,
    /// Where the tile stands, from the sub file's start.
    pub offset: u64,
    /// Where it stands in the map.
    pub place: u64,
}

/// A sub file of an opened map, with the grid of its tiles.
///
/// ```
/// # use mapsforge::MapFile;
/// # let file = MapFile::open(concat!(env!("CARGO_MANIFEST_DIR"), "/../maps/islands.map"))?;
/// let map = file.map()?;
/// let sub_file = map.sub_file(2)?;
/// assert_eq!(sub_file.tile_count()?, 12);
/// let water = sub_file
///     .tiles()?
///     .filter(|place| sub_file.entry(place.number).is_ok_and(|entry| entry.water))
///     .map(|place| (place.number, place.x, place.y));
/// assert_eq!(water.collect::<Vec<_>>(), [(0, 4094, 2270), (4, 4094, 2271), (8, 4094, 2272)]);
/// # Ok::<(), Box<dyn std::error::Error>>(())
/// ```
#[derive(Clone, Copy, Debug)]
pub struct SubFile<'m, 'a> {
    map: &'m Map<'a>,
    number: usize,
    interval: ZoomInterval,
    /// The interval as the library takes it, which knows the sub file by nothing else.
    words: [u64; word::INTERVAL_WORDS],
    grid: Grid,
    /// How many tiles the library counts in this grid.
    tiles: Result<u64, Refusal>,
}

/// How many tiles a sub file that is there has.
fn count(interval: &[u64; word::INTERVAL_WORDS], grid: Grid) -> Result<u64, Refusal> {
    let mut words = [0; word::TILE_COUNT_WORDS];
    Refusal::check(raw::tile_count(interval, grid.corners(), &mut words), &words)?;
    Ok(words[word::TILE_COUNT_TILES])
}

impl<'m, 'a> SubFile<'m, 'a> {
    pub(crate) fn new(map: &'m Map<'a>, number: usize) -> Result<SubFile<'m, 'a>, Refusal> {
        let interval = *map.intervals().get(number).ok_or(Refusal::InvalidTileIndex)?;
        let grid = Grid::of_box(&map.header().bounding_box, interval.base_zoom)?;
        let words = interval.words();
        let tiles = count(&words, grid);
        Ok(SubFile { map, number, interval, words, grid, tiles })
    }

    /// The same with another grid than that of the bounding box.
    pub fn with_grid(self, grid: Grid) -> SubFile<'m, 'a> {
        SubFile { grid, tiles: count(&self.words, grid), ..self }
    }

    /// The map.
    pub fn map(&self) -> &'m Map<'a> {
        self.map
    }

    /// Its number.
    pub fn number(&self) -> usize {
        self.number
    }

    /// Its zoom interval.
    pub fn interval(&self) -> ZoomInterval {
        self.interval
    }

    /// The same as the library takes it.
    pub(crate) fn words(&self) -> &[u64; word::INTERVAL_WORDS] {
        &self.words
    }

    /// Its grid.
    pub fn grid(&self) -> Grid {
        self.grid
    }

    /// How many tiles it has. Refusal 14 if that is more than 2^32 - 1.
    pub fn tile_count(&self) -> Result<u64, Refusal> {
        self.tiles
    }

    /// How many tiles the index has room for: an entry takes five bytes of the map.
    ///
    /// A damaged header can name a grid of billions; one of more tiles than this is not the map's.
    pub fn index_room(&self) -> u64 {
        let start = self.entry_place(0).unwrap_or(u64::MAX);
        (self.map.bytes().len() as u64).saturating_sub(start) / 5
    }

    /// Whether the map has room for the whole index: refusal 14 or 19 if not, and then the tiles should not be walked.
    pub fn whole_index(&self) -> Result<(), Refusal> {
        match self.tile_count()?.checked_sub(1) {
            Some(last) => self.entry(last as usize).map(|_| ()),
            None => Ok(()),
        }
    }

    /// Where a tile's entry stands in the map, unless that is past 64 bits.
    pub fn entry_place(&self, tile: usize) -> Option<u64> {
        let signature = if self.map.header().debug() { 16 } else { 0 };
        let from_start = (tile as u64).checked_mul(5)?.checked_add(signature)?;
        self.interval.start.checked_add(from_start)
    }

    /// All tiles, in the order of their numbers.
    pub fn tiles(&self) -> Result<TilePlaces, Refusal> {
        Ok(TilePlaces { grid: self.grid, next: 0, end: self.tile_count()? })
    }

    /// The tile of a number, if there is one.
    pub fn tile(&self, number: usize) -> Option<TilePlace> {
        let (x, y) = self.grid.place_of(number as u64)?;
        Some(TilePlace { number, x, y })
    }

    /// The tile of a column and row at the base zoom, if there is one.
    pub fn tile_at(&self, x: i32, y: i32) -> Result<Option<TilePlace>, Refusal> {
        let mut words = [0; word::TILE_INDEX_WORDS];
        let number = raw::tile_index(&self.words, self.grid.corners(), x, y, &mut words);
        Refusal::check(number, &words)?;
        if words[word::TILE_INDEX_THERE] == 0 {
            return Ok(None);
        }
        Ok(Some(TilePlace { number: words[word::TILE_INDEX_NUMBER] as usize, x, y }))
    }

    /// The tile's north-western corner, from which its features' positions are counted.
    pub fn corner(&self, place: TilePlace) -> Result<Position, Refusal> {
        let zoom = self.interval.base_zoom;
        let mut longitude = [0.0];
        let mut words = [0; word::VALUES];
        Refusal::check(raw::longitude(place.x as u32, zoom, &mut words, &mut longitude), &words)?;
        Ok(Position { latitude: latitude_of_row(place.y as u32, zoom)?, longitude: longitude[0] })
    }

    /// The tile's middle.
    pub fn middle(&self, place: TilePlace) -> Result<Position, Refusal> {
        let next =
            TilePlace { x: place.x.saturating_add(1), y: place.y.saturating_add(1), ..place };
        let (here, there) = (self.corner(place)?, self.corner(next)?);
        Ok(Position {
            latitude: (here.latitude + there.latitude) / 2.0,
            longitude: (here.longitude + there.longitude) / 2.0,
        })
    }

    /// A tile's entry in the index. Refusal 19 if the map ends before it does. Of an empty tile it has the place of the next
    /// one; see [`SubFile::is_empty`].
    pub fn entry(&self, tile: usize) -> Result<IndexEntry, Refusal> {
        let mut words = [0; word::INDEX_ENTRY_WORDS];
        let (map, corners) = (self.map, self.grid.corners());
        let number =
            raw::index_entry(map.bytes(), map.layout(), &self.words, corners, tile, &mut words);
        Refusal::check(number, &words)?;
        Ok(IndexEntry {
            water: words[word::INDEX_ENTRY_WATER] != 0,
            offset: words[word::INDEX_ENTRY_OFFSET],
            place: words[word::INDEX_ENTRY_PLACE],
        })
    }

    /// Whether the map's writer marked the tile as one without features: the next tile has the same offset, or, of the last
    /// tile, the offset is the sub file's size. Such a tile has no bytes. It collects with rows of zeros, its stream is at its
    /// end, and its water mark is its own. The library looks at the mark: its stream tells ([`Stream::of_empty_tile`]).
    pub fn is_empty(&self, tile: usize) -> Result<bool, Refusal> {
        Ok(self.stream(tile, self.interval.min_zoom)?.of_empty_tile())
    }

    /// Collects a tile: decodes every feature of it. If the map is cut off, refusal 19 is for the tile's entry or the next
    /// one, 20 for its head, 1 for a feature.
    pub fn collect(&self, tile: usize) -> Result<Tile<'m, 'a>, Refusal> {
        Tile::collect(*self, tile)
    }

    /// Opens a stream of a tile at a zoom, which is clamped into the interval. Refusal 19 or 20 if the map is cut off in the
    /// tile's entry, the next one, or the tile's head.
    pub fn stream(&self, tile: usize, zoom: u8) -> Result<Stream<'m, 'a>, Refusal> {
        Stream::open(*self, tile, zoom)
    }
}

/// The tiles of a sub file; see [`SubFile::tiles`].
#[derive(Clone, Debug)]
pub struct TilePlaces {
    grid: Grid,
    next: u64,
    end: u64,
}

impl Iterator for TilePlaces {
    type Item = TilePlace;

    fn next(&mut self) -> Option<TilePlace> {
        if self.next >= self.end {
            return None;
        }
        let (x, y) = self.grid.place_of(self.next)?;
        let place = TilePlace { number: self.next as usize, x, y };
        self.next += 1;
        Some(place)
    }

    fn size_hint(&self) -> (usize, Option<usize>) {
        let left = self.end.saturating_sub(self.next) as usize;
        (left, Some(left))
    }
}

impl ExactSizeIterator for TilePlaces {}
