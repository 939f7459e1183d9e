//! A collected tile.

use crate::feature::grow;
use crate::raw::{self, Listed};
use crate::{word, Buffers, Feature, Part, Point, Refusal, SubFile, Way};

/// A collected tile: its counts, and its features by their numbers. It keeps the place of each feature in the map, so
/// that each one is fetched alone, whatever its number.
///
/// ```
/// # use mapsforge::{Feature, MapFile};
/// # let file = MapFile::open(concat!(env!("CARGO_MANIFEST_DIR"), "/../maps/islands.map"))?;
/// let map = file.map()?;
/// let tile = map.sub_file(2)?.collect(10)?;
/// assert_eq!((tile.point_count(), tile.way_count()), (35, 141));
/// assert_eq!(tile.rows()[0], (5, 22));
///
/// let way = tile.way(9)?;
/// assert_eq!(way.name.as_deref(), Some("Kirkegata"));
/// assert_eq!((&*way.tags[0].key, &*way.tags[0].value), ("highway", "residential"));
/// # Ok::<(), Box<dyn std::error::Error>>(())
/// ```
#[derive(Clone, Debug)]
pub struct Tile<'m, 'a> {
    sub_file: SubFile<'m, 'a>,
    number: usize,
    signature: Option<Part<'a>>,
    rows: Vec<(u64, u64)>,
    first_way_offset: u64,
    point_count: u64,
    way_count: u64,
    exact: bool,
    plain: bool,
    /// Where each feature starts in the map: points, then ways.
    places: Vec<u64>,
}

/// A tile's head may count any number of features. A list of more entries is made only once the tile is known to have them.
const MOST_AT_FIRST: u64 = 1 << 16;

/// How many features the tile's head counts, at most the above; 0 where it cannot be read, which collecting will say.
fn counted(sub_file: &SubFile<'_, '_>, tile: usize) -> u64 {
    let stream = sub_file.stream(tile, u8::MAX).ok();
    let features = stream.and_then(|stream| stream.to_come());
    features.map_or(0, |to_come| to_come.points.saturating_add(to_come.ways).min(MOST_AT_FIRST))
}

impl<'m, 'a> Tile<'m, 'a> {
    pub(crate) fn collect(sub_file: SubFile<'m, 'a>, tile: usize) -> Result<Self, Refusal> {
        let map = sub_file.map().bytes();
        let mut words = [0; word::COLLECT_WORDS];
        let (mut points, mut ways) = ([0; word::MAX_ROWS], [0; word::MAX_ROWS]);
        let mut places = vec![0; counted(&sub_file, tile) as usize];
        loop {
            let number = raw::collect(
                map,
                sub_file.map().layout(),
                sub_file.map().letters(),
                sub_file.words(),
                sub_file.grid().corners(),
                tile,
                &mut words,
                &mut points,
                &mut ways,
                &mut places,
            );
            match Refusal::check(number, &words) {
                Ok(()) => break,
                Err(Refusal::TooShort(needed)) => grow(&mut places, needed.lists[0]),
                Err(refusal) => return Err(refusal),
            }
        }
        Ok(Tile {
            sub_file,
            number: tile,
            signature: Part::from_words(map, &words[word::COLLECT_SIGNATURE..]),
            rows: points.into_iter().zip(ways).take(words[word::COLLECT_ROWS] as usize).collect(),
            first_way_offset: words[word::COLLECT_FIRST_WAY_OFFSET],
            point_count: words[word::COLLECT_POINTS],
            way_count: words[word::COLLECT_WAYS],
            exact: words[word::COLLECT_EXACT] != 0,
            plain: words[word::COLLECT_PLAIN] != 0,
            places,
        })
    }

    /// The sub file.
    pub fn sub_file(&self) -> SubFile<'m, 'a> {
        self.sub_file
    }

    /// The tile's number.
    pub fn number(&self) -> usize {
        self.number
    }

    /// The tile's signature, in a debug map; an empty tile has none there either.
    pub fn signature(&self) -> Option<Part<'a>> {
        self.signature
    }

    /// The zoom table: the numbers of points and of ways that each zoom of the interval adds.
    pub fn rows(&self) -> &[(u64, u64)] {
        &self.rows
    }

    /// The stored offset of the first way, from behind this number.
    pub fn first_way_offset(&self) -> u64 {
        self.first_way_offset
    }

    /// How many points there are.
    pub fn point_count(&self) -> u64 {
        self.point_count
    }

    /// How many ways there are.
    pub fn way_count(&self) -> u64 {
        self.way_count
    }

    /// Whether every way's stored size is its decoded length. If so, a stream of this tile delivers what the tile has,
    /// whichever ways are declined; if not, a declined way may lead it astray.
    pub fn exact(&self) -> bool {
        self.exact
    }

    /// Whether all numbers of the tile are stored plainly, those of its head and of all its features: none could be shorter,
    /// and none is minus zero. If not, [`crate::check::padding`] tells where, and how many bytes it takes.
    pub fn plain(&self) -> bool {
        self.plain
    }

    /// Fetches a feature: points from 0, ways behind them. Refusal 17 if there is none.
    pub fn fetch(&self, number: u64) -> Result<Feature<'a>, Refusal> {
        self.fetch_with(number, &mut Buffers::new())
    }

    /// Fetches a point, counted from 0. Refusal 17 if there is none.
    pub fn point(&self, number: u64) -> Result<Point<'a>, Refusal> {
        match self.fetch(number)? {
            Feature::Point(point) => Ok(point),
            Feature::Way(_) => Err(Refusal::InvalidFeature),
        }
    }

    /// Fetches a way, counted from 0. Refusal 17 if there is none.
    pub fn way(&self, number: u64) -> Result<Way<'a>, Refusal> {
        match self.fetch(self.point_count.saturating_add(number))? {
            Feature::Way(way) => Ok(way),
            Feature::Point(_) => Err(Refusal::InvalidFeature),
        }
    }

    /// Fetches a feature by lists that are kept for the next fetch; they grow as needed.
    pub fn fetch_with(&self, number: u64, buffers: &mut Buffers) -> Result<Feature<'a>, Refusal> {
        buffers.fetch(self.sub_file.map(), self.listed(), number)
    }

    /// Where the features are, as the library's own calls take it: for [`raw::fetch`].
    pub fn listed(&self) -> Listed<'_> {
        Listed { places: &self.places, points: self.point_count, ways: self.way_count }
    }

    /// All features, points first.
    pub fn features(&self) -> Features<'_, 'm, 'a> {
        self.range(0, self.point_count.saturating_add(self.way_count))
    }

    /// The points.
    pub fn points(&self) -> impl Iterator<Item = Result<Point<'a>, Refusal>> + '_ {
        self.range(0, self.point_count).filter_map(|got| match got {
            Ok(Feature::Point(point)) => Some(Ok(point)),
            Ok(Feature::Way(_)) => None,
            Err(refusal) => Some(Err(refusal)),
        })
    }

    /// The ways.
    pub fn ways(&self) -> impl Iterator<Item = Result<Way<'a>, Refusal>> + '_ {
        let end = self.point_count.saturating_add(self.way_count);
        self.range(self.point_count, end).filter_map(|got| match got {
            Ok(Feature::Way(way)) => Some(Ok(way)),
            Ok(Feature::Point(_)) => None,
            Err(refusal) => Some(Err(refusal)),
        })
    }

    fn range(&self, next: u64, end: u64) -> Features<'_, 'm, 'a> {
        Features { tile: self, next, end, buffers: Buffers::new() }
    }
}

/// The features of a collected tile; see [`Tile::features`].
#[derive(Debug)]
pub struct Features<'t, 'm, 'a> {
    tile: &'t Tile<'m, 'a>,
    next: u64,
    end: u64,
    buffers: Buffers,
}

impl<'a> Iterator for Features<'_, '_, 'a> {
    type Item = Result<Feature<'a>, Refusal>;

    fn next(&mut self) -> Option<Self::Item> {
        if self.next >= self.end {
            return None;
        }
        let got = self.tile.fetch_with(self.next, &mut self.buffers);
        self.next += 1;
        Some(got)
    }

    // Skipping fetches nothing.
    fn nth(&mut self, n: usize) -> Option<Self::Item> {
        self.next = self.next.saturating_add(n as u64);
        self.next()
    }
}
