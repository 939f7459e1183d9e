//! A window over several tiles.

use crate::{
    raw, word, BoundingBox, Grid, Map, Refusal, Rules, SelectedStream, Selection, Stream, SubFile,
    TilePlace, WayHead,
};

/// A rectangle of sub tiles, two zoom levels below a sub file's base zoom, so that a tile has 4 by 4 of them, its cells:
/// tile x, y has columns 4 x to 4 x + 3 and rows 4 y to 4 y + 3. Both ends are included, and rows grow to the south.
///
/// Any numbers will do. A window with a low end above its high end touches no tile.
#[derive(Clone, Copy, Debug, PartialEq, Eq, Hash)]
pub struct Window {
    /// The first column.
    pub left: i64,
    /// The first row.
    pub top: i64,
    /// The last column.
    pub right: i64,
    /// The last row.
    pub bottom: i64,
}

impl Window {
    /// The sub tiles that a box touches, of tiles of this base zoom. Refusal 18 where the base zoom is above 61.
    pub fn of_box(covered: &BoundingBox, base_zoom: u8) -> Result<Window, Refusal> {
        let grid = Grid::of_box(covered, base_zoom.saturating_add(2))?;
        let [left, top, right, bottom] = grid.corners().map(i64::from);
        Ok(Window { left, top, right, bottom })
    }

    /// As the library takes it.
    pub fn ends(&self) -> [i64; 4] {
        [self.left, self.top, self.right, self.bottom]
    }
}

/// A tile that a window touches, with its touched cells.
///
/// A way is declined if its bitmap shares no cell with the mask, and accepted otherwise. [`WindowTile::placed`] does that;
/// with [`WindowTile::stream`] the caller does it by [`WindowTile::accepts`], and may decline more.
#[derive(Clone, Copy, Debug)]
pub struct WindowTile<'m, 'a> {
    sub_file: SubFile<'m, 'a>,
    zoom: u8,
    /// Where the tile is.
    pub place: TilePlace,
    /// Which of its 4 by 4 cells are touched, row by row, the highest bit first. It is never 0.
    pub mask: u16,
}

impl<'m, 'a> WindowTile<'m, 'a> {
    /// Its sub file.
    pub fn sub_file(&self) -> SubFile<'m, 'a> {
        self.sub_file
    }

    /// Whether the window accepts the way of this head: its bitmap shares a cell with the mask.
    pub fn accepts(&self, head: &WayHead<'_, '_>) -> bool {
        head.shares_cell(self.mask)
    }

    /// The tile's stream at the window's zoom.
    pub fn stream(&self) -> Result<Stream<'m, 'a>, Refusal> {
        self.sub_file.stream(self.place.number, self.zoom)
    }

    /// Its features at their places on earth: the points, and the ways that the window accepts. The others are declined, by
    /// their stored sizes.
    pub fn placed(&self) -> Result<SelectedStream<'m, 'a, 'static>, Refusal> {
        let selection = Selection { mask: Some(self.mask), rules: None };
        self.sub_file.placed_selected(self.place, self.zoom, selection)
    }

    /// The same with rules: of the ways that the window accepts, those that the rules show at its zoom.
    pub fn placed_by_rules<'r>(
        &self,
        rules: &'r Rules,
    ) -> Result<SelectedStream<'m, 'a, 'r>, Refusal> {
        let selection = Selection { mask: Some(self.mask), rules: Some((rules, self.zoom)) };
        self.sub_file.placed_selected(self.place, self.zoom, selection)
    }
}

/// The tiles that a window touches, row by row from the north, west to east, each one time; see [`Map::window`].
#[derive(Clone, Debug)]
pub struct WindowTiles<'m, 'a> {
    sub_file: SubFile<'m, 'a>,
    window: Window,
    zoom: u8,
    next: u64,
    end: u64,
}

impl<'m, 'a> WindowTiles<'m, 'a> {
    /// Its sub file.
    pub fn sub_file(&self) -> SubFile<'m, 'a> {
        self.sub_file
    }

    /// Tile k of all of them, whatever has come; none behind the last.
    fn tile(&self, k: u64) -> Result<Option<WindowTile<'m, 'a>>, Refusal> {
        let (mut words, mut at) = ([0; word::WINDOW_TILE_WORDS], [0; word::WINDOW_TILE_NUMBERS]);
        let corners = self.sub_file.grid().corners();
        let number = raw::window_tile(corners, self.window.ends(), k, &mut words, &mut at);
        Refusal::check(number, &words)?;
        let there = words[word::WINDOW_TILE_THERE] != 0;
        Ok(there.then(|| WindowTile {
            sub_file: self.sub_file,
            zoom: self.zoom,
            place: TilePlace {
                number: words[word::WINDOW_TILE_NUMBER] as usize,
                x: at[word::WINDOW_TILE_COLUMN] as i32,
                y: at[word::WINDOW_TILE_ROW] as i32,
            },
            mask: words[word::WINDOW_TILE_MASK] as u16,
        }))
    }
}

impl<'m, 'a> Iterator for WindowTiles<'m, 'a> {
    type Item = WindowTile<'m, 'a>;

    fn next(&mut self) -> Option<Self::Item> {
        // The grid was good when the tiles were counted.
        let tile = self.tile(self.next).ok()??;
        self.next += 1;
        Some(tile)
    }

    fn size_hint(&self) -> (usize, Option<usize>) {
        let left = self.end.saturating_sub(self.next) as usize;
        (left, Some(left))
    }
}

impl ExactSizeIterator for WindowTiles<'_, '_> {}

impl<'m, 'a> SubFile<'m, 'a> {
    /// The tiles that a window touches, to be streamed at a zoom. Refusal 14 if the grid is bad.
    pub fn window(&self, window: Window, zoom: u8) -> Result<WindowTiles<'m, 'a>, Refusal> {
        let mut words = [0; word::WINDOW_COUNT_WORDS];
        let number = raw::window_count(self.grid().corners(), window.ends(), &mut words);
        Refusal::check(number, &words)?;
        let end = words[word::WINDOW_COUNT_TILES];
        Ok(WindowTiles { sub_file: *self, window, zoom, next: 0, end })
    }
}

impl<'a> Map<'a> {
    /// The tiles that a window touches, of the sub file that serves the zoom; none if no sub file does.
    ///
    /// ```
    /// # use mapsforge::{Kind, MapFile, Window};
    /// # let file = MapFile::open(concat!(env!("CARGO_MANIFEST_DIR"), "/../maps/islands.map"))?;
    /// let map = file.map()?;
    /// // The harbour and the sub tile east of it, over the edge between two tiles.
    /// let harbour = Window { left: 16387, top: 9088, right: 16388, bottom: 9088 };
    /// let tiles = map.window(harbour, 21)?.expect("a sub file has zoom 21");
    /// assert_eq!(tiles.len(), 2);
    /// let (mut masks, mut ways) = (Vec::new(), Vec::new());
    /// for tile in tiles {
    ///     masks.push((tile.place.x, tile.mask));
    ///     for feature in tile.placed()? {
    ///         let feature = feature?;
    ///         ways.extend(feature.shown_name().filter(|_| feature.kind == Kind::Way));
    ///     }
    /// }
    /// assert_eq!(masks, [(4096, 0x1000), (4097, 0x8000)]);
    /// assert!(ways.contains(&"Havnegata") && !ways.contains(&"Skolegata"), "{ways:?}");
    /// # Ok::<(), Box<dyn std::error::Error>>(())
    /// ```
    pub fn window(&self, window: Window, zoom: u8) -> Result<Option<WindowTiles<'_, 'a>>, Refusal> {
        self.sub_file_for_zoom(zoom)?.map(|sub_file| sub_file.window(window, zoom)).transpose()
    }
}
