//! The tile index of a sub file and its grid. The grid comes with each call, as document 01's host
//! gives it.

use mapsforge_rs::grid::{self, Grid};
use mapsforge_rs::header::DEBUG_INFO_MASK;
use mapsforge_rs::io::ByteRead;
use mapsforge_rs::types::{MapFile, TileIndexEntry, ZoomInterval};

use super::{given, maybe};
use crate::answer::{answered, Answer};
use crate::differences;
use crate::source::Source;

/// The size of an index signature.
const SIGNATURE: u64 = 16;

pub fn tile_count(map: &MapFile<Source>, input: &mut Source) -> Answer {
    let call = Call::from(input);
    call.bad_grid(map).unwrap_or_else(|| maybe(map.tile_count(call.sub_file).map(u64::from)))
}

pub fn tile_index(map: &MapFile<Source>, input: &mut Source) -> Answer {
    let call = Call::from(input);
    let (x, y) = (given(input.read_i32_be()), given(input.read_i32_be()));
    let guarded = call.bad_grid(map).or_else(|| {
        call.interval(map)?;
        differences::tile_index(&call.grid, x, y)
    });
    guarded.unwrap_or_else(|| maybe(map.tile_index_of(call.sub_file, x, y).map(|k| k as u64)))
}

pub fn entry(map: &mut MapFile<Source>, input: &mut Source) -> Answer {
    let call = Call::from(input);
    let tile = given(input.read_u64_be());
    let guarded = call.bad_grid(map).or_else(|| call.far_entry(map, tile));
    guarded.unwrap_or_else(|| {
        answered(map.tile_index_entry(call.sub_file, tile as usize).map(entry_words))
    })
}

fn entry_words(entry: TileIndexEntry) -> Answer {
    vec![u64::from(entry.is_water), entry.offset, entry.offset_abs]
}

/// A sub file by its number, and its grid.
struct Call {
    sub_file: usize,
    grid: Grid,
}

impl Call {
    /// Reads both from an operation's input, and lends the grid to the Rust.
    fn from(input: &mut Source) -> Self {
        let sub_file = given(input.read_u64_be()) as usize;
        let [x_min, y_min, x_max, y_max] = [(); 4].map(|()| given(input.read_i32_be()));
        let grid = Grid { x_min, y_min, x_max, y_max };
        grid::lend(grid);
        Call { sub_file, grid }
    }

    fn interval<'a>(&self, map: &'a MapFile<Source>) -> Option<&'a ZoomInterval> {
        map.header.zoom_interval_configuration.get(self.sub_file)
    }

    /// A missing sub file comes before a bad grid; the Rust then looks at no grid.
    fn bad_grid(&self, map: &MapFile<Source>) -> Option<Answer> {
        self.interval(map)?;
        differences::grid(&self.grid)
    }

    /// A missing tile comes before an entry past all places.
    fn far_entry(&self, map: &MapFile<Source>, tile: u64) -> Option<Answer> {
        let start = self.interval(map)?.sub_file_start;
        let debug = map.header.flags & DEBUG_INFO_MASK != 0;
        let in_grid = tile < u64::from(self.grid.tiles()?);
        let signature = if debug { SIGNATURE } else { 0 };
        in_grid.then(|| differences::entry(start, signature, tile))?
    }
}
