//! The library's functions as they are, with slices and arrays for addresses: safe to call with anything.
//!
//! include/mapsforge.h says what each word is; [`crate::word`] has their names. Each function gives 0, or the number of a
//! refusal, whose values are then at the front of the words (see [`crate::Refusal::check`]). An answer writes its own
//! words, which mapsforge.h lists, and the others keep the values that were lent. A layout and the lists of tags are what
//! [`open`] gave of the map, an interval what [`interval`] gave of the sub file. Any others will do too, but then what is
//! read need not be what the map has; [`crate::Map`] keeps its own. All `unsafe` code of this crate is in this file.
//!
//! ```
//! use mapsforge::raw;
//!
//! // Nothing waits in a stream of zeros: refusal 16, which has no values and touches nothing.
//! let mut values = [7; 6];
//! assert_eq!(raw::stream_decline(&mut [0; 8], &mut values), 16);
//! assert_eq!(values, [7; 6]);
//! // An interval of zeros is that of no sub file: refusal 8.
//! assert_eq!(raw::index_entry(&[], &[0; 7], &[0; 6], [0; 4], 0, &mut [0; 9]), 8);
//! ```
//!
//! Each call is sound for one reason, which holds for every block below unless it says otherwise: a slice or array is
//! borrowed for the call, at its true length; a written one is borrowed alone, so that no two overlap; an empty slice's
//! address is aligned and not null; and the library reads and writes nothing else.

use crate::{sys, word};
use std::ffi::{c_int, c_void};
use std::fs::File;
use std::io;
use std::os::fd::AsRawFd;

/// Opens a map: the header's words and degrees, the layout that other calls take, and the lists of its tags: where each
/// starts, and its letter.
pub fn open(
    map: &[u8],
    starts: &mut [u64],
    letters: &mut [u8],
    words: &mut [u64; word::OPEN_WORDS],
    degrees: &mut [f64; word::OPEN_DEGREES],
    layout: &mut [u64; word::LAYOUT_WORDS],
) -> u64 {
    // SAFETY: borrowed for the call, at their lengths.
    unsafe {
        sys::mapsforge_open(
            map.as_ptr(),
            map.len(),
            starts.as_mut_ptr(),
            starts.len(),
            letters.as_mut_ptr(),
            letters.len(),
            words,
            degrees,
            layout,
        )
    }
}

/// The zoom interval of a sub file, as other calls take it.
pub fn interval(
    map: &[u8],
    layout: &[u64; word::LAYOUT_WORDS],
    sub_file: usize,
    words: &mut [u64; word::VALUES],
    interval: &mut [u64; word::INTERVAL_WORDS],
) -> u64 {
    // SAFETY: borrowed for the call, at their lengths.
    unsafe { sys::mapsforge_interval(map.as_ptr(), map.len(), layout, sub_file, words, interval) }
}

/// The first sub file whose interval has the zoom.
pub fn sub_file(
    map: &[u8],
    layout: &[u64; word::LAYOUT_WORDS],
    zoom: u8,
    words: &mut [u64; word::SUB_FILE_WORDS],
) -> u64 {
    // SAFETY: borrowed for the call, at their lengths.
    unsafe { sys::mapsforge_sub_file(map.as_ptr(), map.len(), layout, zoom, words) }
}

/// Tag k of those that stand from entry `first` of the lists on.
pub fn tag(
    map: &[u8],
    starts: &[u64],
    letters: &[u8],
    first: usize,
    count: usize,
    k: usize,
    words: &mut [u64; word::TAG_WORDS],
) -> u64 {
    // SAFETY: borrowed for the call, at their lengths.
    unsafe {
        sys::mapsforge_tag(
            map.as_ptr(),
            map.len(),
            starts.as_ptr(),
            starts.len(),
            letters.as_ptr(),
            letters.len(),
            first,
            count,
            k,
            words,
        )
    }
}

/// A text with each ill-formed part replaced by U+FFFD.
pub fn text(text: &[u8], buffer: &mut [u8], words: &mut [u64; word::TEXT_WORDS]) -> u64 {
    // SAFETY: borrowed for the call, at their lengths.
    unsafe {
        sys::mapsforge_text(text.as_ptr(), text.len(), buffer.as_mut_ptr(), buffer.len(), words)
    }
}

/// How many tiles a sub file has. A grid is x_min, y_min, x_max, y_max.
pub fn tile_count(
    interval: &[u64; word::INTERVAL_WORDS],
    grid: [i32; 4],
    words: &mut [u64; word::TILE_COUNT_WORDS],
) -> u64 {
    let [x_min, y_min, x_max, y_max] = grid;
    // SAFETY: borrowed for the call, at their lengths.
    unsafe { sys::mapsforge_tile_count(interval, x_min, y_min, x_max, y_max, words) }
}

/// The number of a tile.
pub fn tile_index(
    interval: &[u64; word::INTERVAL_WORDS],
    grid: [i32; 4],
    x: i32,
    y: i32,
    words: &mut [u64; word::TILE_INDEX_WORDS],
) -> u64 {
    let [x_min, y_min, x_max, y_max] = grid;
    // SAFETY: borrowed for the call, at their lengths.
    unsafe { sys::mapsforge_tile_index(interval, x_min, y_min, x_max, y_max, x, y, words) }
}

/// A tile's entry in the index.
pub fn index_entry(
    map: &[u8],
    layout: &[u64; word::LAYOUT_WORDS],
    interval: &[u64; word::INTERVAL_WORDS],
    grid: [i32; 4],
    tile: usize,
    words: &mut [u64; word::INDEX_ENTRY_WORDS],
) -> u64 {
    let [x_min, y_min, x_max, y_max] = grid;
    // SAFETY: borrowed for the call, at their lengths.
    unsafe {
        sys::mapsforge_index_entry(
            map.as_ptr(),
            map.len(),
            layout,
            interval,
            x_min,
            y_min,
            x_max,
            y_max,
            tile,
            words,
        )
    }
}

/// The column that a longitude lies in.
pub fn column(
    longitude: f64,
    zoom: u8,
    words: &mut [u64; word::VALUES],
    column: &mut [i64; 1],
) -> u64 {
    // SAFETY: borrowed for the call, at its length.
    unsafe { sys::mapsforge_column(longitude, zoom, words, column) }
}

/// The longitude at which a column starts.
pub fn longitude(
    column: u32,
    zoom: u8,
    words: &mut [u64; word::VALUES],
    longitude: &mut [f64; 1],
) -> u64 {
    // SAFETY: borrowed for the call, at its length.
    unsafe { sys::mapsforge_longitude(column, zoom, words, longitude) }
}

/// How many tiles of a grid a window touches. A grid is x_min, y_min, x_max, y_max; a window is left, top, right, bottom.
pub fn window_count(
    grid: [i32; 4],
    window: [i64; 4],
    words: &mut [u64; word::WINDOW_COUNT_WORDS],
) -> u64 {
    let [x_min, y_min, x_max, y_max] = grid;
    let [left, top, right, bottom] = window;
    // SAFETY: borrowed for the call, at its length.
    unsafe {
        sys::mapsforge_window_count(x_min, y_min, x_max, y_max, left, top, right, bottom, words)
    }
}

/// Tile k of them: its number and its mask, its column and its row.
pub fn window_tile(
    grid: [i32; 4],
    window: [i64; 4],
    k: u64,
    words: &mut [u64; word::WINDOW_TILE_WORDS],
    column_row: &mut [i64; word::WINDOW_TILE_NUMBERS],
) -> u64 {
    let [x_min, y_min, x_max, y_max] = grid;
    let [left, top, right, bottom] = window;
    // SAFETY: borrowed for the call, at their lengths.
    unsafe {
        sys::mapsforge_window_tile(
            x_min, y_min, x_max, y_max, left, top, right, bottom, k, words, column_row,
        )
    }
}

/// Whether a way's bitmap shares a cell with its tile's mask. This call refuses nothing.
pub fn shares_cell(bitmap: u16, mask: u16) -> bool {
    // SAFETY: two numbers by value.
    unsafe { sys::mapsforge_shares_cell(bitmap, mask) }
}

/// Opens a stream of a tile at a zoom. The sub file's number is what the stream's end answers.
pub fn stream_open(
    map: &[u8],
    layout: &[u64; word::LAYOUT_WORDS],
    interval: &[u64; word::INTERVAL_WORDS],
    sub_file: usize,
    grid: [i32; 4],
    tile: usize,
    zoom: u8,
    state: &mut [u64; word::STATE_WORDS],
    words: &mut [u64; word::VALUES],
) -> u64 {
    let [x_min, y_min, x_max, y_max] = grid;
    // SAFETY: borrowed for the call, at their lengths.
    unsafe {
        sys::mapsforge_stream_open(
            map.as_ptr(),
            map.len(),
            layout,
            interval,
            sub_file,
            x_min,
            y_min,
            x_max,
            y_max,
            tile,
            zoom,
            state,
            words,
        )
    }
}

/// The next point, the next way's head or the end.
pub fn stream_next(
    map: &[u8],
    layout: &[u64; word::LAYOUT_WORDS],
    letters: &[u8],
    state: &mut [u64; word::STATE_WORDS],
    words: &mut [u64; word::NEXT_WORDS],
    signed_words: &mut [i64; word::SIGNED_WORDS],
    degrees: &mut [f64; word::POSITION_DEGREES],
    ids: &mut [u64; word::MAX_TAGS],
) -> u64 {
    // SAFETY: borrowed for the call, at their lengths.
    unsafe {
        sys::mapsforge_stream_next(
            map.as_ptr(),
            map.len(),
            layout,
            letters.as_ptr(),
            letters.len(),
            state,
            words,
            signed_words,
            degrees,
            ids,
        )
    }
}

/// The next point, the next way that is selected, or the end.
pub fn stream_next_selected(
    map: &[u8],
    layout: &[u64; word::LAYOUT_WORDS],
    letters: &[u8],
    select: &[u64; word::SELECT_WORDS],
    classes: &[u8],
    state: &mut [u64; word::STATE_WORDS],
    words: &mut [u64; word::NEXT_WORDS],
    signed_words: &mut [i64; word::SIGNED_WORDS],
    degrees: &mut [f64; word::POSITION_DEGREES],
    ids: &mut [u64; word::MAX_TAGS],
) -> u64 {
    // SAFETY: borrowed for the call, at their lengths.
    unsafe {
        sys::mapsforge_stream_next_selected(
            map.as_ptr(),
            map.len(),
            layout,
            letters.as_ptr(),
            letters.len(),
            select,
            classes.as_ptr(),
            classes.len(),
            state,
            words,
            signed_words,
            degrees,
            ids,
        )
    }
}

/// Decodes the waiting way.
pub fn stream_accept(
    map: &[u8],
    state: &mut [u64; word::STATE_WORDS],
    node_counts: &mut [u64],
    latitudes: &mut [f64],
    longitudes: &mut [f64],
    words: &mut [u64; word::ACCEPT_WORDS],
    degrees: &mut [f64; word::POSITION_DEGREES],
) -> u64 {
    // SAFETY: borrowed for the call, at their lengths.
    unsafe {
        sys::mapsforge_stream_accept(
            map.as_ptr(),
            map.len(),
            state,
            node_counts.as_mut_ptr(),
            node_counts.len(),
            latitudes.as_mut_ptr(),
            latitudes.len(),
            longitudes.as_mut_ptr(),
            longitudes.len(),
            words,
            degrees,
        )
    }
}

/// Goes past the waiting way, by its stored size.
pub fn stream_decline(
    state: &mut [u64; word::STATE_WORDS],
    words: &mut [u64; word::VALUES],
) -> u64 {
    // SAFETY: borrowed for the call, at its length.
    unsafe { sys::mapsforge_stream_decline(state, words) }
}

/// Goes past the waiting way: the next point, the next way's head or the end.
pub fn stream_skip(
    map: &[u8],
    layout: &[u64; word::LAYOUT_WORDS],
    letters: &[u8],
    state: &mut [u64; word::STATE_WORDS],
    words: &mut [u64; word::NEXT_WORDS],
    signed_words: &mut [i64; word::SIGNED_WORDS],
    degrees: &mut [f64; word::POSITION_DEGREES],
    ids: &mut [u64; word::MAX_TAGS],
) -> u64 {
    // SAFETY: borrowed for the call, at their lengths.
    unsafe {
        sys::mapsforge_stream_skip(
            map.as_ptr(),
            map.len(),
            layout,
            letters.as_ptr(),
            letters.len(),
            state,
            words,
            signed_words,
            degrees,
            ids,
        )
    }
}

/// Collects a tile; the place of each feature goes to the front of `places`.
pub fn collect(
    map: &[u8],
    layout: &[u64; word::LAYOUT_WORDS],
    letters: &[u8],
    interval: &[u64; word::INTERVAL_WORDS],
    grid: [i32; 4],
    tile: usize,
    words: &mut [u64; word::COLLECT_WORDS],
    points: &mut [u64; word::MAX_ROWS],
    ways: &mut [u64; word::MAX_ROWS],
    places: &mut [u64],
) -> u64 {
    let [x_min, y_min, x_max, y_max] = grid;
    // SAFETY: borrowed for the call, at their lengths.
    unsafe {
        sys::mapsforge_collect(
            map.as_ptr(),
            map.len(),
            layout,
            letters.as_ptr(),
            letters.len(),
            interval,
            x_min,
            y_min,
            x_max,
            y_max,
            tile,
            words,
            points,
            ways,
            places.as_mut_ptr(),
            places.len(),
        )
    }
}

/// The lists and the buffer that [`fetch`] writes to.
pub struct FetchLists<'a> {
    /// The blocks' numbers of nodes.
    pub node_counts: &'a mut [u64],
    /// The latitudes of all nodes.
    pub latitudes: &'a mut [f64],
    /// Their longitudes.
    pub longitudes: &'a mut [f64],
    /// The blocks' initial latitudes.
    pub initial_latitudes: &'a mut [f64],
    /// Their initial longitudes.
    pub initial_longitudes: &'a mut [f64],
    /// The texts.
    pub buffer: &'a mut [u8],
}

/// The words that are lent to [`fetch`]; a point and a way each write their own.
#[derive(Clone, Debug)]
pub struct FetchWords {
    /// As mapsforge.h has them.
    pub words: [u64; word::FETCH_WORDS],
    /// The layer and the elevation.
    pub signed_words: [i64; word::SIGNED_WORDS],
    /// The position, or the label position.
    pub degrees: [f64; word::POSITION_DEGREES],
    /// The tag ids.
    pub ids: [u64; word::MAX_TAGS],
    /// Five words for each tag.
    pub tags: [u64; word::MAX_TAGS * word::STRING_WORDS],
}

impl Default for FetchWords {
    fn default() -> FetchWords {
        FetchWords {
            words: [0; word::FETCH_WORDS],
            signed_words: [0; word::SIGNED_WORDS],
            degrees: [0.0; word::POSITION_DEGREES],
            ids: [0; word::MAX_TAGS],
            tags: [0; word::MAX_TAGS * word::STRING_WORDS],
        }
    }
}

/// The features of a collected tile, as [`collect`] gave them to its caller.
#[derive(Clone, Copy, Debug)]
pub struct Listed<'a> {
    /// Where each one starts in the map: points from 0, ways behind them.
    pub places: &'a [u64],
    /// How many points there are.
    pub points: u64,
    /// How many ways.
    pub ways: u64,
}

/// Fetches a feature of a collected tile: points from 0, ways behind them.
pub fn fetch(
    map: &[u8],
    layout: &[u64; word::LAYOUT_WORDS],
    starts: &[u64],
    letters: &[u8],
    listed: Listed<'_>,
    feature: u64,
    lists: FetchLists<'_>,
    got: &mut FetchWords,
) -> u64 {
    // SAFETY: borrowed for the call, at their lengths.
    unsafe {
        sys::mapsforge_fetch(
            map.as_ptr(),
            map.len(),
            layout,
            starts.as_ptr(),
            starts.len(),
            letters.as_ptr(),
            letters.len(),
            listed.places.as_ptr(),
            listed.places.len(),
            listed.points,
            listed.ways,
            feature,
            lists.node_counts.as_mut_ptr(),
            lists.node_counts.len(),
            lists.latitudes.as_mut_ptr(),
            lists.latitudes.len(),
            lists.longitudes.as_mut_ptr(),
            lists.longitudes.len(),
            lists.initial_latitudes.as_mut_ptr(),
            lists.initial_latitudes.len(),
            lists.initial_longitudes.as_mut_ptr(),
            lists.initial_longitudes.len(),
            lists.buffer.as_mut_ptr(),
            lists.buffer.len(),
            &mut got.words,
            &mut got.signed_words,
            &mut got.degrees,
            &mut got.ids,
            &mut got.tags,
        )
    }
}

/// The number of blocks and nodes of a way's data, the place behind them, and whether all their numbers were plain.
pub fn measure_way_data(
    map: &[u8],
    at: usize,
    data_blocks: u64,
    words: &mut [u64; word::WAY_DATA_WORDS],
) -> u64 {
    // SAFETY: borrowed for the call, at their lengths.
    unsafe { sys::mapsforge_measure_way_data(map.as_ptr(), map.len(), at, data_blocks, words) }
}

/// The nodes of a way's data, and what measuring says of them.
pub fn read_way_data(
    map: &[u8],
    at: usize,
    data_blocks: u64,
    double_delta: bool,
    node_counts: &mut [u64],
    latitudes: &mut [f64],
    longitudes: &mut [f64],
    words: &mut [u64; word::WAY_DATA_WORDS],
) -> u64 {
    // SAFETY: borrowed for the call, at their lengths.
    unsafe {
        sys::mapsforge_read_way_data(
            map.as_ptr(),
            map.len(),
            at,
            data_blocks,
            double_delta,
            node_counts.as_mut_ptr(),
            node_counts.len(),
            latitudes.as_mut_ptr(),
            latitudes.len(),
            longitudes.as_mut_ptr(),
            longitudes.len(),
            words,
        )
    }
}

/// Checks showing rules of a map with so many way tags, and fills the table with the class of each tag and zoom.
pub fn check_rules(
    rules: &[u8],
    way_tags: u16,
    classes: &mut [u8],
    words: &mut [u64; word::VALUES],
) -> u64 {
    // SAFETY: borrowed for the call, at their lengths.
    unsafe {
        sys::mapsforge_check_rules(
            rules.as_ptr(),
            rules.len(),
            way_tags,
            classes.as_mut_ptr(),
            classes.len(),
            words,
        )
    }
}

/// Whether a way with these tag ids is to be accepted at a zoom, by a checked table.
pub fn shows(classes: &[u8], zoom: u8, ids: &[u64], words: &mut [u64; word::SHOWS_WORDS]) -> u64 {
    // SAFETY: borrowed for the call, at their lengths.
    unsafe {
        sys::mapsforge_shows(classes.as_ptr(), classes.len(), zoom, ids.as_ptr(), ids.len(), words)
    }
}

/// What a tile's stream at a zoom will want of lists, if its ways are accepted and declined by these decisions: byte k
/// decides way k, 0 declines it, and ways behind their end are declined.
pub fn wanted(
    map: &[u8],
    layout: &[u64; word::LAYOUT_WORDS],
    letters: &[u8],
    interval: &[u64; word::INTERVAL_WORDS],
    grid: [i32; 4],
    tile: usize,
    zoom: u8,
    decisions: &[u8],
    words: &mut [u64; word::WANTED_WORDS],
) -> u64 {
    let [x_min, y_min, x_max, y_max] = grid;
    // SAFETY: borrowed for the call, at their lengths.
    unsafe {
        sys::mapsforge_wanted(
            map.as_ptr(),
            map.len(),
            layout,
            letters.as_ptr(),
            letters.len(),
            interval,
            x_min,
            y_min,
            x_max,
            y_max,
            tile,
            zoom,
            decisions.as_ptr(),
            decisions.len(),
            words,
        )
    }
}

// The C library's, as on Linux: `off_t` has 64 bits there.
extern "C" {
    fn mmap(
        address: *mut c_void,
        length: usize,
        protection: c_int,
        flags: c_int,
        file: c_int,
        offset: i64,
    ) -> *mut c_void;
    fn munmap(address: *mut c_void, length: usize) -> c_int;
}

const PROT_READ: c_int = 1;
const MAP_PRIVATE: c_int = 2;

/// A file's bytes, mapped into memory for reading. [`crate::MapFile`] says what to beware of.
#[derive(Debug)]
pub(crate) struct Mapping {
    address: *mut c_void,
    length: usize,
}

// SAFETY: the bytes are only read, and belong to this value alone until it is dropped.
unsafe impl Send for Mapping {}
// SAFETY: as above; reading from several threads is no race.
unsafe impl Sync for Mapping {}

impl Mapping {
    /// Maps the first `length` bytes of the file, at least one.
    pub(crate) fn new(file: &File, length: usize) -> io::Result<Mapping> {
        if length == 0 {
            return Err(io::Error::from(io::ErrorKind::InvalidInput));
        }
        // SAFETY: a new mapping at an address that the system chooses touches no other memory.
        let address = unsafe {
            mmap(std::ptr::null_mut(), length, PROT_READ, MAP_PRIVATE, file.as_raw_fd(), 0)
        };
        // The C library's MAP_FAILED is the address -1.
        if address as isize == -1 {
            return Err(io::Error::last_os_error());
        }
        Ok(Mapping { address, length })
    }

    /// The bytes.
    pub(crate) fn bytes(&self) -> &[u8] {
        // SAFETY: `length` readable bytes stand at the address until the mapping is dropped.
        unsafe { std::slice::from_raw_parts(self.address.cast(), self.length) }
    }
}

impl Drop for Mapping {
    fn drop(&mut self) {
        // SAFETY: this mapping is ours, and nothing borrows it any more. It cannot fail with these arguments.
        unsafe { munmap(self.address, self.length) };
    }
}
