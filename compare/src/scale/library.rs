//! Our reader's calls. What each word is, include/mapsforge.h says, and which of them an answer writes. Every
//! array holds a pattern before the call, which the other words keep.

use mapsforge::sys;
use mapsforge_rs::grid::Grid;
use mapsforge_rs::types::MapFile;

use crate::differences::tile::{Listed, Opened};
use crate::source::Source;
use crate::tiles::Address;

/// What stands in words, degrees and lists before a call.
pub const WORD: u64 = 0xA5A5_0F0F_5A5A_F0F0;
pub const BYTE: u8 = 0xA5;

/// A float that no map gives.
pub fn degree() -> f64 {
    f64::from_bits(WORD)
}

/// Words as they are lent, but for these from a place on.
pub fn kept_but<const N: usize>(at: usize, own: &[u64]) -> [u64; N] {
    let mut words = [WORD; N];
    words[at..at + own.len()].copy_from_slice(own);
    words
}

/// What signed words and degrees keep.
pub const SIGNED: [i64; 2] = [WORD as i64; 2];

pub fn degrees<const N: usize>() -> [f64; N] {
    [degree(); N]
}

/// The state of a stream.
pub type State = [u64; 8];
/// What other calls need of the header.
pub type Layout = [u64; 7];
/// A sub file's interval, as `interval` gives it and other calls take it; its first word is 0 if there is none.
pub type Interval = [u64; 6];

/// The lists of a map's tags that are handed in: where each starts, and its letter.
#[derive(Clone, Copy, Debug)]
pub struct Tags<'a> {
    pub starts: &'a [u64],
    pub letters: &'a [u8],
}

/// The same, kept beside the map that filled them.
#[derive(Clone, Default)]
pub struct TagLists {
    pub starts: Vec<u64>,
    pub letters: Vec<u8>,
}

impl TagLists {
    /// Lists of these lengths that hold the pattern.
    fn holding([starts, letters]: [usize; 2]) -> Self {
        TagLists { starts: vec![WORD; starts], letters: vec![BYTE; letters] }
    }

    pub fn lend(&self) -> Tags<'_> {
        Tags { starts: &self.starts, letters: &self.letters }
    }
}

/// A tile of a map, and the words and lists that are handed in for its header. The address's sub file is the
/// other side's: our calls know it by its interval.
#[derive(Clone, Copy)]
pub struct Ask<'a> {
    pub map: &'a [u8],
    pub layout: Layout,
    pub tags: Tags<'a>,
    /// Whether these are the tags of the header that the Rust is given.
    pub as_named: bool,
    pub interval: Interval,
    pub at: Address,
}

impl<'a> Ask<'a> {
    /// The map with this header and the tags that are handed in.
    pub fn opened(&self, file: &'a MapFile<Source>) -> Opened<'a> {
        let (Tags { starts, letters }, counts) = (self.tags, [self.layout[2], self.layout[4]]);
        Opened::of(file).listed(Listed { starts, letters, counts })
    }

    pub fn read(&self) -> Read<'_> {
        Read { map: self.map, layout: &self.layout, letters: self.tags.letters }
    }
}

/// The answer of a call: 0 or the number of a refusal, and its words.
#[derive(Clone, Copy)]
pub struct Got<const N: usize> {
    pub number: u64,
    pub words: [u64; N],
}

impl<const N: usize> Got<N> {
    fn of(call: impl FnOnce(&mut [u64; N]) -> u64) -> Self {
        let mut words = [WORD; N];
        let number = call(&mut words);
        Got { number, words }
    }
}

/// The number alone, of calls whose refusals have no values: with a word that is written, a number that no
/// call has.
fn bare(got: Got<6>) -> u64 {
    if got.words == [WORD; 6] {
        got.number
    } else {
        u64::MAX
    }
}

/// So many entries behind each list of tags are looked at too, although they are not lent.
pub const BEHIND: usize = 3;

pub struct Open {
    pub got: Got<34>,
    pub degrees: [f64; 6],
    pub layout: Layout,
    /// What was lent, and what stands behind it.
    pub lists: TagLists,
}

/// Lists of these lengths are lent: of starts, and of letters.
pub fn open(map: &[u8], lengths: [usize; 2]) -> Open {
    let (mut degrees, mut layout) = (degrees(), [WORD; 7]);
    let mut lists = TagLists::holding(lengths.map(|length| length + BEHIND));
    let (starts, letters) = (&mut lists.starts[..lengths[0]], &mut lists.letters[..lengths[1]]);
    // SAFETY: each call lends what include/mapsforge.h asks for, and nothing of it overlaps
    let got = Got::of(|words| unsafe {
        sys::mapsforge_open(
            map.as_ptr(),
            map.len(),
            starts.as_mut_ptr(),
            starts.len(),
            letters.as_mut_ptr(),
            letters.len(),
            words,
            &mut degrees,
            &mut layout,
        )
    });
    Open { got, degrees, layout, lists }
}

/// Opens a map as a caller does: with empty lists, and then with those that 15 asks for, which are kept.
pub fn opened(map: &[u8]) -> Open {
    let mut open = open(map, [0; 2]);
    if open.got.number == 15 {
        open = self::open(map, [open.got.words[0] as usize, open.got.words[1] as usize]);
    }
    let TagLists { starts, letters } = &mut open.lists;
    starts.truncate(starts.len() - BEHIND);
    letters.truncate(letters.len() - BEHIND);
    open
}

/// What asking for a sub file's interval gives.
pub struct Given {
    pub got: Got<6>,
    pub interval: Interval,
}

pub fn interval(map: &[u8], layout: &Layout, sub_file: usize) -> Given {
    let mut interval = [WORD; 6];
    // SAFETY: as above
    let got = Got::of(|words| unsafe {
        sys::mapsforge_interval(map.as_ptr(), map.len(), layout, sub_file, words, &mut interval)
    });
    Given { got, interval }
}

pub fn sub_file(map: &[u8], layout: &Layout, zoom: u8) -> Got<8> {
    // SAFETY: as above
    Got::of(|words| unsafe {
        sys::mapsforge_sub_file(map.as_ptr(), map.len(), layout, zoom, words)
    })
}

/// Tag `k` of so many from an entry of the lists on.
pub fn tag(map: &[u8], tags: &Tags, [first, count]: [u64; 2], k: usize) -> Got<10> {
    let Tags { starts, letters } = tags;
    // SAFETY: as above
    Got::of(|words| unsafe {
        sys::mapsforge_tag(
            map.as_ptr(),
            map.len(),
            starts.as_ptr(),
            starts.len(),
            letters.as_ptr(),
            letters.len(),
            first as usize,
            count as usize,
            k,
            words,
        )
    })
}

pub fn text(text: &[u8], buffer: &mut [u8]) -> Got<7> {
    // SAFETY: as above
    Got::of(|words| unsafe {
        sys::mapsforge_text(text.as_ptr(), text.len(), buffer.as_mut_ptr(), buffer.len(), words)
    })
}

pub fn tile_count(ask: &Ask) -> Got<8> {
    let Grid { x_min, y_min, x_max, y_max } = ask.at.grid;
    // SAFETY: as above
    Got::of(|words| unsafe {
        sys::mapsforge_tile_count(&ask.interval, x_min, y_min, x_max, y_max, words)
    })
}

pub fn tile_index(ask: &Ask, [x, y]: [i32; 2]) -> Got<8> {
    let Grid { x_min, y_min, x_max, y_max } = ask.at.grid;
    // SAFETY: as above
    Got::of(|words| unsafe {
        sys::mapsforge_tile_index(&ask.interval, x_min, y_min, x_max, y_max, x, y, words)
    })
}

pub fn index_entry(ask: &Ask) -> Got<9> {
    let Ask { map, layout, interval, at: Address { grid, tile, .. }, .. } = ask;
    // SAFETY: as above
    Got::of(|words| unsafe {
        sys::mapsforge_index_entry(
            map.as_ptr(),
            map.len(),
            layout,
            interval,
            grid.x_min,
            grid.y_min,
            grid.x_max,
            grid.y_max,
            *tile as usize,
            words,
        )
    })
}

pub fn column(longitude: f64, zoom: u8) -> (u64, i64) {
    let mut column = [WORD as i64];
    // SAFETY: as above
    let got =
        Got::of(|words| unsafe { sys::mapsforge_column(longitude, zoom, words, &mut column) });
    (bare(got), column[0])
}

pub fn longitude(column: u32, zoom: u8) -> (u64, f64) {
    let mut longitude = [degree()];
    // SAFETY: as above
    let got =
        Got::of(|words| unsafe { sys::mapsforge_longitude(column, zoom, words, &mut longitude) });
    (bare(got), longitude[0])
}

/// The number of a sub file is handed in too, which the stream's end answers.
pub fn stream_open(ask: &Ask, number: u64, zoom: u8, state: &mut State) -> Got<6> {
    let Ask { map, layout, interval, at: Address { grid, tile, .. }, .. } = ask;
    // SAFETY: as above
    Got::of(|words| unsafe {
        sys::mapsforge_stream_open(
            map.as_ptr(),
            map.len(),
            layout,
            interval,
            number as usize,
            grid.x_min,
            grid.y_min,
            grid.x_max,
            grid.y_max,
            *tile as usize,
            zoom,
            state,
            words,
        )
    })
}

/// What a tile's stream will want by these decisions.
pub fn wanted(ask: &Ask, zoom: u8, decisions: &[u8]) -> Got<11> {
    let Ask { map, layout, interval, at: Address { grid, tile, .. }, .. } = ask;
    let letters = ask.tags.letters;
    // SAFETY: as above
    Got::of(|words| unsafe {
        sys::mapsforge_wanted(
            map.as_ptr(),
            map.len(),
            layout,
            letters.as_ptr(),
            letters.len(),
            interval,
            grid.x_min,
            grid.y_min,
            grid.x_max,
            grid.y_max,
            *tile as usize,
            zoom,
            decisions.as_ptr(),
            decisions.len(),
            words,
        )
    })
}

/// A point, a way's head or the end.
#[derive(Clone)]
pub struct Next {
    pub got: Got<22>,
    pub signed: [i64; 2],
    pub degrees: [f64; 2],
    pub ids: [u64; 15],
}

/// What a next reads besides the state.
#[derive(Clone, Copy)]
pub struct Read<'a> {
    pub map: &'a [u8],
    pub layout: &'a Layout,
    pub letters: &'a [u8],
}

#[link(name = "general_next", kind = "static")]
extern "C" {
    /// Next with no quick reader: crate `general_next`, proved of the contract of `mapsforge_stream_next`, which this driver alone links.
    fn mapsforge_general_next(
        map: *const u8,
        map_len: usize,
        layout: *const Layout,
        letters: *const u8,
        letters_len: usize,
        state: *mut State,
        words: *mut [u64; 22],
        signed_words: *mut [i64; 2],
        degrees: *mut [f64; 2],
        ids: *mut [u64; 15],
    ) -> u64;
}

/// The two nexts.
#[derive(Clone, Copy)]
pub enum NextBy {
    Library,
    General,
}

impl NextBy {
    /// All that is lent holds a word before the call.
    pub fn call(self, read: &Read, state: &mut State, word: u64) -> Next {
        let Read { map, layout, letters } = *read;
        let (mut words, mut ids) = ([word; 22], [word; 15]);
        let (mut signed, mut degrees) = ([word as i64; 2], [f64::from_bits(word); 2]);
        let next = match self {
            NextBy::Library => sys::mapsforge_stream_next,
            NextBy::General => mapsforge_general_next,
        };
        // SAFETY: as above
        let number = unsafe {
            next(
                map.as_ptr(),
                map.len(),
                layout,
                letters.as_ptr(),
                letters.len(),
                state,
                &mut words,
                &mut signed,
                &mut degrees,
                &mut ids,
            )
        };
        Next { got: Got { number, words }, signed, degrees, ids }
    }
}

pub fn stream_next(ask: &Ask, state: &mut State) -> Next {
    NextBy::Library.call(&ask.read(), state, WORD)
}

/// Next by a window and rules.
pub fn stream_next_selected(
    ask: &Ask,
    select: &[u64; 4],
    classes: &[u8],
    state: &mut State,
) -> Next {
    let Read { map, layout, letters } = ask.read();
    let (mut words, mut ids) = ([WORD; 22], [WORD; 15]);
    let (mut signed, mut degrees) = ([WORD as i64; 2], degrees());
    // SAFETY: as above
    let number = unsafe {
        sys::mapsforge_stream_next_selected(
            map.as_ptr(),
            map.len(),
            layout,
            letters.as_ptr(),
            letters.len(),
            select,
            classes.as_ptr(),
            classes.len(),
            state,
            &mut words,
            &mut signed,
            &mut degrees,
            &mut ids,
        )
    };
    Next { got: Got { number, words }, signed, degrees, ids }
}

/// The fronts of three lists that are lent.
pub struct Nodes<'a> {
    pub counts: &'a mut [u64],
    pub latitudes: &'a mut [f64],
    pub longitudes: &'a mut [f64],
}

/// A way's body.
pub struct Accept {
    pub got: Got<19>,
    pub degrees: [f64; 2],
}

pub fn stream_accept(map: &[u8], state: &mut State, nodes: Nodes) -> Accept {
    let Nodes { counts, latitudes, longitudes } = nodes;
    let mut degrees = degrees();
    // SAFETY: as above
    let got = Got::of(|words| unsafe {
        sys::mapsforge_stream_accept(
            map.as_ptr(),
            map.len(),
            state,
            counts.as_mut_ptr(),
            counts.len(),
            latitudes.as_mut_ptr(),
            latitudes.len(),
            longitudes.as_mut_ptr(),
            longitudes.len(),
            words,
            &mut degrees,
        )
    });
    Accept { got, degrees }
}

pub fn stream_decline(state: &mut State) -> u64 {
    // SAFETY: as above
    bare(Got::of(|words| unsafe { sys::mapsforge_stream_decline(state, words) }))
}

/// A collected tile's words, and its zoom table.
pub struct Collect {
    pub got: Got<15>,
    pub points: [u64; 256],
    pub ways: [u64; 256],
}

/// The features of a collected tile, as collecting gave them: where each starts, and how many points and ways there are.
#[derive(Clone, Copy, Debug)]
pub struct Places<'a> {
    pub starts: &'a [u64],
    pub points: u64,
    pub ways: u64,
}

/// The same, kept by the caller.
#[derive(Clone, Debug, Default)]
pub struct PlaceList {
    pub starts: Vec<u64>,
    pub points: u64,
    pub ways: u64,
}

impl PlaceList {
    pub fn lend(&self) -> Places<'_> {
        Places { starts: &self.starts, points: self.points, ways: self.ways }
    }
}

/// With a list that is long enough, once an empty one has told how long.
pub fn collect_all(ask: &Ask) -> (Collect, PlaceList) {
    let Got { number, words } = collect(ask, &mut []).got;
    let mut starts = vec![WORD; if number == 15 { words[0] as usize } else { 0 }];
    let tile = collect(ask, &mut starts);
    let [points, ways] = [11, 12].map(|k| tile.got.words[k]);
    (tile, PlaceList { starts, points, ways })
}

pub fn collect(ask: &Ask, places: &mut [u64]) -> Collect {
    let Ask { map, layout, interval, at: Address { grid, tile, .. }, .. } = ask;
    let letters = ask.tags.letters;
    let (mut points, mut ways) = ([WORD; 256], [WORD; 256]);
    // SAFETY: as above
    let got = Got::of(|words| unsafe {
        sys::mapsforge_collect(
            map.as_ptr(),
            map.len(),
            layout,
            letters.as_ptr(),
            letters.len(),
            interval,
            grid.x_min,
            grid.y_min,
            grid.x_max,
            grid.y_max,
            *tile as usize,
            words,
            &mut points,
            &mut ways,
            places.as_mut_ptr(),
            places.len(),
        )
    });
    Collect { got, points, ways }
}

/// All that is lent to a fetch.
pub struct Lists<'a> {
    pub nodes: Nodes<'a>,
    pub initial_latitudes: &'a mut [f64],
    pub initial_longitudes: &'a mut [f64],
    pub buffer: &'a mut [u8],
}

/// A fetched feature.
pub struct Fetch {
    pub got: Got<37>,
    pub signed: [i64; 2],
    pub degrees: [f64; 2],
    pub ids: [u64; 15],
    pub tags: [u64; 75],
}

pub fn fetch(ask: &Ask, of: Places, feature: u64, lists: Lists) -> Fetch {
    let Ask { map, layout, .. } = ask;
    let Tags { starts, letters: listed } = ask.tags;
    let Lists { nodes, initial_latitudes, initial_longitudes, buffer } = lists;
    let Nodes { counts, latitudes, longitudes } = nodes;
    let (mut signed, mut degrees) = (SIGNED, degrees());
    let (mut ids, mut tags) = ([WORD; 15], [WORD; 75]);
    // SAFETY: as above
    let got = Got::of(|words| unsafe {
        sys::mapsforge_fetch(
            map.as_ptr(),
            map.len(),
            layout,
            starts.as_ptr(),
            starts.len(),
            listed.as_ptr(),
            listed.len(),
            of.starts.as_ptr(),
            of.starts.len(),
            of.points,
            of.ways,
            feature,
            counts.as_mut_ptr(),
            counts.len(),
            latitudes.as_mut_ptr(),
            latitudes.len(),
            longitudes.as_mut_ptr(),
            longitudes.len(),
            initial_latitudes.as_mut_ptr(),
            initial_latitudes.len(),
            initial_longitudes.as_mut_ptr(),
            initial_longitudes.len(),
            buffer.as_mut_ptr(),
            buffer.len(),
            words,
            &mut signed,
            &mut degrees,
            &mut ids,
            &mut tags,
        )
    });
    Fetch { got, signed, degrees, ids, tags }
}

pub fn measure_way_data(map: &[u8], at: usize, data_blocks: u64) -> Got<10> {
    // SAFETY: as above
    Got::of(|words| unsafe {
        sys::mapsforge_measure_way_data(map.as_ptr(), map.len(), at, data_blocks, words)
    })
}

pub fn read_way_data(
    map: &[u8],
    at: usize,
    data_blocks: u64,
    double: bool,
    nodes: Nodes,
) -> Got<10> {
    let Nodes { counts, latitudes, longitudes } = nodes;
    // SAFETY: as above
    Got::of(|words| unsafe {
        sys::mapsforge_read_way_data(
            map.as_ptr(),
            map.len(),
            at,
            data_blocks,
            double,
            counts.as_mut_ptr(),
            counts.len(),
            latitudes.as_mut_ptr(),
            latitudes.len(),
            longitudes.as_mut_ptr(),
            longitudes.len(),
            words,
        )
    })
}
