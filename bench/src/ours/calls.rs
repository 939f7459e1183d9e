//! The calls of the library, and the rows and lists that they fill.

use std::hint::black_box;

use mapsforge::sys;
use mapsforge_rs::grid::Grid;

/// Where a tile is asked for.
pub struct Address {
    pub sub_file: usize,
    pub grid: Grid,
    pub tile: usize,
}

pub struct Calls<'a> {
    pub map: &'a [u8],
    pub opened: Opened,
    /// Of each sub file, which the calls about its tiles take.
    intervals: Vec<[u64; 6]>,
    /// A refusal's values, for the calls whose words have nothing else.
    values: [u64; 6],
    pub interval: [u64; 6],
    pub found: [u64; 8],
    pub wanted: [u64; 11],
    state: [u64; 8],
    pub next: Next,
    pub accepted: Accepted,
    pub collected: Collected,
    pub fetched: Fetched,
    pub lists: Lists,
}

pub struct Opened {
    pub words: [u64; 34],
    pub degrees: [f64; 6],
    layout: [u64; 7],
    /// The lists of the map's tags, as long as it needs them.
    starts: Vec<u64>,
    letters: Vec<u8>,
}

pub struct Next {
    pub words: [u64; 22],
    pub signed: [i64; 2],
    pub degrees: [f64; 2],
    pub ids: [u64; 15],
}

pub struct Accepted {
    pub words: [u64; 19],
    pub degrees: [f64; 2],
}

pub struct Collected {
    pub words: [u64; 15],
    pub points: [u64; 256],
    pub ways: [u64; 256],
}

pub struct Fetched {
    pub words: [u64; 37],
    pub signed: [i64; 2],
    pub degrees: [f64; 2],
    pub ids: [u64; 15],
    pub tags: [u64; 75],
}

pub struct Lists {
    /// Of the features of the tile that was collected last.
    places: Vec<u64>,
    /// All ways are accepted.
    decisions: Vec<u8>,
    pub node_counts: Vec<u64>,
    pub latitudes: Vec<f64>,
    pub longitudes: Vec<f64>,
    pub initial_latitudes: Vec<f64>,
    pub initial_longitudes: Vec<f64>,
    pub buffer: Vec<u8>,
}

impl Lists {
    /// A point takes four bytes or more and a way six, and they may share them. A block or a node takes a
    /// byte or more. A byte of a text gives at most three, and a feature has up to 18 texts; tags may share
    /// theirs.
    fn for_map(size: usize) -> Self {
        Lists {
            places: vec![0; size / 2],
            decisions: vec![1; size / 6],
            node_counts: vec![0; size],
            latitudes: vec![0.0; size],
            longitudes: vec![0.0; size],
            initial_latitudes: vec![0.0; size],
            initial_longitudes: vec![0.0; size],
            buffer: vec![0; 3 * 18 * size],
        }
    }
}

/// Each call answers 0 or the number of the refusal.
///
/// SAFETY, of every one: a slice goes by its own address and length, a row by the address of an array
/// of the length that the header file states, and no two of them overlap.
impl<'a> Calls<'a> {
    pub fn new(map: &'a [u8]) -> Self {
        Calls {
            map,
            opened: Opened {
                words: [0; 34],
                degrees: [0.0; 6],
                layout: [0; 7],
                starts: Vec::new(),
                letters: Vec::new(),
            },
            intervals: Vec::new(),
            values: [0; 6],
            interval: [0; 6],
            found: [0; 8],
            wanted: [0; 11],
            state: [0; 8],
            next: Next { words: [0; 22], signed: [0; 2], degrees: [0.0; 2], ids: [0; 15] },
            accepted: Accepted { words: [0; 19], degrees: [0.0; 2] },
            collected: Collected { words: [0; 15], points: [0; 256], ways: [0; 256] },
            fetched: Fetched {
                words: [0; 37],
                signed: [0; 2],
                degrees: [0.0; 2],
                ids: [0; 15],
                tags: [0; 75],
            },
            lists: Lists::for_map(map.len()),
        }
    }

    pub fn open(&mut self) -> u64 {
        let map = black_box(self.map);
        let Opened { words, degrees, layout, starts, letters } = &mut self.opened;
        unsafe {
            sys::mapsforge_open(
                map.as_ptr(),
                map.len(),
                starts.as_mut_ptr(),
                starts.len(),
                letters.as_mut_ptr(),
                letters.len(),
                words,
                degrees,
                layout,
            )
        }
    }

    /// Opens the map with lists of the lengths that it asks for, which are kept.
    pub fn open_first(&mut self) -> u64 {
        let number = self.open();
        if number != 15 {
            return number;
        }
        let [starts, letters] = [self.opened.words[0], self.opened.words[1]];
        self.opened.starts = vec![0; starts as usize];
        self.opened.letters = vec![0; letters as usize];
        self.open()
    }

    pub fn interval(&mut self, sub_file: usize) -> u64 {
        let (values, interval) = (&mut self.values, &mut self.interval);
        unsafe {
            sys::mapsforge_interval(
                self.map.as_ptr(),
                self.map.len(),
                &self.opened.layout,
                sub_file,
                values,
                interval,
            )
        }
    }

    pub fn sub_file(&mut self, zoom: u8) -> u64 {
        let (map, layout) = (self.map, &self.opened.layout);
        unsafe { sys::mapsforge_sub_file(map.as_ptr(), map.len(), layout, zoom, &mut self.found) }
    }

    /// Keeps the intervals of so many sub files of the opened map.
    pub fn keep_intervals(&mut self, count: usize) {
        let mut of = |sub_file| {
            assert_eq!(self.interval(sub_file), 0, "it opened before");
            self.interval
        };
        self.intervals = (0..count).map(&mut of).collect();
    }

    pub fn stream_open(&mut self, address: &Address, zoom: u8) -> u64 {
        let Address { sub_file, grid, tile } = *address;
        unsafe {
            sys::mapsforge_stream_open(
                self.map.as_ptr(),
                self.map.len(),
                &self.opened.layout,
                &self.intervals[sub_file],
                sub_file,
                grid.x_min,
                grid.y_min,
                grid.x_max,
                grid.y_max,
                tile,
                zoom,
                &mut self.state,
                &mut self.values,
            )
        }
    }

    pub fn stream_next(&mut self) -> u64 {
        let Next { words, signed, degrees, ids } = &mut self.next;
        unsafe {
            sys::mapsforge_stream_next(
                self.map.as_ptr(),
                self.map.len(),
                &self.opened.layout,
                self.opened.letters.as_ptr(),
                self.opened.letters.len(),
                &mut self.state,
                words,
                signed,
                degrees,
                ids,
            )
        }
    }

    pub fn stream_skip(&mut self) -> u64 {
        let Next { words, signed, degrees, ids } = &mut self.next;
        unsafe {
            sys::mapsforge_stream_skip(
                self.map.as_ptr(),
                self.map.len(),
                &self.opened.layout,
                self.opened.letters.as_ptr(),
                self.opened.letters.len(),
                &mut self.state,
                words,
                signed,
                degrees,
                ids,
            )
        }
    }

    pub fn stream_accept(&mut self) -> u64 {
        let Lists { node_counts, latitudes, longitudes, .. } = &mut self.lists;
        unsafe {
            sys::mapsforge_stream_accept(
                self.map.as_ptr(),
                self.map.len(),
                &mut self.state,
                node_counts.as_mut_ptr(),
                node_counts.len(),
                latitudes.as_mut_ptr(),
                latitudes.len(),
                longitudes.as_mut_ptr(),
                longitudes.len(),
                &mut self.accepted.words,
                &mut self.accepted.degrees,
            )
        }
    }

    /// The same with so many entries of the list of blocks and of those of nodes.
    pub fn stream_accept_in(&mut self, [blocks, nodes]: [usize; 2]) -> u64 {
        let Lists { node_counts, latitudes, longitudes, .. } = &mut self.lists;
        let node_counts = &mut node_counts[..blocks];
        let (latitudes, longitudes) = (&mut latitudes[..nodes], &mut longitudes[..nodes]);
        unsafe {
            sys::mapsforge_stream_accept(
                self.map.as_ptr(),
                self.map.len(),
                &mut self.state,
                node_counts.as_mut_ptr(),
                node_counts.len(),
                latitudes.as_mut_ptr(),
                latitudes.len(),
                longitudes.as_mut_ptr(),
                longitudes.len(),
                &mut self.accepted.words,
                &mut self.accepted.degrees,
            )
        }
    }

    pub fn wanted(&mut self, address: &Address, zoom: u8) -> u64 {
        let Address { sub_file, grid, tile } = *address;
        unsafe {
            sys::mapsforge_wanted(
                self.map.as_ptr(),
                self.map.len(),
                &self.opened.layout,
                self.opened.letters.as_ptr(),
                self.opened.letters.len(),
                &self.intervals[sub_file],
                grid.x_min,
                grid.y_min,
                grid.x_max,
                grid.y_max,
                tile,
                zoom,
                self.lists.decisions.as_ptr(),
                self.lists.decisions.len(),
                &mut self.wanted,
            )
        }
    }

    pub fn stream_decline(&mut self) -> u64 {
        unsafe { sys::mapsforge_stream_decline(&mut self.state, &mut self.values) }
    }

    pub fn collect(&mut self, address: &Address) -> u64 {
        let Address { sub_file, grid, tile } = *address;
        let Collected { words, points, ways } = &mut self.collected;
        unsafe {
            sys::mapsforge_collect(
                self.map.as_ptr(),
                self.map.len(),
                &self.opened.layout,
                self.opened.letters.as_ptr(),
                self.opened.letters.len(),
                &self.intervals[sub_file],
                grid.x_min,
                grid.y_min,
                grid.x_max,
                grid.y_max,
                tile,
                words,
                points,
                ways,
                self.lists.places.as_mut_ptr(),
                self.lists.places.len(),
            )
        }
    }

    /// A feature of the tile that was collected last.
    pub fn fetch(&mut self, feature: u64) -> u64 {
        let lists = &mut self.lists;
        let [points, ways] = [self.collected.words[11], self.collected.words[12]];
        let Fetched { words, signed, degrees, ids, tags } = &mut self.fetched;
        unsafe {
            sys::mapsforge_fetch(
                self.map.as_ptr(),
                self.map.len(),
                &self.opened.layout,
                self.opened.starts.as_ptr(),
                self.opened.starts.len(),
                self.opened.letters.as_ptr(),
                self.opened.letters.len(),
                lists.places.as_ptr(),
                lists.places.len(),
                points,
                ways,
                feature,
                lists.node_counts.as_mut_ptr(),
                lists.node_counts.len(),
                lists.latitudes.as_mut_ptr(),
                lists.latitudes.len(),
                lists.longitudes.as_mut_ptr(),
                lists.longitudes.len(),
                lists.initial_latitudes.as_mut_ptr(),
                lists.initial_latitudes.len(),
                lists.initial_longitudes.as_mut_ptr(),
                lists.initial_longitudes.len(),
                lists.buffer.as_mut_ptr(),
                lists.buffer.len(),
                words,
                signed,
                degrees,
                ids,
                tags,
            )
        }
    }
}
