//! The maps that are compared whole and then damaged: crafted ones, those of the repository, and others.

use std::collections::{BTreeSet, HashMap};
use std::fs;
use std::io;
use std::path::Path;

use mapsforge_rs::grid::Grid;
use mapsforge_rs::io::ByteRead;

use super::crafted;
use super::damage::SHOWN;
use super::opening::Opening;
use crate::maps::calls::on_grid;
use crate::maps::{self, given, grids};
use crate::records::Record;
use crate::source::Source;
use crate::tiles::Address;

/// The maps of the repository, whose folder is beside this package's.
const SHIPPED: [&str; 4] = ["islands.map", "islands-debug.map", "short-size.map", "padded.map"];

/// Of a grid so many tiles are asked for at most: some maps are huge.
const TILES: u64 = 20_000;

/// A map, and the tiles that are asked for.
pub struct Base {
    pub name: String,
    pub map: Vec<u8>,
    pub tiles: Vec<Address>,
    /// How many tiles of its grids are not.
    left_out: u64,
}

impl Base {
    pub fn of(name: String, map: Vec<u8>, tiles: Vec<Address>) -> Self {
        Base { name, map, tiles, left_out: 0 }
    }

    /// All of a small map, beside what differs.
    pub fn print_if_small(&self) {
        if self.map.len() < SHOWN {
            println!("  the whole map {:02x?}", self.map);
        }
    }
}

/// The crafted maps and tiles of the driver, each map once.
pub fn crafted() -> Vec<Base> {
    let mut crafted = Crafted::default();
    for (map, tiles) in crafted::maps() {
        let base = crafted.base("tiles", &map);
        tiles.into_iter().for_each(|tile| crafted.tile(base, tile));
    }
    crafted.add_records(maps::sample::crafted().records());
    // of a header alone a tile is asked for too
    let bare = crafted.bases.iter_mut().filter(|base| base.tiles.is_empty());
    bare.for_each(|base| base.tiles.push(Address { sub_file: 0, grid: grids::UNKNOWN, tile: 0 }));
    crafted.bases
}

/// The maps of the repository.
pub fn repository() -> io::Result<Vec<Base>> {
    let folder = Path::new(env!("CARGO_MANIFEST_DIR")).with_file_name("maps");
    SHIPPED.iter().map(|name| of_file(&folder.join(name))).collect()
}

/// A map by its file, with the tiles of its grids.
pub fn of_file(path: &Path) -> io::Result<Base> {
    let map = fs::read(path)?;
    let name = path.display().to_string();
    // a map that does not open has none
    let grids = maps::open::with_map(&map, |file| grids::of(&file.header)).unwrap_or_default();
    let of_grid = |(sub_file, &grid)| {
        grids::some(&grid, TILES).map(move |tile| Address { sub_file, grid, tile })
    };
    let tiles: Vec<Address> = (0..).zip(&grids).flat_map(of_grid).collect();
    let left_out = grids.iter().map(grids::tiles).sum::<u64>() - tiles.len() as u64;
    Ok(Base { name, map, tiles, left_out })
}

/// How many maps there are and how many tiles are asked for, in words.
pub fn told(bases: &[Base]) -> String {
    let tiles: usize = bases.iter().map(|base| base.tiles.len()).sum();
    let left_out: u64 = bases.iter().map(|base| base.left_out).sum();
    format!("{} maps, {tiles} tiles looked at and {left_out} not", bases.len())
}

/// Maps by their bytes, so that each comes once with all that is asked about it.
#[derive(Default)]
struct Crafted {
    bases: Vec<Base>,
    numbers: HashMap<Vec<u8>, usize>,
    asked: BTreeSet<(usize, Vec<u8>)>,
}

impl Crafted {
    /// The maps, and what is asked about their sub files.
    fn add_records(&mut self, records: &[Record]) {
        let mut last = None;
        for (operation, input) in records {
            match operation {
                b'M' => last = Some(self.base("maps", input)),
                b'n' | b'i' | b'e' => {
                    let has_tile = *operation == b'e';
                    self.tile(last.expect("a map stands first"), address(input, has_tile));
                }
                // of the header, or without a map
                _ => {}
            }
        }
    }

    fn base(&mut self, kind: &str, map: &[u8]) -> usize {
        let next = self.bases.len();
        let number = *self.numbers.entry(map.to_vec()).or_insert(next);
        if number == next {
            let name = format!("crafted {kind} {next}");
            self.bases.push(Base::of(name, map.to_vec(), Vec::new()));
        }
        number
    }

    fn tile(&mut self, base: usize, at: Address) {
        if self.asked.insert((base, on_grid(at.sub_file, at.grid, &at.tile.to_be_bytes()))) {
            self.bases[base].tiles.push(at);
        }
    }
}

/// The sub file and the grid of a record, and its tile; a count or a place in the grid has none.
fn address(input: &[u8], has_tile: bool) -> Address {
    let mut input = Source::new(input);
    let sub_file = given(input.read_u64_be());
    let [x_min, y_min, x_max, y_max] = [(); 4].map(|()| given(input.read_i32_be()));
    let tile = if has_tile { given(input.read_u64_be()) } else { 0 };
    Address { sub_file, grid: Grid { x_min, y_min, x_max, y_max }, tile }
}

/// The place behind all that opening reads: the header, and the index signatures. A map that does not open
/// may do so with bytes behind its end.
pub fn opening_reads(map: &[u8], opening: &Opening) -> usize {
    let Ok(file) = opening else { return usize::MAX };
    let header = super::opening::header_end(map, &file.header);
    let debug = file.header.flags & mapsforge_rs::header::DEBUG_INFO_MASK != 0;
    let signatures = file.header.zoom_interval_configuration.iter().filter(|_| debug);
    let ends = signatures.map(|interval| interval.sub_file_start as usize + 16);
    ends.fold(header, usize::max)
}
