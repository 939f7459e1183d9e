//! Reads Mapsforge binary maps by a library in which every function is proved to meet its contract.
//!
//! This crate wraps that library (target/staticlib/libmapsforge.a of the repository) for Rust. The library keeps no state
//! and allocates nothing; this crate keeps what it gave of the header, so that no tile's call opens the map again, and
//! adds the memory that grows, the latitude rows of a sub file's grid, and types.
//!
//! ```
//! use mapsforge::{MapFile, Step};
//!
//! let file = MapFile::open(concat!(env!("CARGO_MANIFEST_DIR"), "/../maps/islands.map"))?;
//! let map = file.map()?;
//! let sub_file = map.sub_file_for_zoom(14)?.expect("a sub file has zoom 14");
//! let place = sub_file.tile_at(4096, 2272)?.expect("the tile is in the grid");
//!
//! // Whole: every feature is decoded, and fetched by its number.
//! let tile = sub_file.collect(place.number)?;
//! assert_eq!((tile.point_count(), tile.way_count(), tile.exact()), (35, 141, true));
//!
//! // Or streamed at a zoom, with a say on each way before its nodes are decoded.
//! let mut stream = sub_file.stream(place.number, 14)?;
//! let mut ways = 0;
//! loop {
//!     match stream.next()? {
//!         Step::Point(_) => (),
//!         Step::Way(head) if head.has_tag("building", "church") => {
//!             stream.accept()?;
//!             ways += 1;
//!         }
//!         Step::Way(_) => stream.decline()?,
//!         Step::End(_) => break,
//!     }
//! }
//! assert_eq!(ways, 1);
//! # Ok::<(), Box<dyn std::error::Error>>(())
//! ```
//!
//! Where to start: [`MapFile`] or [`Map`], then [`SubFile`], then [`Tile`] or [`Stream`], or [`Placed`] for features at
//! their places on earth; [`Map::window`] for the tiles of a [`Window`]. [`check`] tells of each tile of a map whether stream and collected tile agree, [`diff`] what
//! changed from one map to another. [`SubFile::wanted`] tells how long lists a stream will need. [`RuleList`] and [`Rules`] say which ways show at which zoom. [`raw`] has every function of the library as it is, safe to call.

#![deny(unsafe_code)]
#![warn(missing_docs)]

#[cfg(not(all(target_os = "linux", target_arch = "x86_64")))]
compile_error!("the library is built for x86-64 Linux");

pub mod check;
pub mod diff;
mod feature;
mod file;
mod grid;
mod header;
mod map;
mod name;
mod part;
mod placed;
mod position;
// Its functions take what the library's take.
#[allow(unsafe_code, clippy::too_many_arguments)]
pub mod raw;
mod refusal;
mod rules;
mod stream;
mod sub_file;
#[allow(missing_docs)]
pub mod sys;
mod tags;
mod tile;
mod wanted;
mod window;
#[allow(missing_docs)]
pub mod word;

pub use feature::{closed, Block, Buffers, Feature, Point, Tag, Way};
pub use file::MapFile;
pub use grid::{latitude_of_row, row_of_latitude, Grid, LATITUDE_LIMIT};
pub use header::{BoundingBox, Header, ZoomInterval};
pub use map::Map;
pub use name::Name;
pub use part::Part;
pub use placed::{Kind, Line, Placed, PlacedStream, SelectedStream};
pub use position::{Offset, Position, EARTH_RADIUS};
pub use refusal::{Lengths, Refusal, TileRefusal};
pub use rules::{Fault, Rule, RuleList, Rules, TextMistake};
pub use stream::{
    Lists, Selection, Step, Stream, StreamEnd, StreamedBody, StreamedPoint, ToCome, WayHead,
};
pub use sub_file::{IndexEntry, SubFile, TilePlace, TilePlaces};
pub use tags::{InlineKind, NoKey, TagFilter, TagName, TagNames};
pub use tile::{Features, Tile};
pub use wanted::Wanted;
pub use window::{Window, WindowTile, WindowTiles};
