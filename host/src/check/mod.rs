//! Whether stream and collected tile agree on a map, and what stands in the way.
//!
//! The verdict is the library's: [`map`] and [`tile`] ask it whether each tile's entry can be read, whether the tile
//! collects, whether every stored size is the decoded length, and whether the first-way offset leads to the end of the
//! points. Where all this is so, what a stream delivers is what the collected tile has, whichever ways are declined.
//! [`explain`] walks through a tile that has a fault, to tell what and where it is; it takes no fault back. [`padding`] tells
//! which parts of a tile waste bytes on numbers, which stands in nobody's way.
//!
//! ```
//! # use mapsforge::{check::{self, Cause}, MapFile};
//! let file = MapFile::open(concat!(env!("CARGO_MANIFEST_DIR"), "/../maps/short-size.map"))?;
//! let map = file.map()?;
//! let sub_file = map.sub_file(2)?;
//! let report = check::tile(&sub_file, sub_file.tile(10).expect("there are 12 tiles"));
//! assert_eq!(report.faults, [check::Fault::Sizes]);
//!
//! let [finding] = &check::explain(&sub_file, &report)[..] else { panic!("it is one way") };
//! assert!(matches!(finding.cause, Cause::Size { stored: 34, decoded: 35, .. }));
//! assert_eq!(finding.feature.as_ref().and_then(|way| way.name.as_deref()), Some("Kirkegata"));
//! assert_eq!(check::every_tile(&map, 2, &mut check::Unwatched).findings, 1);
//! # Ok::<(), Box<dyn std::error::Error>>(())
//! ```

mod every_tile;
mod explain;
mod finding;
mod padding;

pub use every_tile::{every_tile, Sum, Unwatched, Watch};
pub use explain::explain;
pub use finding::{Cause, Covered, Declined, FeatureNote, Finding, Met, Spot};
pub use padding::{padding, Padded, Padding, PaddingSum, Waste};

use crate::{Map, Refusal, SubFile, TilePlace};

/// Why stream and list may part on a tile, by the library's answers alone.
#[derive(Clone, Copy, Debug, PartialEq, Eq)]
pub enum Fault {
    /// The tile does not collect.
    Refused(Refusal),
    /// The tile collects, but its stream is refused before it comes to the ways. By the library's contracts this cannot be; it
    /// is told rather than passed over.
    Stream(Refusal),
    /// The first-way offset does not lead to the end of the points.
    Offset {
        /// The place that it leads to.
        leads_to: u64,
        /// The end of the points.
        points_end: u64,
    },
    /// Some way's stored size is not its decoded length: a stream that declines it goes astray.
    Sizes,
}

/// What the library answers about a tile.
#[derive(Clone, Debug)]
pub struct Report {
    /// The tile.
    pub place: TilePlace,
    /// Its numbers of points and ways, if it collects.
    pub counts: Option<(u64, u64)>,
    /// Whether it is empty: its entry says so, and it has no bytes.
    pub empty: bool,
    /// What is wrong with it.
    pub faults: Vec<Fault>,
}

/// Asks the library about a tile.
pub fn tile(sub_file: &SubFile<'_, '_>, place: TilePlace) -> Report {
    let tile = match sub_file.collect(place.number) {
        Ok(tile) => tile,
        Err(refusal) => {
            let faults = vec![Fault::Refused(refusal)];
            return Report { place, counts: None, empty: false, faults };
        }
    };
    let mut faults = Vec::new();
    let (points, ways) = (tile.point_count(), tile.way_count());
    let empty = match (points, ways) {
        (0, 0) => sub_file.is_empty(place.number),
        _ => Ok(false),
    };
    if ways > 0 {
        faults.extend(first_way(sub_file, place.number));
    }
    if !tile.exact() {
        faults.push(Fault::Sizes);
    }
    // A tile that collects has a stream.
    faults.extend(empty.err().map(Fault::Stream));
    Report { place, counts: Some((points, ways)), empty: empty == Ok(true), faults }
}

/// Where the points end and where the first way stands, by the state of the tile's stream.
fn first_way(sub_file: &SubFile<'_, '_>, tile: usize) -> Option<Fault> {
    let mut stream = match sub_file.stream(tile, sub_file.interval().max_zoom) {
        Ok(stream) => stream,
        Err(refusal) => return Some(Fault::Stream(refusal)),
    };
    loop {
        let Some(to_come) = stream.to_come() else {
            return Some(Fault::Stream(Refusal::OutOfTurn));
        };
        if to_come.points == 0 {
            let (leads_to, points_end) = (to_come.next_way, to_come.next_point);
            return (leads_to != points_end).then_some(Fault::Offset { leads_to, points_end });
        }
        if let Err(refusal) = stream.next() {
            return Some(Fault::Stream(refusal));
        }
    }
}

/// What can be said of a map before any tile is read. A sub file that is named here should not be walked tile by tile.
pub fn map(map: &Map<'_>) -> Vec<Finding> {
    let mut findings = Vec::new();
    let (stored, actual) = (map.header().file_size, map.bytes().len() as u64);
    if stored != actual {
        findings.push(Finding::of_map(Cause::FileSize { stored, actual }));
    }
    findings.extend((0..map.intervals().len()).filter_map(|sub_file| index(map, sub_file)));
    findings
}

/// Whether a sub file's tiles can be walked: the library counts them, and reads the last one's entry.
fn index(map: &Map<'_>, number: usize) -> Option<Finding> {
    let covered = Covered::new(map, number);
    let refused = |refusal| Some(Finding::of_sub_file(Cause::Grid { refusal }, covered));
    let found = match map.sub_file(number) {
        Ok(found) => found,
        Err(refusal) => return refused(refusal),
    };
    match (found.whole_index(), found.tile_count()) {
        (Ok(()), _) => None,
        (Err(Refusal::IndexCutOff(_)), Ok(tiles)) => {
            let (start, room) = (found.interval().start, found.index_room());
            let cut_off = found.entry_place(room as usize).unwrap_or(u64::MAX);
            let cause = Cause::Index { start, tiles, room, cut_off };
            Some(Finding { byte: Some(cut_off), ..Finding::of_sub_file(cause, covered) })
        }
        (Err(refusal), _) => refused(refusal),
    }
}
