//! Which bytes are altered, and to what.

use std::ops::Range;

use mapsforge_rs::header::DEBUG_INFO_MASK;
use mapsforge_rs::types::MapHeader;

use super::super::damage::{Damage, Edit};
use super::super::opening::header_end;
use super::calls::List;
use crate::differences::tile::StreamParts;
use crate::maps::writer::INDEX_SIGNATURE;
use crate::random::Random;

/// The water mark in an entry's first byte.
const WATER: u8 = 0x80;

/// A stretch of the map.
pub type Bytes = Range<usize>;

/// "the header as opening reads it, index signatures".
pub fn opening(map: &[u8], header: &MapHeader) -> Vec<Bytes> {
    let debug = header.flags & DEBUG_INFO_MASK != 0;
    let intervals = header.zoom_interval_configuration.iter().filter(|_| debug);
    let starts = intervals.map(|interval| interval.sub_file_start as usize);
    let signatures = starts.map(|start| start..start + INDEX_SIGNATURE.len());
    [0..header_end(map, header)].into_iter().chain(signatures).collect()
}

/// "A byte lies only in such ways if it is behind one's tag ids and values, before its data start plus stored
/// size, and outside the header as opening reads it, index signatures and the tile's entry." Wish 5: "the next entry
/// too must lie outside them". A byte that is also one of a point up to the zoom is not among them, since the
/// first-way offset may lead into the points.
pub fn only_in_untried(parts: &StreamParts, list: &List, opening: &[Bytes]) -> Vec<Bytes> {
    let points = parts.points.iter().map(|point| &point.bytes);
    let entries = [&parts.entry].into_iter().chain(&parts.next_entry);
    let kept: Vec<&Bytes> = opening.iter().chain(entries).chain(points).collect();
    let untried = list.untried.iter().map(|&way| &parts.ways[way].rest);
    untried.flat_map(|rest| outside(rest, &kept)).collect()
}

/// What is left of a stretch outside of others.
fn outside(stretch: &Bytes, others: &[&Bytes]) -> Vec<Bytes> {
    let meets = |other: &&&Bytes| other.start < stretch.end && stretch.start < other.end;
    let without = |left: Vec<Bytes>, other: &&Bytes| -> Vec<Bytes> {
        let sides = |part: Bytes| {
            [part.start..part.end.min(other.start), part.start.max(other.end)..part.end]
        };
        left.into_iter().flat_map(sides).filter(|part| !part.is_empty()).collect()
    };
    let whole = vec![stretch.clone()].into_iter().filter(|stretch| !stretch.is_empty()).collect();
    others.iter().filter(meets).fold(whole, without)
}

impl Random {
    /// Other bytes in some stretches: one, a few, or all of them.
    pub fn altered(&mut self, map: &[u8], stretches: &[Bytes]) -> Damage {
        let edits = match self.below(4) {
            0 => vec![self.other_byte(map, stretches)],
            1 => (0..=self.below(8)).map(|_| self.other_byte(map, stretches)).collect(),
            2 => stretches.iter().map(|stretch| over(stretch, || self.byte())).collect(),
            _ => {
                let byte = [0, 0x7F, 0x80, 0xFF][self.below(4)];
                stretches.iter().map(|stretch| over(stretch, || byte)).collect()
            }
        };
        Damage { edits, cut: None }
    }

    /// Another lowest bit of some byte, if the stretches have one. A number or a text stays as long as it is.
    pub fn one_bit(&mut self, map: &[u8], stretches: &[Bytes]) -> Option<Damage> {
        let at = (!stretches.is_empty()).then(|| self.place_in_some(stretches))?;
        Some(Damage { edits: vec![Edit { at, taken: 1, put: vec![map[at] ^ 1] }], cut: None })
    }

    /// The tile's own offset for that of the next entry, with any water mark; none if it is the same already.
    pub fn marked(&mut self, map: &[u8], own: &Bytes, next: &Bytes) -> Option<Damage> {
        let mut put = map[own.clone()].to_vec();
        let [first, rest @ ..] = &map[next.clone()] else { return None };
        if (first ^ put[0]) & !WATER == 0 && *rest == put[1..] {
            return None;
        }
        put[0] ^= [0, WATER][self.below(2)];
        Some(Damage { edits: vec![Edit { at: next.start, taken: put.len(), put }], cut: None })
    }

    fn other_byte(&mut self, map: &[u8], stretches: &[Bytes]) -> Edit {
        let at = self.place_in_some(stretches);
        Edit { at, taken: 1, put: vec![map[at] ^ (1 + self.below(255) as u8)] }
    }

    /// No stretch is empty.
    fn place_in_some(&mut self, stretches: &[Bytes]) -> usize {
        let stretch = &stretches[self.below(stretches.len())];
        stretch.start + self.below(stretch.len())
    }
}

fn over(stretch: &Bytes, byte: impl FnMut() -> u8) -> Edit {
    let put: Vec<u8> = std::iter::repeat_with(byte).take(stretch.len()).collect();
    Edit { at: stretch.start, taken: put.len(), put }
}
