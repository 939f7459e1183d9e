//! Zoom intervals by a layout that opening gave of another map, or that nobody gave. A row has 19 bytes, and the
//! model reads row `k` at the layout's start and `19 k` in 64 bits: a place past all of them is in no map.

use mapsforge_rs::types::ZoomInterval;

use super::check::{Call, Check, Checked};
use super::library::{self, Interval, Layout, WORD};
use super::opening::{interval_words, maybe, INTERVAL, MISSING};
use crate::random::Random;

/// The refusal of a row that is not in the map.
const NOT_THERE: [u64; 1] = [1];

/// Both calls by a layout as it is.
pub fn by_layout(check: &mut Check, map: &[u8], layout: &Layout, random: &mut Random) -> Checked {
    let rows = Rows { map, start: layout[5], count: layout[6] % 256 };
    let near = rows.count.saturating_sub(1) + random.below(3) as u64;
    let sub_file = [near, random.below(300) as u64, random.next()][random.below(3)];
    interval(check, &rows, layout, sub_file)?;
    zoom(check, &rows, layout, [random.below(24) as u8, random.byte()][random.below(2)])
}

/// The same by layouts that are made up of it.
pub fn made_up(check: &mut Check, map: &[u8], own: &Layout, random: &mut Random) -> Checked {
    let layout = random.other_rows(own, map.len());
    by_layout(check, map, &layout, random).map_err(|why| format!("layout {layout:x?}: {why}"))
}

/// So many rows from a place on.
struct Rows<'a> {
    map: &'a [u8],
    start: u64,
    count: u64,
}

impl Rows<'_> {
    /// Row `k`, if it is in the map.
    fn row(&self, k: u64) -> Option<ZoomInterval> {
        let start = self.start.checked_add(k.checked_mul(INTERVAL as u64)?)?;
        let start = usize::try_from(start).ok()?;
        let row = self.map.get(start..start.checked_add(INTERVAL)?)?;
        let (zooms, places) = row.split_at(3);
        let place =
            |at: usize| places[at..at + 8].iter().fold(0, |sum, &b| sum << 8 | u64::from(b));
        Some(ZoomInterval {
            base_zoom_level: zooms[0],
            min_zoom_level: zooms[1],
            max_zoom_level: zooms[2],
            sub_file_start: place(0),
            sub_file_size: place(8),
        })
    }

    /// The first row that has the zoom, or that is not in the map.
    fn first(&self, zoom: u8) -> Result<Option<u64>, [u64; 1]> {
        for k in 0..self.count {
            let ZoomInterval { min_zoom_level, max_zoom_level, .. } =
                self.row(k).ok_or(NOT_THERE)?;
            if (min_zoom_level..=max_zoom_level).contains(&zoom) {
                return Ok(Some(k));
            }
        }
        Ok(None)
    }
}

fn interval(check: &mut Check, rows: &Rows, layout: &Layout, sub_file: u64) -> Checked {
    let ours = library::interval(rows.map, layout, sub_file as usize);
    let words: Interval = if sub_file >= rows.count {
        check.got(Call::Interval, &ours.got, 0, &[WORD; 6])?;
        MISSING
    } else if let Some(row) = rows.row(sub_file) {
        check.got(Call::Interval, &ours.got, 0, &[WORD; 6])?;
        interval_words(&row)
    } else {
        check.refused(Call::Interval, &ours.got, &NOT_THERE)?;
        [WORD; 6]
    };
    check.words("the interval of a row", &ours.interval, &words)
}

fn zoom(check: &mut Check, rows: &Rows, layout: &Layout, zoom: u8) -> Checked {
    let ours = library::sub_file(rows.map, layout, zoom);
    match rows.first(zoom) {
        Ok(found) => check.got(Call::SubFile, &ours, 0, &maybe(found)),
        Err(refusal) => check.refused(Call::SubFile, &ours, &refusal),
    }
}

impl Random {
    /// Another start and another count: the layout's, near it, where the map or all places end, or any.
    fn other_rows(&mut self, own: &Layout, length: usize) -> Layout {
        let mut layout = *own;
        let rows = (INTERVAL * self.below(300)) as u64;
        let end = [length as u64, u64::MAX][self.below(2)];
        layout[5] = match self.below(6) {
            0 => own[5],
            1 => own[5].wrapping_add(self.below(41) as u64).wrapping_sub(20),
            2 => self.below(length + 20) as u64,
            3 | 4 => end.wrapping_sub(rows).wrapping_add(self.below(5) as u64).wrapping_sub(2),
            _ => self.next(),
        };
        let counts = [own[6], self.below(4) as u64, self.below(600) as u64, self.next()];
        layout[6] = counts[self.below(4)];
        layout
    }
}
