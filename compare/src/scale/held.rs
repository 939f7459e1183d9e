//! A map of which copies are damaged in place.

use std::ops::Range;

use mapsforge_rs::header::DEBUG_INFO_MASK;
use mapsforge_rs::types::{MapFile, MapHeader, ZoomInterval};

use super::bases::{opening_reads, Base};
use super::check::{caught, Check, Checked};
use super::damage::{Damage, Edit};
use super::lent::Lent;
use super::library::Ask;
use super::opening::{self, header_end, interval_words, Opening, Said};
use super::{asked, foreign};
use crate::answer::Answer;
use crate::differences::header_parts;
use crate::random::Random;
use crate::source::Source;
use crate::tiles::Address;

/// One in so many cases also has calls with words that are not the damaged map's own.
const FOREIGN: usize = 4;

/// A map that is damaged, and what is known of it undamaged.
pub struct Held {
    pub name: String,
    pub map: Vec<u8>,
    header: Option<MapHeader>,
    refusal: Answer,
    said: Said,
    /// Damages behind this place leave the header as it is.
    opening: usize,
    pub header_end: usize,
    /// The last byte of the length of each of the header's texts.
    pub lengths: Vec<Range<usize>>,
}

impl Held {
    pub fn of(base: &Base, opening: Opening) -> Checked<Self> {
        let map = &base.map;
        let said = Said::of(map, &opening)?;
        let reads = opening_reads(map, &opening);
        let header_end = opening.as_ref().map_or(map.len(), |file| header_end(map, &file.header));
        let refusal = opening.as_ref().err().cloned().unwrap_or_default();
        let texts = header_parts(map).map_or(Vec::new(), |parts| parts.texts);
        let lengths = texts.iter().map(|text| text.start - 1..text.start).collect();
        let header = opening.ok().map(|file| file.header);
        let (name, map) = (base.name.clone(), map.clone());
        Ok(Held { name, map, header, refusal, said, opening: reads, header_end, lengths })
    }

    /// The interval that a sub file has undamaged, if there is one.
    fn interval(&self, sub_file: u64) -> Option<&ZoomInterval> {
        let intervals = &self.header.as_ref()?.zoom_interval_configuration;
        intervals.get(usize::try_from(sub_file).ok()?)
    }

    /// Where a tile's entry and the next one stand.
    pub fn entries(&self, at: &Address) -> Range<usize> {
        let header = self.header.as_ref();
        let debug = header.is_some_and(|header| header.flags & DEBUG_INFO_MASK != 0);
        let start = self.interval(at.sub_file).map_or(0, |interval| interval.sub_file_start);
        let place = start.saturating_add(at.tile.saturating_mul(5)).saturating_add(16);
        let place = if debug { place } else { place.saturating_sub(16) };
        let place = usize::try_from(place).unwrap_or(0).min(self.map.len());
        place..place.saturating_add(10)
    }

    /// The offset by which a tile is marked empty, with a water mark, and the place that it is put at: the tile's own
    /// entry gets that of the next one, or the sub file's size, or the next entry gets the tile's.
    pub fn mark(&self, at: &Address, random: &mut Random) -> Edit {
        let entries = self.entries(at);
        let end = entries.end.min(self.map.len());
        let bytes = &self.map[entries.start.min(end)..end];
        let (own, next) = bytes.split_at(bytes.len().min(5));
        let is_last = at.grid.tiles().is_some_and(|tiles| at.tile == u64::from(tiles) - 1);
        let size = self.interval(at.sub_file).map_or(0, |interval| interval.sub_file_size);
        let (at, mut put) = match (is_last, random.below(2)) {
            (true, _) => (entries.start, size.to_be_bytes()[3..].to_vec()),
            (false, 0) => (entries.start, next.to_vec()),
            (false, _) => (entries.start + own.len(), own.to_vec()),
        };
        if let Some(first) = put.first_mut() {
            *first = *first & 0x7F | [0, 0x80][random.below(2)];
        }
        Edit { at, taken: put.len(), put }
    }

    /// Everything about the damaged map and one of its tiles, at times also by words that are not its own.
    pub fn compare(
        &mut self,
        check: &mut Check,
        lent: &mut Lent,
        at: Address,
        damage: &Damage,
        seed: u64,
    ) -> Checked {
        self.by_its_words(check, lent, at, damage, seed)?;
        // not the numbers from above, which depend on what came of the calls
        let mut random = Random::new(seed.rotate_left(32) | 1);
        if random.below(FOREIGN) > 0 {
            return Ok(());
        }
        let map = &self.map[..damage.length(&self.map)];
        let sub_file = [at.sub_file, random.below(4) as u64][random.below(4) / 3];
        let interval = self.interval(sub_file).map_or([0; 6], interval_words);
        let (layout, tags) = (self.said.layout(), self.said.tags());
        let kept = Ask { map, layout, tags, as_named: false, interval, at };
        caught(|| foreign::compare(check, lent, &kept, &mut random))?
    }

    /// The header is read anew only if it is damaged.
    fn by_its_words(
        &mut self,
        check: &mut Check,
        lent: &mut Lent,
        at: Address,
        damage: &Damage,
        seed: u64,
    ) -> Checked {
        let mut random = Random::new(seed);
        let map = &self.map[..damage.length(&self.map)];
        if !damage.is_behind(self.opening) {
            let mut opening = opening::of(check, map)?;
            let said = Said::of(map, &opening)?;
            return caught(|| {
                asked::of_header(check, map, &opening, &said, &mut random)?;
                asked::of_tile(check, lent, map, &mut opening, &said, at, &mut random)
            })?;
        }
        let reader = Source::new(map);
        let mut opening = match self.header.take() {
            Some(header) => Ok(MapFile { header, reader }),
            None => Err(self.refusal.clone()),
        };
        let said = &self.said;
        let compared =
            caught(|| asked::of_tile(check, lent, map, &mut opening, said, at, &mut random));
        self.header = opening.ok().map(|file| file.header);
        compared?
    }
}
