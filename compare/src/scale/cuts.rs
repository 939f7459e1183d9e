//! Maps that are cut off: in an index entry (19), in a tile's head (20) or in a feature (1), each with the place
//! that the model says.

use std::collections::BTreeSet;
use std::ops::Range;

use mapsforge_rs::types::MapFile;

use super::bases::Base;
use super::check::{caught, Call, Check, Checked};
use super::lent::Lent;
use super::library::Ask;
use super::opening::{self, header_end, interval_words, Said};
use super::{asked, foreign};
use crate::differences::tile::Opened;
use crate::random::Random;
use crate::source::Source;

const SEED: u64 = 0xC075;
/// A cut map of fewer bytes is shown where something differs.
const SHOWN: usize = 2000;
/// Of a map that has too many cuts for all of them, each tile is asked for after so many at random.
const RANDOM_CUTS: usize = 8;

/// What was cut off. A cut is a length that a map is cut to, and a tile that is asked for after it.
#[derive(Default)]
pub struct Cuts {
    pub check: Check,
    maps: u64,
    whole: u64,
    cuts: u64,
    pub differences: u64,
}

impl Cuts {
    /// The cuts of a map: all of them, or if these are more than `most` those in and around each tile's entry and
    /// head and some at random. A map that does not open has no words for its tiles.
    pub fn compare(&mut self, base: &Base, most: usize) {
        let all = base.map.len().saturating_mul(base.tiles.len()) <= most;
        let mut cut = 0;
        let compared = caught(|| self.of_map(base, all, &mut cut)).and_then(|compared| compared);
        self.check.end_case();
        if let Err(why) = compared {
            println!("UNEXPLAINED: {}, cut to {cut} of {}: {why}", base.name, base.map.len());
            if cut < SHOWN {
                println!("  the cut map {:02x?}", &base.map[..cut]);
            }
            self.differences += 1;
        }
    }

    fn of_map(&mut self, base: &Base, all: bool, cut: &mut usize) -> Checked {
        let map = &base.map[..];
        let opening = opening::of(&mut Check::default(), map)?;
        let said = Said::of(map, &opening)?;
        let (layout, tags) = (said.layout(), said.tags());
        let Ok(mut file) = opening else { return Ok(()) };
        self.maps += 1;
        self.whole += u64::from(all);
        let header_end = header_end(map, &file.header);
        let (mut lent, mut random) = (Lent::default(), Random::new(SEED));
        for &at in &base.tiles {
            let sub_file = usize::try_from(at.sub_file).ok();
            let intervals = &file.header.zoom_interval_configuration;
            let interval = sub_file.and_then(|sub_file| intervals.get(sub_file));
            let interval = interval.map_or([0; 6], interval_words);
            let ask = Ask { map, layout, tags, as_named: true, interval, at };
            file.reader = Source::new(map);
            let lengths =
                if all { (0..map.len()).collect() } else { random.lengths_of(&file, &ask) };
            for length in lengths {
                *cut = length;
                let ask = Ask { map: &map[..length], ..ask };
                self.cuts += 1;
                self.tile(&mut lent, &mut file, &ask, length < header_end, &mut random)
                    .map_err(|why| format!("sub file {}, tile {}: {why}", at.sub_file, at.tile))?;
            }
        }
        Ok(())
    }

    /// Entry, collecting, fetches and a stream, by the words of the whole map.
    fn tile<'a>(
        &mut self,
        lent: &mut Lent,
        file: &mut MapFile<Source<'a>>,
        ask: &Ask<'a>,
        in_header: bool,
        random: &mut Random,
    ) -> Checked {
        if in_header {
            // the names are looked up in the map, which does not have all of them any more
            return foreign::cut_off(&mut self.check, lent, ask, random);
        }
        file.reader = Source::new(ask.map);
        asked::tile(&mut self.check, lent, file, ask, random)
    }

    pub fn add(&mut self, other: Cuts) {
        self.check.add(other.check);
        self.maps += other.maps;
        self.whole += other.whole;
        self.cuts += other.cuts;
        self.differences += other.differences;
    }

    /// Each cut opens one stream.
    pub fn print(&self, seconds: f64) {
        let streams = |number| self.check.answered(Call::StreamOpen, number);
        println!(
            "cut off: {} cuts of {} maps, all cuts of {} of them; 19 after {}, 20 after {}, {} differ; {seconds:.1} s",
            self.cuts,
            self.maps,
            self.whole,
            streams(19),
            streams(20),
            self.differences
        );
    }
}

impl Random {
    /// Lengths in and around a tile's entry and head, and some at random.
    fn lengths_of(&mut self, file: &MapFile<Source>, ask: &Ask) -> BTreeSet<usize> {
        let length = ask.map.len();
        let around = |part: Range<u128>| {
            let end = part.end.saturating_add(2).min(length as u128) as usize;
            let start = part.start.saturating_sub(1).min(length as u128) as usize;
            start..end
        };
        let parts = Opened::of(file).head_parts(&ask.at).into_iter();
        let some = (0..RANDOM_CUTS).map(|_| self.below(length));
        parts.flat_map(around).chain(some).collect()
    }
}
