//! Wish 8: fetches by lists of places and by counts that collecting did not give. "With list or counts altered since, only
//! demand 1 is claimed": a fetch ends, writes nothing but what it is lent, and a refusal writes nothing. Its contract says more: the
//! answer is what the model reads at the listed place. And with the list as it was filled, bytes outside the feature and the header
//! do not matter.

use mapsforge_rs::types::MapFile;

use super::check::{Check, Checked};
use super::collected::{self, Question};
use super::known::Tile;
use super::lent::Lent;
use super::library::{Ask, PlaceList};
use super::opening::header_end;
use crate::random::Random;
use crate::source::Source;

/// Maps of more bytes are not copied for each feature.
const COPIED: usize = 1 << 16;
/// Of a tile of more features so many are fetched from such copies.
const FROM_COPIES: usize = 16;

/// What was asked for through lists.
#[derive(Default)]
pub struct Tally {
    /// Places of features that were held to the model's.
    pub starts: u64,
    /// Lists of places that were too short for collecting.
    pub short: u64,
    /// Fetches by altered lists and counts: 17, other refusals, points and ways.
    missing: u64,
    refused: u64,
    points: u64,
    ways: u64,
    /// Fetches from copies in which only header and feature are left.
    alone: u64,
}

impl Tally {
    fn rows(&self) -> [(&'static str, u64); 7] {
        [
            ("places of features, as the model has them", self.starts),
            ("lists too short for collecting (15)", self.short),
            ("altered lists and counts: no such feature (17)", self.missing),
            ("altered lists and counts: refused as read", self.refused),
            ("altered lists and counts: a point", self.points),
            ("altered lists and counts: a way", self.ways),
            ("fetched where all other bytes are changed", self.alone),
        ]
    }

    pub fn add(&mut self, other: &Tally) {
        self.starts += other.starts;
        self.short += other.short;
        self.missing += other.missing;
        self.refused += other.refused;
        self.points += other.points;
        self.ways += other.ways;
        self.alone += other.alone;
    }

    pub fn print(&self) {
        println!("lists of places:");
        for (name, count) in self.rows() {
            println!("  {name:<48} {count:>10}");
        }
    }

    /// What did not come.
    pub fn missing(&self) -> Vec<&'static str> {
        self.rows().into_iter().filter(|(_, count)| *count == 0).map(|(name, _)| name).collect()
    }
}

/// Fetches a feature by an altered list, against the model's reading at the listed place.
pub fn compare(
    check: &mut Check,
    lent: &mut Lent,
    file: &MapFile<Source>,
    ask: &Ask,
    places: &PlaceList,
    random: &mut Random,
) -> Checked {
    let altered = random.altered_places(places, ask.map.len());
    let k = random.listed_feature(&altered);
    let told = |why| format!("feature {k} by an altered list, {altered:x?}: {why}");
    by_list(check, lent, file, ask, &altered, k, random).map_err(told)
}

fn by_list(
    check: &mut Check,
    lent: &mut Lent,
    file: &MapFile<Source>,
    ask: &Ask,
    places: &PlaceList,
    k: u64,
    random: &mut Random,
) -> Checked {
    let of = places.lend();
    let count = u128::from(of.points) + u128::from(of.ways);
    let start = usize::try_from(k).ok().and_then(|k| of.starts.get(k));
    let Some(&start) = start.filter(|_| u128::from(k) < count) else {
        check.places.missing += 1;
        return collected::not_fetched(check, lent, ask, of, k, &[17], random);
    };
    let is_way = k >= of.points;
    let read = match ask.opened(file).feature_at(start, is_way).0 {
        Ok(read) => read,
        Err(refusal) => {
            check.places.refused += 1;
            return collected::not_fetched(check, lent, ask, of, k, &refusal, random);
        }
    };
    let (points, ways) = (u64::from(!is_way), u64::from(is_way));
    (check.places.points, check.places.ways) =
        (check.places.points + points, check.places.ways + ways);
    let fetched = read.get(0).ok_or("the model reads no feature")?;
    let question = Question { ask, of, k };
    collected::delivered(check, lent, &question, &fetched, Some(start), random)
}

/// "altered bytes outside it, the header and index signatures change nothing": features of a collected tile, fetched from a
/// map in which every byte behind the header that is not the feature's is another one.
pub fn alone(
    check: &mut Check,
    file: &MapFile<Source>,
    ask: &Ask,
    (known, places): (&Tile, &PlaceList),
    random: &mut Random,
) -> Checked {
    let Ok(tile) = known else { return Ok(()) };
    let features = tile.places.len();
    if ask.map.len() > COPIED || !ask.as_named {
        return Ok(());
    }
    let kept = header_end(ask.map, &file.header);
    let mut lent = Lent::default();
    for k in 0..features.min(FROM_COPIES) {
        let k = if features > FROM_COPIES { random.below(features) } else { k };
        let (start, is_way) = (tile.places[k], k as u64 >= places.points);
        let (read, end) = ask.opened(file).feature_at(start, is_way);
        let read = read.map_err(|refusal| format!("feature {k} alone: {refusal:?}"))?;
        let own = start as usize..end as usize;
        let change = |(at, byte): (usize, &u8)| match at < kept || own.contains(&at) {
            true => *byte,
            false => *byte ^ (1 + random.below(255) as u8),
        };
        let map: Vec<u8> = ask.map.iter().enumerate().map(change).collect();
        let ask = Ask { map: &map, ..*ask };
        let fetched = read.get(0).ok_or("the model reads no feature")?;
        let question = Question { ask: &ask, of: places.lend(), k: k as u64 };
        check.places.alone += 1;
        collected::delivered(check, &mut lent, &question, &fetched, Some(start), random)
            .map_err(|why| format!("feature {k}, all other bytes changed: {why}"))?;
    }
    Ok(())
}

impl Random {
    /// A list of places with other entries, another length or other counts.
    fn altered_places(&mut self, own: &PlaceList, length: usize) -> PlaceList {
        let mut places = own.clone();
        if places.starts.is_empty() {
            places.starts = (0..self.below(5)).map(|_| self.below(length + 9) as u64).collect();
            (places.points, places.ways) = (self.below(4) as u64, self.below(4) as u64);
        }
        let change = self.below(6);
        if change != 0 {
            let entries = places.starts.len();
            for _ in 0..(1 + self.below(4)).min(entries) {
                let (k, from) = (self.below(entries), self.below(entries));
                places.starts[k] = match self.below(4) {
                    0 => places.starts[from],
                    1 => self.below(length + 9) as u64,
                    _ => self.other_word(places.starts[k], length),
                };
            }
        }
        if matches!(change, 1 | 2) {
            let entries = self.other_length(places.starts.len());
            let place = self.below(length + 1) as u64;
            places.starts.resize(entries, place);
        }
        if matches!(change, 0 | 2 | 3) {
            for count in [&mut places.points, &mut places.ways] {
                if self.below(2) == 0 {
                    *count = self.other_word(*count, length);
                }
            }
        }
        places
    }

    /// A feature of such a list, most often one that it has.
    fn listed_feature(&mut self, places: &PlaceList) -> u64 {
        let entries = places.starts.len();
        match self.below(8) {
            0 => self.other_word(entries as u64, entries),
            1 => places.points.wrapping_add(places.ways).wrapping_sub(self.below(2) as u64),
            2 => places.points.wrapping_sub(self.below(2) as u64),
            _ => self.below(entries + 1) as u64,
        }
    }
}
