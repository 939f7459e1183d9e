//! A tile as our library collects and fetches it, with its texts as stored.

use super::super::check::Checked;
use super::super::lent::{Fronts, Lengths};
use super::super::library::{self, Ask, Fetch, Places, WORD};
use super::super::opening::Opening;
use super::Counts;
use crate::differences::tile::Opened;
use crate::tiles::feature::{Feature, Text, Tile};

/// A feature: what was fetched of it, its lists, and its texts as a stream gives them.
pub struct Fetched {
    pub fetch: Fetch,
    pub fronts: Fronts,
    /// Name, house number and reference.
    pub texts: [Option<Text>; 3],
}

/// "the collected tile, as collecting and fetches with long enough lists give it, together with its texts
/// as stored, its sub file and its entry's water mark".
pub struct Collected<'a> {
    pub ask: Ask<'a>,
    features: Vec<Fetched>,
    /// The zoom table: points and ways of each row.
    rows: Vec<[u64; 2]>,
    points: usize,
    water: u64,
    /// Whether the numbers of the tile's head are plain, by the model.
    head_plain: bool,
    lowest: u8,
    highest: u8,
    /// Whether the tile is marked empty, by the model.
    empty: bool,
}

/// A tile's book at a zoom.
pub struct Book<'a> {
    pub tile: &'a Collected<'a>,
    /// "P and W sum its zoom table's point and way counts up to the clamped zoom."
    pub points: usize,
    pub ways: usize,
}

impl<'a> Collected<'a> {
    /// None if the tile is not in the theorem, which is counted.
    pub fn of(opening: &Opening, ask: Ask<'a>, counts: &mut Counts) -> Checked<Option<Self>> {
        let (tile, places) = library::collect_all(&ask);
        if tile.got.number != 0 {
            counts.refused += 1;
            return Ok(None);
        }
        let [rows, points, ways, exact, plain] = [9, 11, 12, 13, 14].map(|k| tile.got.words[k]);
        if exact == 0 {
            counts.inexact += 1;
            return Ok(None);
        }
        let file = opening.as_ref().map_err(|_| "collects although it does not open")?;
        let empty = Opened::of(file).is_empty(&ask.at);
        let stored = Opened::of(file).streamed_tile(&ask.at);
        let stored = stored.map_err(|refusal| format!("collects, but document 01: {refusal:?}"))?;
        let of = places.lend();
        let features = (0..points + ways)
            .map(|k| fetched(&ask, of, k, &stored))
            .collect::<Checked<Vec<_>>>()?;
        let head_plain = Opened::of(file).head_plain(&ask.at);
        let head_plain = head_plain.map_err(|refusal| format!("no head: {refusal:?}"))?;
        // "Each point, way and tile then says whether all its numbers were plain, the tile's own head included"
        let all_plain = features.iter().all(|feature| feature.fetch.got.words[35] != 0);
        if (plain != 0) != (head_plain && all_plain) {
            return Err(format!("plain {plain}: head {head_plain}, all features {all_plain}"));
        }
        let rows = (0..rows as usize).map(|k| [tile.points[k], tile.ways[k]]).collect();
        Ok(Some(Collected {
            ask,
            features,
            rows,
            points: points as usize,
            water: library::index_entry(&ask).words[6],
            head_plain,
            lowest: ask.interval[2] as u8,
            highest: ask.interval[3] as u8,
            empty,
        }))
    }

    pub fn is_empty(&self) -> bool {
        self.empty
    }

    pub fn features(&self) -> usize {
        self.features.len()
    }

    /// Point `k`.
    pub fn point(&self, k: usize) -> &Fetched {
        &self.features[k]
    }

    /// Way `k`, "the first is 0".
    pub fn way(&self, k: usize) -> &Fetched {
        &self.features[self.points + k]
    }

    pub fn water(&self) -> u64 {
        self.water
    }

    pub fn head_plain(&self) -> bool {
        self.head_plain
    }

    /// All zooms of the interval, and one beside it on each side.
    pub fn zooms(&self) -> impl Iterator<Item = u8> {
        self.lowest.saturating_sub(1)..=self.highest.saturating_add(1)
    }

    pub fn book(&self, zoom: u8) -> Book<'_> {
        let row = usize::from(zoom.clamp(self.lowest, self.highest) - self.lowest);
        let sum = |column: usize| self.rows[..=row].iter().map(|row| row[column] as usize).sum();
        Book { tile: self, points: sum(0), ways: sum(1) }
    }
}

/// Fetches feature `k`: first with no lists, which tells the lengths.
fn fetched(ask: &Ask, of: Places, k: u64, stored: &Tile) -> Checked<Fetched> {
    let (first, _) = fetch(ask, of, k, [0; 6]);
    let lengths: Lengths = match first.got.number {
        0 => [0; 6],
        15 => std::array::from_fn(|k| first.got.words[k] as usize),
        number => return Err(format!("feature {k} is not fetched: {number}")),
    };
    let (fetch, fronts) = fetch(ask, of, k, lengths);
    if fetch.got.number != 0 {
        return Err(format!("feature {k} is not fetched: {}", fetch.got.number));
    }
    let texts = match stored.feature(k as usize) {
        Some(Feature::Point(point)) => [point.name.clone(), point.house_number.clone(), None],
        Some(Feature::Way(way)) => {
            [way.name.clone(), way.house_number.clone(), way.reference.clone()]
        }
        None => return Err(format!("document 01 has no feature {k}")),
    };
    Ok(Fetched { fetch, fronts, texts })
}

fn fetch(ask: &Ask, of: Places, k: u64, lengths: Lengths) -> (Fetch, Fronts) {
    let mut fronts = Fronts::holding(WORD, lengths);
    let fetch = library::fetch(ask, of, k, fronts.lists());
    (fetch, fronts)
}
