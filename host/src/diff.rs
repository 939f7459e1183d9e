//! What changed from one map to another.
//!
//! The two maps are read side by side, tile by tile. What both have in a tile is dropped at once, so that only what differs is
//! kept. That is then matched: what has the same name and tags elsewhere was moved; what has the same tags at the same place
//! and another name was renamed; what has the same name at the same place and other tags was retagged; the rest was
//! removed or added. Ways are decoded, never stepped over by a stored size.
//!
//! ```
//! # use mapsforge::{diff::{self, Wanted}, MapFile};
//! let file = MapFile::open(concat!(env!("CARGO_MANIFEST_DIR"), "/../maps/islands.map"))?;
//! let other = MapFile::open(concat!(env!("CARGO_MANIFEST_DIR"), "/../maps/short-size.map"))?;
//! let (old, new) = (file.map()?, other.map()?);
//! let wanted = Wanted { zoom: 16, tags: &["amenity=ferry_terminal".parse()?] };
//! let changes = diff::maps(&old, &new, wanted, &mut |_| ())?.expect("both have zoom 16");
//! assert!(changes.is_empty());
//! assert_eq!(changes.same, 9);
//! # Ok::<(), Box<dyn std::error::Error>>(())
//! ```

use crate::{Kind, Map, Placed, Position, Refusal, SubFile, TagFilter, TilePlace};
use std::collections::HashMap;

/// Without a name it is the same feature only within so many metres.
const NEAR: f64 = 100.0;
/// Within so many metres it is the same place.
const THERE: f64 = 5.0;
/// More pairs of one name than this are not all tried.
const MOST_PAIRS: usize = 4_000_000;
/// Two nodes that are no further apart, in degrees, are one: maps keep microdegrees.
const ROUNDED: f64 = 0.000_001_5;

/// What to compare.
#[derive(Clone, Copy, Debug)]
pub struct Wanted<'t> {
    /// At which zoom.
    pub zoom: u8,
    /// Features of one of these tags; all, if there are none.
    pub tags: &'t [TagFilter],
}

/// A feature that is compared.
#[derive(Clone, Debug, PartialEq)]
pub struct Item {
    /// Point or way.
    pub kind: Kind,
    /// The name as stored, with all languages.
    pub name: Option<String>,
    /// Tags, house number, reference, layer and elevation: what must be equal besides the name.
    pub rest: Rest,
    /// The nodes, block by block.
    pub lines: Vec<Vec<Position>>,
}

/// What a feature has besides its name and its place.
#[derive(Clone, Debug, PartialEq, Eq, Hash)]
pub struct Rest {
    /// The tags, `KEY=VALUE` as in the header, in the order of the alphabet: maps number them each in its own way.
    pub tags: Vec<String>,
    /// The house number.
    pub house_number: Option<String>,
    /// The reference.
    pub reference: Option<String>,
    /// The layer.
    pub layer: i8,
    /// The elevation in metres.
    pub elevation: Option<i32>,
}

/// A feature of both maps that changed.
#[derive(Clone, Debug, PartialEq)]
pub struct Change {
    /// As it was.
    pub old: Item,
    /// As it is.
    pub new: Item,
    /// How far the furthest of its nodes is from where one was.
    pub metres: f64,
}

/// Which of the two maps.
#[derive(Clone, Copy, Debug, PartialEq, Eq)]
pub enum Side {
    /// The first one.
    Old,
    /// The second one.
    New,
}

/// A tile that could not be read.
#[derive(Clone, Copy, Debug, PartialEq, Eq)]
pub struct Unread {
    /// In which map.
    pub side: Side,
    /// Its number, column and row.
    pub place: TilePlace,
    /// Why.
    pub refusal: Refusal,
}

/// What changed.
#[derive(Clone, Debug, Default, PartialEq)]
pub struct Changes {
    /// How many features are the same; one that is stored in several tiles counts in each.
    pub same: u64,
    /// Only in the new map.
    pub added: Vec<Item>,
    /// Only in the old one.
    pub removed: Vec<Item>,
    /// Of the same name and tags elsewhere.
    pub moved: Vec<Change>,
    /// Of the same tags at the same place, and another name.
    pub renamed: Vec<Change>,
    /// Of the same name at the same place, and other tags.
    pub retagged: Vec<Change>,
    /// Tiles that could not be read.
    pub unread: Vec<Unread>,
}

impl Changes {
    /// Whether nothing changed, and everything was read.
    pub fn is_empty(&self) -> bool {
        self.same_features() && self.unread.is_empty()
    }

    /// Whether nothing that was read changed.
    pub fn same_features(&self) -> bool {
        let lists = [&self.moved, &self.renamed, &self.retagged];
        self.added.is_empty() && self.removed.is_empty() && lists.iter().all(|list| list.is_empty())
    }
}

impl Item {
    fn new(feature: &Placed<'_>) -> Item {
        let text = |text: Option<&str>| text.map(String::from);
        Item {
            kind: feature.kind,
            name: text(feature.name),
            rest: Rest {
                tags: sorted(feature.tag_texts()),
                house_number: text(feature.house_number),
                reference: text(feature.reference),
                layer: feature.layer,
                elevation: feature.elevation,
            },
            lines: feature.lines.iter().map(|line| line.nodes.clone()).collect(),
        }
    }

    /// The first node.
    pub fn position(&self) -> Option<Position> {
        self.nodes().next()
    }

    fn nodes(&self) -> impl Iterator<Item = Position> + '_ {
        self.lines.iter().flatten().copied()
    }

    /// The middle of all nodes.
    fn middle(&self) -> Position {
        let count = self.nodes().count().max(1) as f64;
        let sum =
            self.nodes().fold((0.0, 0.0), |sum, at| (sum.0 + at.latitude, sum.1 + at.longitude));
        Position { latitude: sum.0 / count, longitude: sum.1 / count }
    }

    /// Whether it can be told from others of its tags.
    fn named(&self) -> bool {
        self.name.is_some() || self.rest.house_number.is_some() || self.rest.reference.is_some()
    }

    /// Everything, to be looked up: nodes bit for bit.
    fn key(&self) -> (Kind, &Option<String>, &Rest, Vec<Vec<[u64; 2]>>) {
        let bits = |at: &Position| [at.latitude.to_bits(), at.longitude.to_bits()];
        let lines = self.lines.iter().map(|nodes| nodes.iter().map(bits).collect()).collect();
        (self.kind, &self.name, &self.rest, lines)
    }

    /// Whether its nodes are those of another, but for what is lost by rounding.
    fn lies_as(&self, other: &Item) -> bool {
        let near = |(one, other): (&Position, &Position)| {
            (one.latitude - other.latitude).abs() < ROUNDED
                && (one.longitude - other.longitude).abs() < ROUNDED
        };
        let same = |(one, other): (&Vec<Position>, &Vec<Position>)| {
            one.len() == other.len() && one.iter().zip(other).all(near)
        };
        self.lines.len() == other.lines.len() && self.lines.iter().zip(&other.lines).all(same)
    }

    /// The greatest distance from a node of one to the nearest node of the other.
    fn metres_to(&self, other: &Item) -> f64 {
        let (here, there): (Vec<_>, Vec<_>) = (self.nodes().collect(), other.nodes().collect());
        if here.is_empty() || there.is_empty() || here.len() * there.len() > MOST_PAIRS {
            return self.middle().metres_to(other.middle());
        }
        let furthest = |from: &[Position], to: &[Position]| {
            let nearest = |at: &Position| {
                to.iter().map(|other| at.metres_to(*other)).fold(f64::INFINITY, f64::min)
            };
            from.iter().map(nearest).fold(0.0, f64::max)
        };
        furthest(&here, &there).max(furthest(&there, &here))
    }
}

/// Compares two maps at a zoom, and tells of each feature that is the same. None if one of them has no sub file for the zoom.
pub fn maps(
    old: &Map<'_>,
    new: &Map<'_>,
    wanted: Wanted<'_>,
    same: &mut dyn FnMut(&Item),
) -> Result<Option<Changes>, Refusal> {
    let found = (old.sub_file_for_zoom(wanted.zoom)?, new.sub_file_for_zoom(wanted.zoom)?);
    let (Some(old), Some(new)) = found else {
        return Ok(None);
    };
    for sub_file in [&old, &new] {
        sub_file.whole_index()?;
    }
    let mut left = Left { wanted, changes: Changes::default(), old: Vec::new(), new: Vec::new() };
    left.read(&old, &new, same)?;
    Ok(Some(left.matched(same)))
}

/// What is left of two maps when what both have is taken away.
struct Left<'t> {
    wanted: Wanted<'t>,
    changes: Changes,
    old: Vec<Item>,
    new: Vec<Item>,
}

impl Left<'_> {
    fn read(
        &mut self,
        old: &SubFile<'_, '_>,
        new: &SubFile<'_, '_>,
        same: &mut dyn FnMut(&Item),
    ) -> Result<(), Refusal> {
        // Tiles of one size correspond; of another size, all that the old map has is kept.
        let paired = old.interval().base_zoom == new.interval().base_zoom;
        for place in old.tiles()? {
            let was = self.tile(old, Side::Old, place);
            let other = if paired { new.tile_at(place.x, place.y)? } else { None };
            let is = other.map(|place| self.tile(new, Side::New, place)).unwrap_or_default();
            self.cancel(was, is, same);
        }
        for place in new.tiles()? {
            let seen = paired && old.tile_at(place.x, place.y)?.is_some();
            if !seen {
                let is = self.tile(new, Side::New, place);
                self.new.extend(is);
            }
        }
        Ok(())
    }

    fn tile(&mut self, sub_file: &SubFile<'_, '_>, side: Side, place: TilePlace) -> Vec<Item> {
        let mut items = Vec::new();
        let tags = self.wanted.tags;
        let mut read = || {
            for feature in sub_file.placed(place, self.wanted.zoom)? {
                let feature = feature?;
                if tags.is_empty() || tags.iter().any(|tag| feature.has(tag)) {
                    items.push(Item::new(&feature));
                }
            }
            Ok(())
        };
        if let Err(refusal) = read() {
            self.changes.unread.push(Unread { side, place, refusal });
        }
        items
    }

    /// Keeps of a tile of both maps what only one has.
    fn cancel(&mut self, old: Vec<Item>, new: Vec<Item>, same: &mut dyn FnMut(&Item)) {
        let mut there: HashMap<_, Vec<usize>> = HashMap::new();
        for (k, item) in new.iter().enumerate() {
            there.entry(item.key()).or_default().push(k);
        }
        let pairs: Vec<Option<usize>> =
            old.iter().map(|item| there.get_mut(&item.key()).and_then(Vec::pop)).collect();
        drop(there);
        let mut met = vec![false; new.len()];
        for (item, pair) in old.into_iter().zip(pairs) {
            match pair {
                Some(k) => {
                    met[k] = true;
                    self.changes.same += 1;
                    same(&item);
                }
                None => self.old.push(item),
            }
        }
        self.new.extend(new.into_iter().zip(met).filter(|(_, met)| !met).map(|(item, _)| item));
    }

    /// Matches what is left.
    fn matched(mut self, same: &mut dyn FnMut(&Item)) -> Changes {
        // A way is stored in each tile that it touches: once is enough.
        once(&mut self.old);
        once(&mut self.new);
        for change in self.pairs(|item| (item.kind, item.name.clone(), item.rest.clone()), ANY) {
            // Of maps with tiles of other sizes, the same feature may come from other tiles.
            if change.old.lies_as(&change.new) {
                self.changes.same += 1;
                same(&change.old);
            } else {
                self.changes.moved.push(change);
            }
        }
        let renamed = self.pairs(|item| (item.kind, item.rest.clone()), THERE);
        self.changes.renamed = renamed;
        let retagged = self.pairs(|item| (item.kind, item.name.clone()), THERE);
        self.changes.retagged = retagged;
        self.changes.removed = self.old;
        self.changes.added = self.new;
        self.changes
    }

    /// Takes out pairs of features that are alike by a key and no further apart than a limit, the nearest first.
    fn pairs<Key: std::hash::Hash + Eq>(
        &mut self,
        key: impl Fn(&Item) -> Key,
        limit: f64,
    ) -> Vec<Change> {
        let mut groups: HashMap<Key, (Vec<usize>, Vec<usize>)> = HashMap::new();
        self.old.iter().enumerate().for_each(|(k, item)| {
            groups.entry(key(item)).or_default().0.push(k);
        });
        self.new.iter().enumerate().for_each(|(k, item)| {
            groups.entry(key(item)).or_default().1.push(k);
        });
        let mut pairs: Vec<(f64, usize, usize)> = Vec::new();
        for (old, new) in groups.into_values() {
            self.group(&old, &new, limit, &mut pairs);
        }
        pairs.sort_by(|one, other| {
            one.0.total_cmp(&other.0).then((one.1, one.2).cmp(&(other.1, other.2)))
        });
        self.take(&pairs)
    }

    /// The pairs of a group that are near enough.
    fn group(
        &self,
        old: &[usize],
        new: &[usize],
        limit: f64,
        pairs: &mut Vec<(f64, usize, usize)>,
    ) {
        let many = old.len().saturating_mul(new.len()) > MOST_PAIRS;
        let middles: Vec<Position> = new.iter().map(|&k| self.new[k].middle()).collect();
        for &was in old {
            let (item, here) = (&self.old[was], self.old[was].middle());
            let limit = if item.named() && !many { limit } else { limit.min(NEAR) };
            for (&is, there) in new.iter().zip(&middles) {
                // A thousandth of a degree of latitude is 111 metres: most are seen to be too far without a sine.
                let far = limit <= NEAR && (here.latitude - there.latitude).abs() > 0.001;
                if far {
                    continue;
                }
                let metres = here.metres_to(*there);
                if metres <= limit {
                    pairs.push((metres, was, is));
                }
            }
        }
    }

    /// Takes the features of pairs out of both lists, each once.
    fn take(&mut self, pairs: &[(f64, usize, usize)]) -> Vec<Change> {
        let mut old: Vec<Option<Item>> =
            std::mem::take(&mut self.old).into_iter().map(Some).collect();
        let mut new: Vec<Option<Item>> =
            std::mem::take(&mut self.new).into_iter().map(Some).collect();
        let mut changes = Vec::new();
        for &(_, was, is) in pairs {
            if old[was].is_some() && new[is].is_some() {
                if let (Some(old), Some(new)) = (old[was].take(), new[is].take()) {
                    let metres = old.metres_to(&new);
                    changes.push(Change { old, new, metres });
                }
            }
        }
        self.old = old.into_iter().flatten().collect();
        self.new = new.into_iter().flatten().collect();
        changes
    }
}

fn sorted(mut texts: Vec<String>) -> Vec<String> {
    texts.sort();
    texts
}

/// Any distance.
const ANY: f64 = f64::INFINITY;

/// Drops what stands there once already.
fn once(items: &mut Vec<Item>) {
    let mut kept: HashMap<(Kind, Option<String>, Rest), Vec<usize>> = HashMap::new();
    let mut all: Vec<Item> = Vec::new();
    for item in items.drain(..) {
        let alike = kept.entry((item.kind, item.name.clone(), item.rest.clone())).or_default();
        // Two points may lie at one place; two ways of one name and one course are one.
        let known = item.kind == Kind::Way && alike.iter().any(|&k| all[k].lies_as(&item));
        if !known {
            alike.push(all.len());
            all.push(item);
        }
    }
    *items = all;
}
