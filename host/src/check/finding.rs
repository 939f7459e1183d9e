//! What is found, and what it means for who uses the map.

use super::Waste;
use crate::{Kind, Map, Position, Refusal, SubFile, TilePlace};
use std::fmt;

/// What a refusal came at.
#[derive(Clone, Copy, Debug, PartialEq, Eq)]
pub enum Spot {
    /// The tile's entry in the index, or the next one.
    Entry,
    /// The tile's head: its signature, zoom table and first-way offset.
    Head,
    /// A point, counted from 0.
    Point(u64),
    /// A way, counted from 0.
    Way(u64),
    /// Somewhere in the tile.
    Tile,
}

/// What a stream comes to.
#[derive(Clone, Debug, PartialEq, Eq)]
pub enum Met {
    /// A way, of which only the name and the tags are told.
    Way {
        /// Its name, if it was decoded and has one.
        name: Option<String>,
        /// Its tags.
        tags: Vec<String>,
    },
    /// The end of the tile.
    End,
    /// A refusal.
    Refused(Refusal),
}

/// What a stream comes to behind a way that it declines, and what it should come to.
#[derive(Clone, Debug, PartialEq, Eq)]
pub struct Declined {
    /// What comes.
    pub comes: Met,
    /// What the collected tile has there.
    pub due: Met,
}

/// Why it is a finding.
#[derive(Clone, Debug, PartialEq, Eq)]
pub enum Cause {
    /// The file has another size than its header says.
    FileSize {
        /// The size in the header.
        stored: u64,
        /// The file's own.
        actual: u64,
    },
    /// The tiles of a sub file cannot be named.
    Grid {
        /// Why.
        refusal: Refusal,
    },
    /// A sub file's index does not fit into the map.
    Index {
        /// The sub file's start in the map.
        start: u64,
        /// The tiles of its grid.
        tiles: u64,
        /// How many entries the map has room for.
        room: u64,
        /// The place of the first one that it has no room for; 2^64 - 1 stands for any larger place.
        cut_off: u64,
    },
    /// The tile does not collect.
    Refused {
        /// Why.
        refusal: Refusal,
        /// At what.
        spot: Spot,
    },
    /// The tile collects, but its stream is refused.
    Stream {
        /// Why.
        refusal: Refusal,
    },
    /// The first-way offset does not lead to the end of the points.
    Offset {
        /// The place that it leads to.
        leads_to: u64,
        /// The end of the points.
        points_end: u64,
    },
    /// A way's stored size is not its decoded length.
    Size {
        /// The stored size.
        stored: u64,
        /// The decoded length.
        decoded: u64,
        /// What a stream that declines the way comes to.
        declined: Declined,
    },
    /// The library says that some stored size of the tile is wrong, but a walk through it came to none.
    Sizes,
    /// The library says whether all numbers are plain, but they are counted otherwise.
    Padding {
        /// What it says.
        plain: bool,
        /// What is counted, if that can be done.
        counted: Option<Waste>,
    },
}

/// A sub file and the zooms that it serves.
#[derive(Clone, Copy, Debug, PartialEq, Eq)]
pub struct Covered {
    /// The sub file.
    pub sub_file: usize,
    /// The zoom of its tiles.
    pub base_zoom: u8,
    /// The lowest zoom that it serves.
    pub min_zoom: u8,
    /// The highest one.
    pub max_zoom: u8,
}

impl Covered {
    /// A sub file of a map; zooms of 0 if there is none.
    pub(crate) fn new(map: &Map<'_>, sub_file: usize) -> Covered {
        let interval = map.intervals().get(sub_file);
        let [base_zoom, min_zoom, max_zoom] = interval
            .map_or([0; 3], |interval| [interval.base_zoom, interval.min_zoom, interval.max_zoom]);
        Covered { sub_file, base_zoom, min_zoom, max_zoom }
    }
}

/// The feature that a finding is about, as far as it could be read.
#[derive(Clone, Debug, PartialEq)]
pub struct FeatureNote {
    /// Point or way.
    pub kind: Kind,
    /// Its number in the tile, points and ways each from 0.
    pub number: u64,
    /// The first form of its name.
    pub name: Option<String>,
    /// Its tags, `KEY=VALUE` as in the header.
    pub tags: Vec<String>,
    /// Where it is: a way's first node.
    pub position: Option<Position>,
    /// The lowest and the highest zoom at which it shows.
    pub zooms: Option<(u8, u8)>,
}

/// Something that stands in the way of using a map.
#[derive(Clone, Debug, PartialEq)]
pub struct Finding {
    /// Why.
    pub cause: Cause,
    /// In which sub file, unless it is about the whole map.
    pub covered: Option<Covered>,
    /// In which tile, unless it is about the whole sub file.
    pub tile: Option<TilePlace>,
    /// At which feature.
    pub feature: Option<FeatureNote>,
    /// Where on earth: the feature, else the middle of the tile.
    pub around: Option<Position>,
    /// At which byte of the map.
    pub byte: Option<u64>,
}

impl Finding {
    pub(crate) fn of_map(cause: Cause) -> Finding {
        Finding { cause, covered: None, tile: None, feature: None, around: None, byte: None }
    }

    pub(crate) fn of_sub_file(cause: Cause, covered: Covered) -> Finding {
        Finding { covered: Some(covered), ..Finding::of_map(cause) }
    }

    pub(crate) fn of_tile(cause: Cause, sub_file: &SubFile<'_, '_>, place: TilePlace) -> Finding {
        let covered = Covered::new(sub_file.map(), sub_file.number());
        let around = sub_file.middle(place).ok();
        Finding { tile: Some(place), around, ..Finding::of_sub_file(cause, covered) }
    }

    /// A name for the kind of finding that programs can go by.
    pub fn kind(&self) -> &'static str {
        match self.cause {
            Cause::FileSize { .. } => "file-size",
            Cause::Grid { .. } => "grid",
            Cause::Index { .. } => "index",
            Cause::Refused { .. } => "refused",
            Cause::Stream { .. } => "stream",
            Cause::Offset { .. } => "first-way-offset",
            Cause::Size { .. } | Cause::Sizes => "stored-size",
            Cause::Padding { .. } => "padding",
        }
    }

    /// The refusal, where there is one.
    pub fn refusal(&self) -> Option<Refusal> {
        match self.cause {
            Cause::Grid { refusal }
            | Cause::Refused { refusal, .. }
            | Cause::Stream { refusal } => Some(refusal),
            Cause::Index { cut_off, .. } => Some(Refusal::IndexCutOff(cut_off)),
            _ => None,
        }
    }

    /// Which tile, sub file or byte.
    pub fn place(&self) -> String {
        let mut parts = Vec::new();
        if let Some(covered) = self.covered {
            parts.push(format!("sub file {}", covered.sub_file));
            if let Some(tile) = self.tile {
                let zoom = covered.base_zoom;
                parts.push(format!("tile {} ({zoom}/{}/{})", tile.number, tile.x, tile.y));
            }
        }
        // A refusal by these two tells its byte itself.
        let told =
            matches!(self.refusal(), Some(Refusal::IndexCutOff(_) | Refusal::TileHeadCutOff(_)));
        if let Some(byte) = self.byte.filter(|_| !told) {
            parts.push(format!("byte {byte}"));
        }
        parts.join(", ")
    }

    /// What is wrong, in a sentence.
    pub fn what(&self) -> String {
        let by = |refusal: Refusal| format!("refused with {}: {refusal}", refusal.number());
        match &self.cause {
            Cause::FileSize { stored, actual } => format!(
                "the header says that the file has {stored} bytes, but it has {actual}: {}",
                if actual < stored { "it is cut off" } else { "something is behind it" }
            ),
            Cause::Grid { refusal } | Cause::Stream { refusal } => by(*refusal),
            Cause::Index { start, tiles, room, cut_off } => format!(
                "{}. Its grid has {tiles} tiles, but from its start at byte {start} on the map \
                 has room for {room} index entries: its tiles are not read",
                by(Refusal::IndexCutOff(*cut_off))
            ),
            Cause::Refused { refusal, spot } => {
                let told = refusal.of_tile(self.tile.map_or(0, |tile| tile.number));
                let told = format!("refused with {}: {told}", refusal.number());
                match refusal {
                    // These two say themselves what is refused.
                    Refusal::IndexCutOff(_) | Refusal::TileHeadCutOff(_) => told,
                    _ => format!("{spot} is {told}"),
                }
            }
            Cause::Offset { leads_to, points_end } => format!(
                "the first-way offset leads to byte {leads_to}, but the points end at byte \
                 {points_end}"
            ),
            Cause::Size { stored, decoded, .. } => format!(
                "its stored size is {stored}, its decoded length {decoded}: {} too {}",
                bytes(stored.abs_diff(*decoded)),
                if stored < decoded { "short" } else { "long" }
            ),
            Cause::Sizes => "a way's stored size is not its decoded length".into(),
            Cause::Padding { plain, counted } => format!(
                "the library says that {}, but {}",
                if *plain { "all numbers are plain" } else { "a number is not plain" },
                match counted {
                    Some(waste) if waste.numbers == 1 => "1 is counted that is not".into(),
                    Some(waste) => format!("{} are counted that are not", waste.numbers),
                    None => "they cannot be counted so".into(),
                }
            ),
        }
    }

    /// What follows for a program that collects tiles whole: a list.
    pub fn collected(&self) -> String {
        match &self.cause {
            Cause::FileSize { .. } => self.of_size("shows nothing of the tiles that are missing"),
            Cause::Grid { .. } | Cause::Index { .. } => format!("shows nothing {}", self.zooms()),
            Cause::Refused { .. } => "refuses the tile: it shows nothing of it".into(),
            Cause::Stream { .. } | Cause::Padding { .. } => "shows the tile".into(),
            Cause::Offset { leads_to, points_end } => format!(
                "reads the ways from there: {}",
                if leads_to < points_end {
                    "bytes of points are taken for ways"
                } else {
                    "what stands before that is not read"
                }
            ),
            Cause::Size { .. } | Cause::Sizes => {
                "shows the way and all others as they are, for it decodes each".into()
            }
        }
    }

    /// What follows for a program that streams tiles and declines some ways: a panel.
    pub fn streamed(&self) -> String {
        match &self.cause {
            Cause::FileSize { .. } => self.of_size("is refused there"),
            Cause::Grid { .. } | Cause::Index { .. } => format!("draws nothing {}", self.zooms()),
            Cause::Refused { spot, .. } => match spot {
                Spot::Entry | Spot::Head | Spot::Tile => {
                    "is refused too: it draws nothing of the tile".into()
                }
                Spot::Point(k) => format!("draws the points before point {k}, and no way"),
                Spot::Way(k) => format!(
                    "draws what comes before way {k}, then is refused; if it declines that way, \
                     it goes on by a size that may be wrong"
                ),
            },
            Cause::Stream { .. } => "is refused: it draws nothing more of the tile".into(),
            Cause::Padding { .. } => "draws the tile".into(),
            Cause::Offset { .. } => "reads the ways from there too".into(),
            Cause::Size { stored, decoded, declined } => format!(
                "if it declines this way, it goes on {} too {}: next comes {}, where the list \
                 has {}",
                bytes(stored.abs_diff(*decoded)),
                if stored < decoded { "early" } else { "late" },
                declined.comes,
                declined.due
            ),
            Cause::Sizes => "if it declines that way, it goes on at a wrong byte".into(),
        }
    }

    /// What to do about it.
    pub fn remedy(&self) -> String {
        let again = "copy or fetch the map again";
        let source = "if the finding stays, ask its maker to write it anew";
        match &self.cause {
            Cause::FileSize { stored, actual } if actual < stored => {
                format!("the copy is not whole: {again}")
            }
            Cause::FileSize { .. } => format!("this is not the file that was written: {again}"),
            Cause::Grid { .. } | Cause::Index { .. } => {
                format!("the header is damaged, or the file cut off: {again}")
            }
            Cause::Stream { .. } | Cause::Padding { .. } => {
                "tell who maintains the reader: this should not be".into()
            }
            _ => format!("use the last map that passed; {again}; {source}"),
        }
    }

    fn of_size(&self, cut: &str) -> String {
        match self.cause {
            Cause::FileSize { stored, actual } if actual < stored => cut.into(),
            _ => "reads the map as its header says, and not what is behind it".into(),
        }
    }

    fn zooms(&self) -> String {
        match self.covered {
            Some(covered) => format!("at zoom {} to {}", covered.min_zoom, covered.max_zoom),
            None => "there".into(),
        }
    }
}

fn bytes(count: u64) -> String {
    format!("{count} {}", if count == 1 { "byte" } else { "bytes" })
}

impl fmt::Display for Spot {
    fn fmt(&self, f: &mut fmt::Formatter<'_>) -> fmt::Result {
        match self {
            Spot::Entry => write!(f, "its entry in the index"),
            Spot::Head => write!(f, "its head"),
            Spot::Point(k) => write!(f, "point {k}"),
            Spot::Way(k) => write!(f, "way {k}"),
            Spot::Tile => write!(f, "the tile"),
        }
    }
}

impl fmt::Display for Met {
    fn fmt(&self, f: &mut fmt::Formatter<'_>) -> fmt::Result {
        match self {
            Met::Way { name, tags } => {
                let tags = if tags.is_empty() { "without tags".into() } else { tags.join(" ") };
                match name {
                    Some(name) => write!(f, "a way \"{name}\" ({tags})"),
                    None => write!(f, "a way {tags}"),
                }
            }
            Met::End => write!(f, "the end"),
            Met::Refused(refusal) => write!(f, "a refusal with {}", refusal.number()),
        }
    }
}

/// The whole finding in a line.
impl fmt::Display for Finding {
    fn fmt(&self, f: &mut fmt::Formatter<'_>) -> fmt::Result {
        let place = self.place();
        if !place.is_empty() {
            write!(f, "{place}: ")?;
        }
        if let Some(feature) = &self.feature {
            write!(f, "{} {}", feature.kind.word(), feature.number)?;
            if let Some(name) = &feature.name {
                write!(f, " \"{name}\"")?;
            }
            write!(f, ": ")?;
        }
        write!(f, "{}", self.what())
    }
}
