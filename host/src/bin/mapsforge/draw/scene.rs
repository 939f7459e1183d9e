//! What a picture shows: the features of some tiles, as a list or as a panel reads them.

use super::view::View;
use super::{style, Pixel};
use mapsforge::{raw, Kind, Placed, Refusal, Rules, SubFile, TagFilter, TagName, TilePlace};

/// The ways that a panel declines.
#[derive(Clone, Debug)]
pub enum Declined {
    /// Those with one of these tags.
    Tags(Vec<TagFilter>),
    /// Those that showing rules, of a file of this name, hide at the zoom.
    Rules(Rules, String),
}

impl Declined {
    /// Whether a way with these tags is declined, by their numbers or by their names.
    pub fn has<'a>(
        &self,
        tag_ids: &[usize],
        tags: impl Iterator<Item = TagName<'a>> + Clone,
        zoom: u8,
    ) -> bool {
        match self {
            Declined::Tags(filters) => filters.iter().any(|tag| tag.is_among(tags.clone())),
            Declined::Rules(rules, _) => !rules.shows_tags(tag_ids, zoom),
        }
    }
}

/// How tiles are read.
#[derive(Clone, Copy, Debug)]
pub enum Reading<'t> {
    /// Whole: a tile that does not collect has nothing, and every way is decoded.
    Collected,
    /// As a stream that declines some ways, by their stored sizes.
    Declining(&'t Declined),
}

/// A tile of a picture.
#[derive(Clone, Copy, Debug)]
pub struct Looked {
    pub place: TilePlace,
    /// In a window, its touched cells: a way that has none of them is left out.
    pub mask: Option<u16>,
}

impl Looked {
    /// A tile with all its ways.
    pub fn whole(place: TilePlace) -> Looked {
        Looked { place, mask: None }
    }

    /// Whether a way of this bitmap is wanted.
    fn wants(&self, bitmap: u16) -> bool {
        self.mask.is_none_or(|mask| raw::shares_cell(bitmap, mask))
    }
}

/// How a feature is drawn.
#[derive(Clone, Copy, Debug, PartialEq, Eq)]
pub enum Look {
    Plain,
    /// One that the other reading declines.
    Pale,
    /// One that the other reading does not have.
    Differs,
}

/// A feature in a picture.
pub struct Drawn<'a> {
    pub feature: Placed<'a>,
    pub tile: TilePlace,
    /// Its lines in the picture.
    pub lines: Vec<Vec<Pixel>>,
    pub label: Option<Pixel>,
    pub look: Look,
    /// Its tags, by which it is drawn.
    pub tags: style::Tags,
}

impl<'a> Drawn<'a> {
    fn new(view: &View, tile: TilePlace, feature: Placed<'a>) -> Drawn<'a> {
        let lines = feature.lines.iter();
        Drawn {
            tile,
            lines: lines
                .map(|line| line.nodes.iter().map(|&node| view.pixel(node)).collect())
                .collect(),
            label: feature.label.map(|at| view.pixel(at)),
            look: Look::Plain,
            tags: style::tags(&feature),
            feature,
        }
    }

    /// Whether its first line ends where it starts.
    pub fn closed(&self) -> bool {
        self.feature.lines.first().is_some_and(|line| line.closed)
    }

    /// A point's place.
    pub fn at(&self) -> Option<Pixel> {
        self.lines.first()?.first().copied()
    }

    pub fn is_point(&self) -> bool {
        self.feature.kind == Kind::Point
    }
}

/// A tile that was not read to its end.
pub struct Stopped {
    pub tile: TilePlace,
    pub refusal: Refusal,
    /// How many points and ways had come before.
    pub come: (u64, u64),
}

/// Some tiles as they were read.
pub struct Scene<'a> {
    pub view: View,
    /// Each tile's corner and side in the picture, and whether there is sea.
    pub grounds: Vec<(Pixel, f64, bool)>,
    pub features: Vec<Drawn<'a>>,
    pub stopped: Vec<Stopped>,
    /// How many of the tiles are empty by the index.
    pub empty: usize,
}

impl<'a> Scene<'a> {
    pub fn read(
        sub_file: &SubFile<'_, 'a>,
        tiles: &[Looked],
        zoom: u8,
        view: View,
        reading: Reading<'_>,
    ) -> Scene<'a> {
        let mut scene = Scene {
            view,
            grounds: Vec::new(),
            features: Vec::new(),
            stopped: Vec::new(),
            empty: 0,
        };
        for &looked in tiles {
            let tile = looked.place;
            let before = scene.features.len();
            if let Err(stopped) = scene.tile(sub_file, looked, zoom, reading) {
                scene.stopped.push(stopped);
            }
            scene.empty += usize::from(sub_file.is_empty(tile.number) == Ok(true));
            let water = sub_file.entry(tile.number).is_ok_and(|entry| entry.water);
            let sea = water || scene.features[before..].iter().any(island);
            let (corner, side) = view.square(sub_file.interval().base_zoom, tile);
            scene.grounds.push((corner, side, sea));
        }
        scene
    }

    fn tile(
        &mut self,
        sub_file: &SubFile<'_, 'a>,
        looked: Looked,
        zoom: u8,
        reading: Reading<'_>,
    ) -> Result<(), Stopped> {
        let tile = looked.place;
        let stopped = |refusal, come| Stopped { tile, refusal, come };
        let at_start = |refusal| stopped(refusal, (0, 0));
        if let Reading::Collected = reading {
            sub_file.collect(tile.number).map_err(at_start)?;
        }
        let accepts = |head: &mapsforge::WayHead<'_, 'a>| match reading {
            Reading::Collected => true,
            Reading::Declining(declined) => {
                let tags: Vec<_> = head.tags().collect();
                looked.wants(head.bitmap)
                    && !declined.has(&head.tag_ids, tags.iter().copied(), zoom)
            }
        };
        let mut placed = sub_file.placed_if(tile, zoom, accepts).map_err(at_start)?;
        while let Some(feature) = placed.next() {
            let feature = feature.map_err(|refusal| stopped(refusal, placed.come()))?;
            // A list has decoded the ways that a window leaves out.
            if feature.bitmap.is_none_or(|bitmap| looked.wants(bitmap)) {
                self.features.push(Drawn::new(&self.view, tile, feature));
            }
        }
        Ok(())
    }
}

/// Islands are closed coastlines: what is not inside is sea.
fn island(drawn: &Drawn<'_>) -> bool {
    drawn.closed() && drawn.tags.iter().any(|(key, value)| key == "natural" && value == "coastline")
}
