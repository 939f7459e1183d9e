//! A part of a map that is drawn: a tile, a square around a place, or a window.

use super::both::{self, Differences};
use super::labels::{self, Wanted};
use super::picture::{self, Picture};
use super::scene::{Declined, Looked, Reading, Scene};
use super::view::View;
use super::Pixel;
use crate::output::{clean, count, position, tile as named};
use crate::{of_tile, target, window, Failure};
use mapsforge::{Map, Position, SubFile, TagFilter, TilePlace, Window};

/// More tiles than this make no picture.
const MOST_TILES: u64 = 1024;
/// So many differences are told below a picture.
const TOLD: usize = 24;

/// How pictures are made.
#[derive(Clone)]
pub struct How {
    pub collected: bool,
    pub streamed: bool,
    pub declined: Declined,
    pub required: Vec<TagFilter>,
    pub language: Option<String>,
}

/// The ways that a panel declines, unless others are named: roads and buildings.
pub fn declined(named: Vec<TagFilter>) -> Declined {
    if !named.is_empty() {
        return Declined::Tags(named);
    }
    Declined::Tags(["highway", "building"].map(|key| key.parse().expect("it is a key")).to_vec())
}

impl How {
    fn wanted(&self) -> Wanted<'_> {
        Wanted { tags: &self.required, language: self.language.as_deref() }
    }

    /// What the panel does with ways.
    fn panel(&self, zoom: u8) -> String {
        match &self.declined {
            Declined::Tags(tags) => {
                let tags: Vec<_> = tags.iter().map(TagFilter::to_string).collect();
                format!("panel: declines {} by stored sizes", tags.join(", "))
            }
            Declined::Rules(_, name) => {
                format!("panel: shows the ways of {} at zoom {zoom}", clean(name))
            }
        }
    }
}

/// The part of a map that is drawn.
pub struct Part<'m, 'a> {
    sub_file: SubFile<'m, 'a>,
    tiles: Vec<Looked>,
    zoom: u8,
    view: View,
    title: String,
    /// Where a window is in the picture: its corner, width and height.
    frame: Option<(Pixel, Pixel)>,
    /// Whether a tile was asked for, which is then refused as such.
    single: bool,
}

/// Pictures of a part, and what is to be told of them.
pub struct Drawing<'a> {
    title: String,
    pub pictures: Vec<Picture<'a>>,
    /// What differs between two of them, in lines.
    pub below: Vec<String>,
    /// What is wrong with them.
    pub complaints: Vec<String>,
}

impl Drawing<'_> {
    /// All pictures side by side.
    pub fn svg(&self) -> String {
        picture::svg(&self.title, &self.pictures, &self.below)
    }

    /// Each picture alone.
    pub fn apart(&self) -> impl Iterator<Item = String> + '_ {
        self.pictures
            .iter()
            .map(|picture| picture::svg(&self.title, std::slice::from_ref(picture), &[]))
    }
}

impl<'m, 'a> Part<'m, 'a> {
    /// A tile at its highest zoom, or another.
    pub fn tile(sub_file: SubFile<'m, 'a>, place: TilePlace, zoom: Option<u8>) -> Part<'m, 'a> {
        let interval = sub_file.interval();
        Part {
            sub_file,
            tiles: vec![Looked::whole(place)],
            zoom: zoom.unwrap_or(interval.max_zoom),
            view: View::of_tile(interval.base_zoom, place),
            title: named(&sub_file, place),
            frame: None,
            single: true,
        }
    }

    /// A square of metres around a place, at the map's highest zoom or another.
    pub fn around(
        map: &'m Map<'a>,
        at: Position,
        metres: f64,
        zoom: Option<u8>,
    ) -> Result<Part<'m, 'a>, Failure> {
        let (sub_file, zoom) = target::zoomed_sub_file(map, zoom)?;
        let view = View::around(at, metres);
        let Some(tiles) = view.tiles(&sub_file, MOST_TILES)? else {
            return Err(Failure::Mistake(format!(
                "a square of {metres} metres has more than {MOST_TILES} tiles at zoom {zoom}: \
                 take a smaller --size or a lower --zoom"
            )));
        };
        if tiles.is_empty() {
            return Err(Failure::Mistake(format!(
                "the map has no tile at {}: `mapsforge info` tells its box",
                position(at)
            )));
        }
        let title = format!("{metres} metres around {}, zoom {zoom}", position(at));
        let tiles = tiles.into_iter().map(Looked::whole).collect();
        Ok(Part { sub_file, tiles, zoom, view, title, frame: None, single: false })
    }

    /// The tiles that a window touches, at the map's highest zoom or another.
    pub fn window(
        map: &'m Map<'a>,
        window: Window,
        zoom: Option<u8>,
    ) -> Result<Part<'m, 'a>, Failure> {
        let (sub_file, zoom) = target::zoomed_sub_file(map, zoom)?;
        let tiles = sub_file.window(window, zoom)?;
        if tiles.len() as u64 > MOST_TILES {
            return Err(Failure::Mistake(format!(
                "the window touches {} tiles, and more than {MOST_TILES} make no picture: take a \
                 smaller one",
                tiles.len()
            )));
        }
        let tiles: Vec<_> =
            tiles.map(|tile| Looked { place: tile.place, mask: Some(tile.mask) }).collect();
        let [Some(first), Some(last)] = [tiles.first(), tiles.last()] else {
            let why = window::untouched(window, &sub_file);
            return Err(Failure::Mistake(format!("the window touches no tile: {why}")));
        };
        // Of a window that goes beyond the map, what the map has.
        let ends = [
            window.left.max(4 * i64::from(first.place.x)),
            window.top.max(4 * i64::from(first.place.y)),
            window.right.min(4 * i64::from(last.place.x) + 3),
            window.bottom.min(4 * i64::from(last.place.y) + 3),
        ];
        let sub_zoom = u16::from(sub_file.interval().base_zoom) + 2;
        let view = View::of_columns(sub_zoom, ends);
        let [left, top, right, bottom] = ends;
        let title = format!(
            "window of sub tiles {left},{top} to {right},{bottom} of zoom {sub_zoom}, zoom {zoom}"
        );
        let frame = Some(view.columns(sub_zoom, ends)).filter(|_| right - left != bottom - top);
        Ok(Part { sub_file, tiles, zoom, view, title, frame, single: false })
    }

    fn scene(&self, reading: Reading<'_>) -> Scene<'a> {
        Scene::read(&self.sub_file, &self.tiles, self.zoom, self.view, reading)
    }

    /// Draws it.
    pub fn draw(&self, how: &How) -> Result<Drawing<'a>, Failure> {
        let mut collected = self.scene(Reading::Collected);
        if let [stopped] = &collected.stopped[..] {
            if self.single && !how.streamed {
                return Err(of_tile(stopped.tile)(stopped.refusal));
            }
        }
        let mut streamed = how.streamed.then(|| self.scene(Reading::Declining(&how.declined)));
        let differences = match &mut streamed {
            Some(streamed) if how.collected => {
                Some(both::compare(&mut collected, streamed, &how.declined, self.zoom))
            }
            _ => None,
        };
        let mut heading = String::from("list: every way is decoded");
        if how.collected {
            heading.push_str(". Pale, without names: what the panel declines");
        }
        let listed = self.picture(how, collected, heading);
        let required = listed.labels.required;
        let drawn = streamed.map(|scene| {
            let heading = how.panel(self.zoom);
            let lacked = lacked(differences.as_ref());
            Picture { lacks: !lacked.is_empty(), ..self.picture(how, scene, heading + &lacked) }
        });
        let mut complaints = Vec::new();
        let mut pictures = Vec::new();
        if how.collected {
            complaints.extend(lacking(how, "list", &listed, required));
            pictures.push(listed);
        }
        if let Some(drawn) = drawn {
            complaints.extend(lacking(how, "panel", &drawn, required));
            pictures.push(drawn);
        }
        let below = differences.as_ref().map(told).unwrap_or_default();
        complaints.extend(differences.as_ref().and_then(summary));
        Ok(Drawing { title: self.title.clone(), pictures, below, complaints })
    }

    fn picture(&self, how: &How, scene: Scene<'a>, heading: String) -> Picture<'a> {
        let stops = scene.stopped.iter().map(|stopped| picture::stopped(&self.sub_file, stopped));
        Picture {
            notes: stops.collect(),
            labels: labels::place(&scene, how.wanted()),
            heading: how.streamed.then_some(heading),
            lacks: false,
            frame: self.frame,
            scene,
        }
    }
}

/// What should be in a picture and is not. The list has `required` features that must be shown.
fn lacking(how: &How, reading: &str, picture: &Picture<'_>, required: usize) -> Vec<String> {
    let labels = &picture.labels;
    let mut lacking = picture.notes.clone();
    if !how.required.is_empty() {
        let missing = labels.missing.iter();
        lacking.extend(
            missing.map(|missing| format!("no label for {}: {}", missing.feature, missing.why)),
        );
        let tags: Vec<_> = how.required.iter().map(TagFilter::to_string).collect();
        let (tags, some) = (tags.join(" or "), labels.required);
        if some == 0 {
            lacking.push(format!("no feature with {tags} is in the picture"));
        } else if some < required {
            let text = format!("only {some} of {required} features with {tags}");
            lacking.push(format!("{text} are in the picture"));
        }
    }
    // Where there is one picture, it is clear which is meant.
    let name = if how.streamed { format!("{reading}: ") } else { String::new() };
    lacking.into_iter().map(|text| format!("{name}{text}")).collect()
}

/// What a panel's picture lacks, for its heading.
fn lacked(differences: Option<&Differences>) -> String {
    match differences.map_or(0, |differences| differences.collected_only.len() as u64) {
        0 => String::new(),
        some => format!(". {} missing", count(some, "feature")),
    }
}

/// What differs, in a sentence.
fn summary(differences: &Differences) -> Option<String> {
    if differences.is_empty() {
        return None;
    }
    let number = |texts: &[String]| match texts.len() as u64 {
        0 => "no feature".into(),
        some => count(some, "feature"),
    };
    Some(format!(
        "list and panel differ: {} only in the list, {} only on the panel",
        number(&differences.collected_only),
        number(&differences.streamed_only)
    ))
}

/// What differs, in lines below both pictures.
fn told(differences: &Differences) -> Vec<String> {
    let Some(summary) = summary(differences) else {
        return vec![
            "List and panel show the same, but for the ways that the panel declines.".into()
        ];
    };
    let mut lines = vec![summary];
    let sides = [("panel", &differences.streamed_only), ("list", &differences.collected_only)];
    for (name, features) in sides {
        let told = features.iter().take(TOLD);
        lines.extend(told.map(|feature| format!("   only {name}: {feature}")));
        if features.len() > TOLD {
            lines.push(format!("   only {name}: ... and {} more", features.len() - TOLD));
        }
    }
    lines
}
