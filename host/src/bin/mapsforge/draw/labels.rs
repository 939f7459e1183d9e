//! Where names stand in a picture.
//!
//! What must be shown comes first, then the names of points, then those of lines and areas. A name takes the best place that
//! is free, near its feature or with a line to it. Where there is none, its feature gets a number, and the legend has the
//! name. Where there is no room even for that, the legend has the name with its position: no name is left out unsaid.

use super::layout::{along, cut_ring, distance, in_picture, length, middle, visible, Area, Taken};
use super::scene::{Drawn, Look, Scene};
use super::style::{self, Mark};
use super::Pixel;
use crate::output::clean;
use mapsforge::{Position, TagFilter};

/// A longer name is numbered: it would cover too much.
const LONGEST: usize = 40;
/// Within so many pixels a label serves a way of the same name too, like the parts of a road, or a point.
const SHARED: f64 = 200.0;
const SHARED_BY_POINTS: f64 = 30.0;
/// The side of a number's badge.
pub const BADGE: f64 = 17.0;
const RED: &str = "#c00000";

/// A name in the picture.
pub struct Label {
    pub text: String,
    pub area: Area,
    pub size: f64,
    pub ink: &'static str,
    /// The place of its feature, if a line should lead there.
    pub leads_to: Option<Pixel>,
}

/// A number in the picture.
pub struct Badge {
    pub number: usize,
    pub at: Pixel,
    pub leads_to: Option<Pixel>,
}

/// A line of the legend.
pub struct Entry {
    /// The number of its badges; without one there was no room.
    pub number: Option<usize>,
    pub text: String,
    /// Where the feature is, if it has no badge.
    pub at: Option<Position>,
}

/// A feature that must be shown and has no label, and why.
pub struct Missing {
    pub feature: String,
    pub why: &'static str,
}

/// The names of a picture.
#[derive(Default)]
pub struct Labels {
    pub labels: Vec<Label>,
    pub badges: Vec<Badge>,
    pub legend: Vec<Entry>,
    pub missing: Vec<Missing>,
    /// How many features that must be shown are in the picture.
    pub required: usize,
}

/// What must be shown, and in which language.
#[derive(Clone, Copy, Default)]
pub struct Wanted<'t> {
    pub tags: &'t [TagFilter],
    pub language: Option<&'t str>,
}

/// The part of a feature that is in the picture.
enum Seen {
    Point(Pixel, f64),
    Line(Vec<(Pixel, Pixel)>),
    Area(Pixel),
}

/// A name that looks for a place.
struct Wish<'s, 'a> {
    drawn: &'s Drawn<'a>,
    text: String,
    size: f64,
    ink: &'static str,
    seen: Seen,
    required: bool,
}

/// A place for a name, and whether a line should lead from it.
type Spot = (Area, bool);

/// The names of a scene.
pub fn place(scene: &Scene<'_>, wanted: Wanted<'_>) -> Labels {
    let mut labels = Labels::default();
    let mut wishes = Vec::new();
    let mut known: Vec<&Drawn<'_>> = Vec::new();
    for drawn in &scene.features {
        let required = wanted.tags.iter().any(|tag| drawn.feature.has(tag));
        // A way that several tiles have must be shown once.
        if required && known.iter().any(|other| same_way(other, drawn)) {
            continue;
        }
        known.extend(required.then_some(drawn));
        // What is declined on purpose is not named, unless it must be.
        let Some(seen) = see(drawn).filter(|_| required || drawn.look != Look::Pale) else {
            continue;
        };
        labels.required += usize::from(required);
        match text(drawn, wanted.language) {
            Some(text) => wishes.push(Wish::new(drawn, text, seen, required)),
            None if required => labels.miss(drawn, "it has no name"),
            None => (),
        }
    }
    wishes.sort_by(|one, other| one.rank().partial_cmp(&other.rank()).expect("ranks are numbers"));
    let mut taken = Taken::new();
    wishes.iter().filter_map(Wish::mark).for_each(|mark| taken.add(mark));
    for wish in &wishes {
        labels.add(wish, &mut taken);
    }
    labels
}

/// Whether two are one way, out of two tiles.
fn same_way(one: &Drawn<'_>, other: &Drawn<'_>) -> bool {
    let near = |(one, other): (&Pixel, &Pixel)| distance(*one, *other) < 0.5;
    let line = |(one, other): (&Vec<Pixel>, &Vec<Pixel>)| {
        one.len() == other.len() && one.iter().zip(other).all(near)
    };
    let apart = one.is_point() || other.is_point() || one.tile == other.tile;
    !apart
        && one.tags == other.tags
        && one.feature.name == other.feature.name
        && one.lines.len() == other.lines.len()
        && one.lines.iter().zip(&other.lines).all(line)
}

fn text(drawn: &Drawn<'_>, language: Option<&str>) -> Option<String> {
    let name = match language {
        Some(language) => drawn.feature.name_in(language),
        None => drawn.feature.shown_name(),
    };
    name.filter(|name| !name.trim().is_empty()).map(clean)
}

/// The part of a feature that is in the picture, if there is one.
fn see(drawn: &Drawn<'_>) -> Option<Seen> {
    if drawn.is_point() {
        let radius = match style::of_point(&drawn.tags) {
            Mark::Dot(_, radius) => radius,
            Mark::Triangle(_) => 8.0,
            Mark::Name(_) => 0.0,
        };
        return drawn.at().filter(|&at| in_picture(at)).map(|at| Seen::Point(at, radius));
    }
    let nodes = drawn.lines.iter().find(|nodes| !nodes.is_empty())?;
    if drawn.closed() && style::of_way(&drawn.tags, true).fill.is_some() {
        let inside = middle(&cut_ring(nodes))?;
        return Some(Seen::Area(drawn.label.filter(|&at| in_picture(at)).unwrap_or(inside)));
    }
    let steps: Vec<_> = drawn.lines.iter().flat_map(|nodes| visible(nodes)).collect();
    (!steps.is_empty()).then_some(Seen::Line(steps))
}

/// How wide a text is about, in the letters that browsers take.
fn width(text: &str, size: f64) -> f64 {
    let letter = |letter: char| match letter as u32 {
        0x1f000.. => 1.3,
        0x2e80.. => 1.0,
        _ => 0.6,
    };
    text.chars().map(letter).sum::<f64>() * size
}

impl<'s, 'a> Wish<'s, 'a> {
    fn new(drawn: &'s Drawn<'a>, text: String, seen: Seen, required: bool) -> Self {
        let (size, ink) = match seen {
            Seen::Point(..) => match style::of_point(&drawn.tags) {
                Mark::Name(size) => (size, "#333333"),
                Mark::Triangle(_) => (12.5, "#5a4a35"),
                Mark::Dot(..) => (12.0, "#444444"),
            },
            Seen::Line(_) => (11.5, style::of_way(&drawn.tags, drawn.closed()).ink),
            Seen::Area(_) => (13.0, style::of_way(&drawn.tags, true).ink),
        };
        let ink = if drawn.look == Look::Differs { RED } else { ink };
        Wish { drawn, text, size, ink, seen, required }
    }

    /// The lowest chooses first: what must be shown, what differs, points before ways, and the larger before the smaller.
    fn rank(&self) -> (bool, bool, bool, f64) {
        let way = !matches!(self.seen, Seen::Point(..));
        let weight = match self.seen {
            Seen::Point(_, radius) => self.size + radius,
            _ => self.size,
        };
        (!self.required, self.drawn.look != Look::Differs, way, -weight)
    }

    /// A named point's mark, which names should not cover.
    fn mark(&self) -> Option<Area> {
        match self.seen {
            Seen::Point(at, radius) if radius > 0.0 => Some(Area::around(at, 2.0 * radius)),
            _ => None,
        }
    }

    /// The place that a line leads to.
    fn anchor(&self) -> Pixel {
        match &self.seen {
            Seen::Point(at, _) | Seen::Area(at) => *at,
            Seen::Line(steps) => along(steps, 0.5).map_or((0.0, 0.0), |(at, _)| at),
        }
    }

    fn area(&self, middle: Pixel, turn: f64) -> Area {
        Area { middle, width: width(&self.text, self.size), height: self.size * 1.2, turn }
    }

    /// All places to try, the best first.
    fn spots(&self) -> Vec<Spot> {
        let at = self.anchor();
        let mut spots = Vec::new();
        let far = match &self.seen {
            Seen::Point(_, 0.0) => {
                spots.push((self.area(at, 0.0), false));
                [18.0, 32.0, 50.0, 75.0]
            }
            Seen::Point(_, radius) => {
                self.beside(radius + 3.0, false, &mut spots);
                [18.0, 32.0, 50.0, 75.0]
            }
            Seen::Area(_) => {
                for lines in [0.0, 1.0, -1.0, 2.0, -2.0, 3.0, -3.0] {
                    let middle = (at.0, at.1 + lines * self.size * 1.2);
                    spots.push((self.area(middle, 0.0), false));
                }
                [40.0, 60.0, 80.0, 110.0]
            }
            Seen::Line(steps) => {
                self.on(steps, &mut spots);
                self.beside(4.0, false, &mut spots);
                [18.0, 32.0, 50.0, 75.0]
            }
        };
        far.into_iter().for_each(|gap| self.beside(gap, true, &mut spots));
        spots
    }

    /// Places around the feature, so far from it: below and above, right and left, then the corners.
    fn beside(&self, gap: f64, leads: bool, spots: &mut Vec<Spot>) {
        const SIDES: [Pixel; 8] = [
            (0.0, 1.0),
            (0.0, -1.0),
            (1.0, 0.0),
            (-1.0, 0.0),
            (1.0, 1.0),
            (-1.0, 1.0),
            (1.0, -1.0),
            (-1.0, -1.0),
        ];
        let (x, y) = self.anchor();
        let area = self.area((x, y), 0.0);
        let (across, along) = (gap + area.width / 2.0, gap + area.height / 2.0);
        for (right, down) in SIDES {
            let middle = (x + right * across, y + down * along);
            spots.push((Area { middle, ..area }, leads));
        }
    }

    /// Places along a line that is long enough, never upside down. A red name would not be read on a red line: it stands on
    /// one side of it, or on the other.
    fn on(&self, steps: &[(Pixel, Pixel)], spots: &mut Vec<Spot>) {
        if length(steps) <= width(&self.text, self.size) {
            return;
        }
        let aside = self.size * 0.6 + 6.5;
        let sides = if self.drawn.look == Look::Differs { &[aside, -aside][..] } else { &[0.0] };
        for part in [0.5, 0.35, 0.65, 0.2, 0.8] {
            let Some((at, turn)) = along(steps, part) else { continue };
            let upright = if turn.abs() > 90.0 { turn - 180.0 * turn.signum() } else { turn };
            let (sin, cos) = upright.to_radians().sin_cos();
            for side in sides {
                let middle = (at.0 + sin * side, at.1 - cos * side);
                spots.push((self.area(middle, upright), false));
            }
        }
    }

    /// Places for a number.
    fn badge_spots(&self) -> Vec<(Pixel, bool)> {
        let (x, y) = self.anchor();
        let near = match self.seen {
            Seen::Point(_, radius) => radius + BADGE / 2.0,
            _ => 0.0,
        };
        // What must be shown may lie far from its feature.
        let furthest = if self.required { 900.0 } else { 250.0 };
        let mut spots = Vec::new();
        let mut gap: f64 = near;
        while gap < furthest {
            let directions = if gap < 60.0 { 12 } else { 24 };
            for k in 0..directions {
                let turn = f64::from(k) * 360.0 / f64::from(directions);
                let (sin, cos) = turn.to_radians().sin_cos();
                spots.push(((x + gap * cos, y + gap * sin), gap > near));
            }
            gap = (gap + BADGE * 0.7).max(gap * 1.2);
        }
        spots
    }
}

/// A feature that is spoken of.
pub fn describe(drawn: &Drawn<'_>) -> String {
    let feature = &drawn.feature;
    let name = feature.shown_name().map(|name| format!(" \"{}\"", clean(name)));
    let at = feature.position().map(crate::output::position).unwrap_or_default();
    format!(
        "{} {}{} ({}) at {at}",
        feature.kind.word(),
        feature.number,
        name.unwrap_or_default(),
        crate::output::tags(&feature.tag_texts())
    )
}

impl Labels {
    fn miss(&mut self, drawn: &Drawn<'_>, why: &'static str) {
        self.missing.push(Missing { feature: describe(drawn), why });
    }

    fn add(&mut self, wish: &Wish<'_, '_>, taken: &mut Taken) {
        if !wish.required && self.serves(wish) {
            return;
        }
        let long = wish.text.chars().count() > LONGEST;
        let spot = wish.spots().into_iter().find(|(area, _)| !long && taken.leaves(area));
        let Some((area, leads)) = spot else {
            return self.number(wish, taken);
        };
        taken.add(area);
        self.labels.push(Label {
            text: wish.text.clone(),
            area,
            size: wish.size,
            ink: wish.ink,
            leads_to: leads.then(|| wish.anchor()),
        });
    }

    /// Whether a label or number of the same name stands close by.
    fn serves(&self, wish: &Wish<'_, '_>) -> bool {
        let shared = match wish.seen {
            Seen::Point(..) => SHARED_BY_POINTS,
            _ => SHARED,
        };
        let near = |at: Pixel| distance(at, wish.anchor()) <= shared;
        let named = self.labels.iter().any(|label| {
            label.text == wish.text && near(label.leads_to.unwrap_or(label.area.middle))
        });
        let number = self.number_of(&wish.text);
        named
            || self.badges.iter().any(|badge| {
                Some(badge.number) == number && near(badge.leads_to.unwrap_or(badge.at))
            })
    }

    fn number_of(&self, text: &str) -> Option<usize> {
        self.legend.iter().find(|entry| entry.text == text).and_then(|entry| entry.number)
    }

    /// Numbers a feature whose name finds no room.
    fn number(&mut self, wish: &Wish<'_, '_>, taken: &mut Taken) {
        let spots = wish.badge_spots().into_iter();
        let mut areas = spots.map(|(at, leads)| (Area::around(at, BADGE), leads));
        let spot = areas.find(|(area, _)| taken.leaves(area));
        let Some((area, leads)) = spot else {
            if wish.required {
                self.missing
                    .push(Missing { feature: describe(wish.drawn), why: "there is no room" });
            }
            let position = wish.drawn.feature.position();
            self.legend.push(Entry { number: None, text: wish.text.clone(), at: position });
            return;
        };
        let number = self.number_of(&wish.text).unwrap_or_else(|| {
            let number = 1 + self.legend.iter().filter(|entry| entry.number.is_some()).count();
            let text = wish.text.clone();
            self.legend.push(Entry { number: Some(number), text, at: None });
            number
        });
        taken.add(area);
        self.badges.push(Badge { number, at: area.middle, leads_to: leads.then(|| wish.anchor()) });
    }
}
