//! Features at their places on earth.

use crate::{
    closed, Lists, Name, Offset, Part, Position, Refusal, Selection, Step, Stream, StreamedBody,
    StreamedPoint, SubFile, TagFilter, TagName, TilePlace, WayHead,
};

/// Which kind of feature.
#[derive(Clone, Copy, Debug, PartialEq, Eq, Hash, PartialOrd, Ord)]
pub enum Kind {
    /// A point.
    Point,
    /// A way.
    Way,
}

impl Kind {
    /// `point` or `way`.
    pub fn word(self) -> &'static str {
        match self {
            Kind::Point => "point",
            Kind::Way => "way",
        }
    }
}

/// A block of a way's nodes at their places.
#[derive(Clone, Debug, PartialEq)]
pub struct Line {
    /// The nodes.
    pub nodes: Vec<Position>,
    /// Whether the last one is the first one again; see [`closed`].
    pub closed: bool,
}

/// A feature at its place on earth, as a tile's stream delivers it: a point, or a way that was accepted.
///
/// ```
/// # use mapsforge::MapFile;
/// # let file = MapFile::open(concat!(env!("CARGO_MANIFEST_DIR"), "/../maps/islands.map"))?;
/// let map = file.map()?;
/// let sub_file = map.sub_file(2)?;
/// let place = sub_file.tile(10).expect("there are 12 tiles");
/// let wanted = "amenity=ferry_terminal".parse()?;
/// let mut names = Vec::new();
/// for feature in sub_file.placed(place, 13)? {
///     let feature = feature?;
///     if feature.has(&wanted) {
///         let at = feature.position().expect("it has a node");
///         names.push(format!("{} {:.4}", feature.name_in("en").unwrap_or(""), at.longitude));
///     }
/// }
/// assert_eq!(names, ["Rampe 1 0.0385", "Rampe 2 0.0404", "Rampe 3 0.0419"]);
/// # Ok::<(), Box<dyn std::error::Error>>(())
/// ```
#[derive(Clone, Debug)]
pub struct Placed<'a> {
    /// Point or way.
    pub kind: Kind,
    /// Its number in the tile, points and ways each from 0. In a stream that went astray, the number at which it came.
    pub number: u64,
    /// The layer, from -5 to 10.
    pub layer: i8,
    /// Of a way: which of the tile's 4 by 4 cells it touches; see [`WayHead::bitmap`].
    pub bitmap: Option<u16>,
    /// The tags' names.
    pub tags: Vec<TagName<'a>>,
    /// Their numbers in the map's tags of points, or of ways.
    pub tag_ids: Vec<usize>,
    /// The name as stored; see [`Placed::name_in`].
    pub name: Option<&'a str>,
    /// The house number.
    pub house_number: Option<&'a str>,
    /// A way's reference.
    pub reference: Option<&'a str>,
    /// A point's elevation in metres.
    pub elevation: Option<i32>,
    /// A way's blocks of nodes; a point is a single node.
    pub lines: Vec<Line>,
    /// Where a way's label should stand.
    pub label: Option<Position>,
}

/// A text, unless it is absent; one that is no UTF-8 is empty already.
fn text(part: Option<Part<'_>>) -> Option<&str> {
    part.and_then(Part::as_str)
}

impl<'a> Placed<'a> {
    fn point(corner: Position, number: u64, point: &StreamedPoint<'_, 'a>) -> Placed<'a> {
        Placed {
            kind: Kind::Point,
            number,
            layer: point.layer,
            bitmap: None,
            tags: point.tags().collect(),
            tag_ids: point.tag_ids.clone(),
            name: text(point.name),
            house_number: text(point.house_number),
            reference: None,
            elevation: point.elevation,
            lines: vec![Line { nodes: vec![corner + point.offset], closed: false }],
            label: None,
        }
    }

    fn way(
        corner: Position,
        number: u64,
        head: &WayHead<'_, 'a>,
        body: &StreamedBody<'a>,
    ) -> Placed<'a> {
        let first = body.blocks.iter().find_map(|nodes| nodes.first());
        let line = |nodes: &Vec<Offset>| Line {
            closed: closed(nodes),
            nodes: nodes.iter().map(|&node| corner + node).collect(),
        };
        Placed {
            kind: Kind::Way,
            number,
            layer: head.layer,
            bitmap: Some(head.bitmap),
            tags: head.tags().collect(),
            tag_ids: head.tag_ids.clone(),
            name: text(body.name),
            house_number: text(body.house_number),
            reference: text(body.reference),
            elevation: None,
            lines: body.blocks.iter().map(line).collect(),
            label: first.zip(body.label).map(|(&first, label)| corner + (first + label)),
        }
    }

    /// The name in a language; see [`Name::name_in`].
    pub fn name_in(&self, language: &str) -> Option<&'a str> {
        self.name.map(|name| Name::new(name).name_in(language))
    }

    /// The first form of the name, where there is one to show.
    pub fn shown_name(&self) -> Option<&'a str> {
        self.name.map(|name| Name::new(name).first()).filter(|name| !name.trim().is_empty())
    }

    /// The first node.
    pub fn position(&self) -> Option<Position> {
        self.nodes().next()
    }

    /// All nodes of all lines.
    pub fn nodes(&self) -> impl Iterator<Item = Position> + '_ {
        self.lines.iter().flat_map(|line| line.nodes.iter().copied())
    }

    /// Whether it has a tag that is meant. The texts count as tags, as in a collected tile: `name`, `addr:housenumber` and
    /// `ref`.
    pub fn has(&self, filter: &TagFilter) -> bool {
        let texts = [
            ("name", self.name.map(|name| Name::new(name).first())),
            ("addr:housenumber", self.house_number),
            ("ref", self.reference),
        ];
        let in_texts = texts.into_iter().any(|(key, text)| {
            text.is_some_and(|text| filter.matches(key.as_bytes(), text.as_bytes()))
        });
        in_texts || filter.is_among(self.tags.iter().copied())
    }

    /// The tags as they stand in the header, `KEY=VALUE`.
    pub fn tag_texts(&self) -> Vec<String> {
        self.tags.iter().map(|tag| tag.text.to_text()).collect()
    }

    /// Southern, western, northern and eastern end, if there is a node.
    pub fn bounds(&self) -> Option<[f64; 4]> {
        self.nodes().fold(None, |found: Option<[f64; 4]>, at| {
            let [south, west, north, east] =
                found.unwrap_or([at.latitude, at.longitude, at.latitude, at.longitude]);
            Some([
                south.min(at.latitude),
                west.min(at.longitude),
                north.max(at.latitude),
                east.max(at.longitude),
            ])
        })
    }
}

/// The features of a tile at their places, one after the other; see [`SubFile::placed`]. Behind a refusal nothing comes.
#[derive(Clone, Debug)]
pub struct PlacedStream<'m, 'a, Accepts> {
    stream: Stream<'m, 'a>,
    corner: Position,
    accepts: Accepts,
    points: u64,
    ways: u64,
    over: bool,
}

impl<'m, 'a, Accepts: FnMut(&WayHead<'m, 'a>) -> bool> PlacedStream<'m, 'a, Accepts> {
    fn step(&mut self) -> Result<Option<Placed<'a>>, Refusal> {
        loop {
            match self.stream.next()? {
                Step::Point(point) => {
                    self.points += 1;
                    return Ok(Some(Placed::point(self.corner, self.points - 1, &point)));
                }
                Step::Way(head) => {
                    self.ways += 1;
                    if !(self.accepts)(&head) {
                        self.stream.decline()?;
                        continue;
                    }
                    let body = self.stream.accept()?;
                    return Ok(Some(Placed::way(self.corner, self.ways - 1, &head, &body)));
                }
                Step::End(_) => return Ok(None),
            }
        }
    }

    /// How many points and ways have come so far, declined ones and one that was refused included.
    pub fn come(&self) -> (u64, u64) {
        (self.points, self.ways)
    }
}

impl<'m, 'a, Accepts: FnMut(&WayHead<'m, 'a>) -> bool> Iterator for PlacedStream<'m, 'a, Accepts> {
    type Item = Result<Placed<'a>, Refusal>;

    fn next(&mut self) -> Option<Self::Item> {
        if self.over {
            return None;
        }
        let step = self.step();
        self.over = !matches!(step, Ok(Some(_)));
        step.transpose()
    }
}

/// The points and the selected ways of a tile at their places, one after the other; see [`SubFile::placed_selected`]. Behind a
/// refusal nothing comes.
#[derive(Clone, Debug)]
pub struct SelectedStream<'m, 'a, 'r> {
    stream: Stream<'m, 'a>,
    corner: Position,
    selection: Selection<'r>,
    points: u64,
    all_ways: u64,
    over: bool,
}

impl<'a> SelectedStream<'_, 'a, '_> {
    fn step(&mut self) -> Result<Option<Placed<'a>>, Refusal> {
        match self.stream.next_selected(&self.selection)? {
            Step::Point(point) => {
                self.points += 1;
                Ok(Some(Placed::point(self.corner, self.points - 1, &point)))
            }
            Step::Way(head) => {
                let number = self.come().1 - 1;
                let body = self.stream.accept_selected(&self.selection)?;
                Ok(Some(Placed::way(self.corner, number, &head, &body)))
            }
            Step::End(_) => Ok(None),
        }
    }

    /// How many points and ways have come so far, declined ones and one that waits included.
    pub fn come(&self) -> (u64, u64) {
        (self.points, self.all_ways - self.stream.ways_to_come())
    }

    /// The lists that ways are decoded to, once one has come: made once, as long as the tile wants them if just the selected
    /// ways are accepted ([`SubFile::wanted`]). Where that is refused, or stored sizes lead elsewhere, they grow as needed.
    pub fn lists(&self) -> Option<&Lists> {
        self.stream.lists()
    }
}

impl<'a> Iterator for SelectedStream<'_, 'a, '_> {
    type Item = Result<Placed<'a>, Refusal>;

    fn next(&mut self) -> Option<Self::Item> {
        if self.over {
            return None;
        }
        let step = self.step();
        self.over = !matches!(step, Ok(Some(_)));
        step.transpose()
    }
}

impl<'m, 'a> SubFile<'m, 'a> {
    /// The features of a tile up to a zoom at their places: all points, and the ways that are selected. The library declines the
    /// others by itself, by their stored sizes.
    pub fn placed_selected<'r>(
        &self,
        place: TilePlace,
        zoom: u8,
        selection: Selection<'r>,
    ) -> Result<SelectedStream<'m, 'a, 'r>, Refusal> {
        let stream = self.stream(place.number, zoom)?;
        Ok(SelectedStream {
            corner: self.corner(place)?,
            selection,
            points: 0,
            all_ways: stream.ways_to_come(),
            stream,
            over: false,
        })
    }

    /// The features of a tile up to a zoom at their places, every way accepted. A way is decoded, never stepped over by its
    /// stored size: what comes is what the collected tile has.
    #[allow(clippy::type_complexity)]
    pub fn placed(
        &self,
        place: TilePlace,
        zoom: u8,
    ) -> Result<PlacedStream<'m, 'a, fn(&WayHead<'m, 'a>) -> bool>, Refusal> {
        self.placed_if(place, zoom, |_| true)
    }

    /// The same with a say on each way by its head. A way that is not accepted is declined, by its stored size.
    pub fn placed_if<Accepts: FnMut(&WayHead<'m, 'a>) -> bool>(
        &self,
        place: TilePlace,
        zoom: u8,
        accepts: Accepts,
    ) -> Result<PlacedStream<'m, 'a, Accepts>, Refusal> {
        Ok(PlacedStream {
            stream: self.stream(place.number, zoom)?,
            corner: self.corner(place)?,
            accepts,
            points: 0,
            ways: 0,
            over: false,
        })
    }
}
