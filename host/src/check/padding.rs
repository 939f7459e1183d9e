//! Which tiles and features waste bytes on numbers, and how many.
//!
//! Which ones, the library says: each tile, point and way says whether all its numbers are plain, and a stream that has just
//! opened whether those of the tile's head are. How many bytes, it does not say. For that the bytes of each are walked through
//! once more here, from and to the places that the stream's state has. The walk only counts: where it does not come out as the
//! library says, that is a finding.

use super::explain::first_form;
use super::{Cause, Covered, FeatureNote, Finding};
use crate::{
    Kind, Lists, Map, Position, Refusal, Step, Stream, StreamedBody, StreamedPoint, SubFile,
    TilePlace, WayHead,
};
use std::ops::AddAssign;

/// Numbers that are not plain, and what they take.
#[derive(Clone, Copy, Debug, Default, PartialEq, Eq)]
pub struct Waste {
    /// How many numbers are not plain: a shorter encoding gives the same value, or it is minus zero.
    pub numbers: u64,
    /// How many of them are minus zero, which is 0 with a sign. In one byte it wastes none.
    pub minus_zeros: u64,
    /// How many bytes more they have than they need.
    pub bytes: u64,
}

impl AddAssign for Waste {
    fn add_assign(&mut self, other: Waste) {
        self.numbers += other.numbers;
        self.minus_zeros += other.minus_zeros;
        self.bytes += other.bytes;
    }
}

/// A tile's head, a point or a way that is not plain.
#[derive(Clone, Debug, PartialEq)]
pub struct Padded {
    /// Its sub file.
    pub covered: Covered,
    /// Its tile.
    pub tile: TilePlace,
    /// The feature; none if it is the tile's head.
    pub feature: Option<FeatureNote>,
    /// Where on earth: the feature, else the middle of the tile.
    pub around: Option<Position>,
    /// Where it starts in the map.
    pub byte: u64,
    /// How many bytes it has.
    pub size: u64,
    /// What it wastes.
    pub waste: Waste,
}

/// What was found of padding in a map.
#[derive(Clone, Copy, Debug, Default, PartialEq, Eq)]
pub struct PaddingSum {
    /// The tiles that were looked at: those that collect.
    pub looked_at: u64,
    /// Those that are not plain.
    pub tiles: u64,
    /// The heads of tiles that are not.
    pub heads: u64,
    /// The points that are not.
    pub points: u64,
    /// The ways that are not.
    pub ways: u64,
    /// What all of them waste.
    pub waste: Waste,
}

impl PaddingSum {
    pub(super) fn add(&mut self, other: &PaddingSum) {
        self.looked_at += other.looked_at;
        self.tiles += other.tiles;
        self.heads += other.heads;
        self.points += other.points;
        self.ways += other.ways;
        self.waste += other.waste;
    }

    pub(super) fn of_tile(padding: &Padding) -> PaddingSum {
        let mut sum = PaddingSum { looked_at: 1, ..PaddingSum::default() };
        sum.tiles = u64::from(!padding.padded.is_empty());
        for padded in &padding.padded {
            match padded.feature.as_ref().map(|feature| feature.kind) {
                None => sum.heads += 1,
                Some(Kind::Point) => sum.points += 1,
                Some(Kind::Way) => sum.ways += 1,
            }
            sum.waste += padded.waste;
        }
        sum
    }
}

/// What is padded in a tile.
#[derive(Clone, Debug, Default, PartialEq)]
pub struct Padding {
    /// Its head, its points and its ways that are not plain, in this order.
    pub padded: Vec<Padded>,
    /// Where the count does not come out as the library says. By the library's contracts this cannot be; it is told rather
    /// than passed over.
    pub disagreements: Vec<Finding>,
}

/// What is padded in a tile; refused if it does not collect.
///
/// ```
/// # use mapsforge::{check, MapFile};
/// let file = MapFile::open(concat!(env!("CARGO_MANIFEST_DIR"), "/../maps/islands.map"))?;
/// let map = file.map()?;
/// let sub_file = map.sub_file(2)?;
/// let padding = check::padding(&sub_file, sub_file.tile(10).expect("there are 12 tiles"))?;
/// assert!(padding.padded.is_empty() && sub_file.collect(10)?.plain());
/// # Ok::<(), Box<dyn std::error::Error>>(())
/// ```
pub fn padding(sub_file: &SubFile<'_, '_>, place: TilePlace) -> Result<Padding, Refusal> {
    let tile = sub_file.collect(place.number)?;
    let mut walk = Walk { sub_file: *sub_file, place, padding: Padding::default() };
    // A tile that collects has a stream, and one that accepts all its ways comes to the tile's end.
    let refused =
        if sub_file.is_empty(place.number) == Ok(true) { None } else { walk.tile().err() };
    let plain = walk.padding.padded.is_empty();
    if refused.is_some() || plain != tile.plain() {
        walk.disagree(None, None, tile.plain(), None);
    }
    Ok(walk.padding)
}

/// A tile that is walked through.
struct Walk<'m, 'a> {
    sub_file: SubFile<'m, 'a>,
    place: TilePlace,
    padding: Padding,
}

impl<'m, 'a> Walk<'m, 'a> {
    fn tile(&mut self) -> Result<(), Refusal> {
        let interval = self.sub_file.interval();
        let mut stream = self.sub_file.stream(self.place.number, interval.max_zoom)?;
        let entry = self.sub_file.entry(self.place.number)?;
        let rows = u64::from(interval.max_zoom - interval.min_zoom) + 1;
        let end = stream.to_come().map_or(0, |to_come| to_come.next_point);
        let counted = self.counted(entry.place, end, |bytes| bytes.head(rows));
        self.note(None, (entry.place, end), stream.plain(), counted);
        let mut lists = Lists::default();
        let (mut points, mut ways) = (0, 0);
        while let Some(before) = stream.to_come() {
            match stream.next()? {
                Step::Point(point) => {
                    let end = stream.to_come().map_or(0, |after| after.next_point);
                    let counted = self.counted(before.next_point, end, |bytes| bytes.point());
                    let note = self.needed(point.plain, &counted);
                    let note = note.then(|| self.point(points, &point));
                    self.note(note, (before.next_point, end), point.plain, counted);
                    points += 1;
                }
                Step::Way(head) => {
                    self.way(&mut stream, before.next_way, ways, &head, &mut lists)?;
                    ways += 1;
                }
                Step::End(end) => {
                    let plain = self.padding.padded.is_empty();
                    if end.plain != plain {
                        self.disagree(None, None, end.plain, None);
                    }
                    break;
                }
            }
        }
        Ok(())
    }

    fn way(
        &mut self,
        stream: &mut Stream<'m, 'a>,
        start: u64,
        number: u64,
        head: &WayHead<'m, 'a>,
        lists: &mut Lists,
    ) -> Result<(), Refusal> {
        let behind = stream.body().unwrap_or(0);
        let of_head = self.counted(start, behind, |bytes| bytes.way_head());
        let body = stream.accept_with(lists)?;
        let end = stream.to_come().map_or(0, |after| after.next_way);
        let counted = self.counted(start, end, |bytes| bytes.way());
        let agrees = of_head.is_some_and(|waste| (waste.numbers == 0) == head.plain);
        let wanted = self.needed(body.plain, &counted) || !agrees;
        let note = wanted.then(|| self.way_note(number, head, &body, lists));
        if !agrees {
            self.disagree(note.clone(), Some(start), head.plain, of_head);
        }
        self.note(note, (start, end), body.plain, counted);
        Ok(())
    }

    /// What is counted between two places, if the walk comes from the one to the other.
    fn counted(
        &self,
        start: u64,
        end: u64,
        read: impl FnOnce(&mut Bytes<'_>) -> Option<()>,
    ) -> Option<Waste> {
        let (map, debug) = (self.sub_file.map(), self.sub_file.map().header().debug());
        let place = usize::try_from(start).ok()?..usize::try_from(end).ok()?;
        let mut bytes =
            Bytes { map, debug, left: map.bytes().get(place)?, waste: Waste::default() };
        read(&mut bytes)?;
        bytes.left.is_empty().then_some(bytes.waste)
    }

    /// Whether something is to be told.
    fn needed(&self, plain: bool, counted: &Option<Waste>) -> bool {
        !plain || counted.is_none_or(|waste| waste.numbers > 0)
    }

    /// Keeps what is not plain, and where the count does not come out as the library says.
    fn note(
        &mut self,
        feature: Option<FeatureNote>,
        (start, end): (u64, u64),
        plain: bool,
        counted: Option<Waste>,
    ) {
        if counted.is_none_or(|waste| (waste.numbers == 0) != plain) {
            self.disagree(feature.clone(), Some(start), plain, counted);
        }
        if plain {
            return;
        }
        let around = feature.as_ref().and_then(|feature| feature.position);
        self.padding.padded.push(Padded {
            covered: Covered::new(self.sub_file.map(), self.sub_file.number()),
            tile: self.place,
            around: around.or_else(|| self.sub_file.middle(self.place).ok()),
            feature,
            byte: start,
            size: end.saturating_sub(start),
            waste: counted.unwrap_or_default(),
        });
    }

    fn disagree(
        &mut self,
        feature: Option<FeatureNote>,
        byte: Option<u64>,
        plain: bool,
        counted: Option<Waste>,
    ) {
        let found = Finding::of_tile(Cause::Padding { plain, counted }, &self.sub_file, self.place);
        self.padding.disagreements.push(Finding { feature, byte, ..found });
    }

    fn point(&self, number: u64, point: &StreamedPoint<'_, '_>) -> FeatureNote {
        FeatureNote {
            kind: Kind::Point,
            number,
            name: first_form(point.name),
            tags: point.tags().map(|tag| tag.text.to_text()).collect(),
            position: self.sub_file.corner(self.place).ok().map(|corner| corner + point.offset),
            zooms: super::explain::zooms(&self.sub_file, self.place, Kind::Point, number),
        }
    }

    fn way_note(
        &self,
        number: u64,
        head: &WayHead<'_, '_>,
        body: &StreamedBody<'_, (usize, usize)>,
        lists: &Lists,
    ) -> FeatureNote {
        FeatureNote {
            kind: Kind::Way,
            number,
            name: first_form(body.name),
            tags: head.tags().map(|tag| tag.text.to_text()).collect(),
            position: super::explain::first_node(&self.sub_file, self.place, lists, body.blocks.1),
            zooms: super::explain::zooms(&self.sub_file, self.place, Kind::Way, number),
        }
    }
}

/// The flags of a point's fields; a way has the first two also.
const NAME: u8 = 0x80;
const HOUSE_NUMBER: u8 = 0x40;
const ELEVATION: u8 = 0x20;
/// The other flags of a way.
const REFERENCE: u8 = 0x20;
const LABEL: u8 = 0x10;
const DATA_BLOCKS: u8 = 0x08;

/// Bytes that are walked through, and what their numbers waste. It has none where it would leave them.
struct Bytes<'b> {
    map: &'b Map<'b>,
    debug: bool,
    left: &'b [u8],
    waste: Waste,
}

impl<'b> Bytes<'b> {
    fn skip(&mut self, size: u64) -> Option<&'b [u8]> {
        let (front, left) = self.left.split_at_checked(usize::try_from(size).ok()?)?;
        self.left = left;
        Some(front)
    }

    fn byte(&mut self) -> Option<u8> {
        self.skip(1).map(|front| front[0])
    }

    fn signature(&mut self) -> Option<()> {
        self.skip(if self.debug { 32 } else { 0 }).map(drop)
    }

    /// The bytes of a number: the last one alone has no top bit.
    fn groups(&mut self) -> Option<&'b [u8]> {
        let last = self.left.iter().take(9).position(|byte| byte & 0x80 == 0)?;
        self.skip(last as u64 + 1)
    }

    fn unsigned(&mut self) -> Option<u64> {
        let groups = self.groups()?;
        let value = groups.iter().rev().fold(0, |value, byte| value << 7 | u64::from(byte & 0x7F));
        self.count(groups.len(), shortest(value, 7), false);
        Some(value)
    }

    fn signed(&mut self) -> Option<()> {
        let groups = self.groups()?;
        let (last, front) = groups.split_last()?;
        let last_data = u64::from(last & 0x3F);
        let magnitude =
            front.iter().rev().fold(last_data, |value, byte| value << 7 | u64::from(byte & 0x7F));
        self.count(groups.len(), shortest(magnitude, 6), magnitude == 0 && last & 0x40 != 0);
        Some(())
    }

    fn count(&mut self, length: usize, needed: usize, minus_zero: bool) {
        self.waste += Waste {
            numbers: u64::from(length > needed || minus_zero),
            minus_zeros: u64::from(minus_zero),
            bytes: (length - needed) as u64,
        };
    }

    fn signed_pair(&mut self) -> Option<()> {
        self.signed()?;
        self.signed()
    }

    fn text(&mut self) -> Option<()> {
        let length = self.unsigned()?;
        self.skip(length).map(drop)
    }

    fn text_if(&mut self, there: bool) -> Option<()> {
        if there {
            self.text()?;
        }
        Some(())
    }

    /// Layer and number of tags, the tag ids, and behind all of them their values. The first tag of the kind is so far from
    /// the front of the list of letters.
    fn tags(&mut self, first: usize) -> Option<()> {
        let count = self.byte()? & 0x0F;
        let mut ids = Vec::with_capacity(count.into());
        for _ in 0..count {
            ids.push(usize::try_from(self.unsigned()?).ok()?);
        }
        for id in ids {
            match self.map.letters().get(first.checked_add(id)?) {
                Some(b'b') => drop(self.skip(1)?),
                Some(b'h') => drop(self.skip(2)?),
                Some(b'i' | b'f') => drop(self.skip(4)?),
                Some(b's') => self.text()?,
                _ => (),
            }
        }
        Some(())
    }

    /// A tile's head, of so many rows.
    fn head(&mut self, rows: u64) -> Option<()> {
        self.signature()?;
        for _ in 0..rows {
            self.unsigned()?;
            self.unsigned()?;
        }
        self.unsigned().map(drop)
    }

    fn point(&mut self) -> Option<()> {
        self.signature()?;
        self.signed_pair()?;
        self.tags(0)?;
        let flags = self.byte()?;
        self.text_if(flags & NAME != 0)?;
        self.text_if(flags & HOUSE_NUMBER != 0)?;
        if flags & ELEVATION != 0 {
            self.signed()?;
        }
        Some(())
    }

    fn way_head(&mut self) -> Option<()> {
        self.signature()?;
        self.unsigned()?;
        self.skip(2)?;
        self.tags(self.map.point_tags().len())
    }

    fn way(&mut self) -> Option<()> {
        self.way_head()?;
        let flags = self.byte()?;
        self.text_if(flags & NAME != 0)?;
        self.text_if(flags & HOUSE_NUMBER != 0)?;
        self.text_if(flags & REFERENCE != 0)?;
        if flags & LABEL != 0 {
            self.signed_pair()?;
        }
        let data_blocks = if flags & DATA_BLOCKS != 0 { self.unsigned()? } else { 1 };
        for _ in 0..data_blocks {
            for _ in 0..self.unsigned()? {
                for _ in 0..self.unsigned()? {
                    self.signed_pair()?;
                }
            }
        }
        Some(())
    }
}

/// How many bytes a number needs of which the last byte holds so many bits.
fn shortest(mut value: u64, last: u32) -> usize {
    let mut length = 1;
    while value >> last > 0 {
        value >>= 7;
        length += 1;
    }
    length
}

#[cfg(test)]
mod tests {
    use super::*;

    /// What each of the encodings wastes: as an unsigned number, and as a signed one.
    #[test]
    fn encodings_are_counted() {
        let islands = concat!(env!("CARGO_MANIFEST_DIR"), "/../maps/islands.map");
        let file = crate::MapFile::open(islands).unwrap();
        let map = file.map().unwrap();
        let of = |left: &[u8], read: fn(&mut Bytes<'_>) -> Option<()>| {
            let mut bytes = Bytes { map: &map, debug: false, left, waste: Waste::default() };
            read(&mut bytes)?;
            let Waste { numbers, minus_zeros, bytes: wasted } = bytes.waste;
            bytes.left.is_empty().then_some([numbers, minus_zeros, wasted])
        };
        let cases: [(&[u8], [u64; 3], [u64; 3]); 12] = [
            (&[0x00], [0, 0, 0], [0, 0, 0]),
            (&[0x40], [0, 0, 0], [1, 1, 0]),
            (&[0x41], [0, 0, 0], [0, 0, 0]),
            (&[0xC0, 0x00], [1, 0, 1], [0, 0, 0]),
            (&[0xC0, 0x40], [0, 0, 0], [0, 0, 0]),
            (&[0xBF, 0x00], [1, 0, 1], [1, 0, 1]),
            (&[0x81, 0x40], [0, 0, 0], [1, 0, 1]),
            (&[0x80, 0x00], [1, 0, 1], [1, 0, 1]),
            (&[0x80, 0x01], [0, 0, 0], [0, 0, 0]),
            (&[0x80, 0x40], [0, 0, 0], [1, 1, 1]),
            (&[0xFF, 0x80, 0x80, 0x00], [1, 0, 3], [1, 0, 2]),
            (&[0x80, 0x80, 0x80, 0x80, 0x80, 0x80, 0x80, 0x80, 0x40], [0, 0, 0], [1, 1, 8]),
        ];
        for (bytes, unsigned, signed) in cases {
            assert_eq!(of(bytes, |bytes| bytes.unsigned().map(drop)), Some(unsigned), "{bytes:x?}");
            assert_eq!(of(bytes, |bytes| bytes.signed()), Some(signed), "{bytes:x?}");
        }
        // A number of ten bytes is none, and neither is one that is cut off.
        for bytes in [&[0x80; 9][..], &[0x80], &[]] {
            assert_eq!(of(bytes, |bytes| bytes.signed()), None);
        }
    }
}
