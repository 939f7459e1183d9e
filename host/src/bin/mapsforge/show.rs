//! `mapsforge show`

use crate::args::{Args, Choice};
use crate::input::Source;
use crate::output::{clean, count, name, position, tile as named};
use crate::{of_tile, target, Failure, Outcome, Status};
use mapsforge::{closed, Feature, Offset, Part, Position, Step, SubFile, TilePlace};
use std::io::{self, Write};

pub const HELP: &str = "\
mapsforge show MAP TILE [--zoom ZOOM] [--nodes]

The features of a tile: names, tags and positions, in degrees. TILE is SUBFILE:NUMBER,
SUBFILE:X,Y (at the sub file's base zoom) or ZOOM/X/Y. The first line says where it stands in
the map, or that it is empty, and whether it is marked as water.

    --zoom ZOOM    what a stream delivers at this zoom, instead of the whole tile
    --nodes        all nodes of the ways, not only the first

The status is 1 if the tile is refused, 2 if the file is no map or has no such tile.
";

pub const OPTIONS: &[Choice] = &[
    Choice { long: "--zoom", short: Some("-z"), valued: true },
    Choice { long: "--nodes", short: None, valued: false },
];

pub fn run(args: &Args, out: &mut dyn Write) -> Outcome {
    let [path, tile] = args.plain(["a MAP", "a TILE"])?;
    let zoom: Option<u8> = args.number("--zoom", "a number from 0 to 255")?;
    let source = Source::named(path);
    let file = source.open()?;
    let map = source.map(&file)?;
    let (sub_file, place) = target::find(&map, tile)?;
    let corner = sub_file.corner(place)?;
    write!(out, "{}", named(&sub_file, place))?;
    // The entry is refused below, by what reads the tile.
    if let Ok(entry) = sub_file.entry(place.number) {
        match sub_file.is_empty(place.number) {
            // Where its entry leads to is another tile.
            Ok(true) => write!(out, ", empty")?,
            _ => write!(out, ", byte {}", entry.place)?,
        }
        write!(out, "{}", if entry.water { ", water" } else { "" })?;
    }
    writeln!(out, ", north-western corner {}", position(corner))?;
    let mut shown = Shown { corner, nodes: args.has("--nodes"), out };
    match zoom {
        Some(zoom) => streamed(&sub_file, place, zoom, &mut shown)?,
        None => collected(&sub_file, place, &mut shown)?,
    }
    Ok(Status::Well)
}

fn collected(
    sub_file: &SubFile<'_, '_>,
    place: TilePlace,
    shown: &mut Shown<'_>,
) -> Result<(), Failure> {
    let tile = sub_file.collect(place.number).map_err(of_tile(place))?;
    let (points, ways) = (tile.point_count(), tile.way_count());
    write!(shown.out, "{}, {}", count(points, "point"), count(ways, "way"))?;
    if let Some(signature) = tile.signature() {
        write!(shown.out, ", signature {:?}", signature.to_text().trim())?;
    }
    writeln!(shown.out)?;
    if !tile.exact() {
        writeln!(shown.out, "A way's stored size is wrong: `mapsforge check` says which.")?;
    }
    for (number, feature) in tile.features().enumerate() {
        let number = number as u64;
        match feature? {
            Feature::Point(point) => {
                shown.head("point", number)?;
                shown.position(point.offset)?;
                shown.texts(point.name, point.house_number, None)?;
                shown.numbers(point.layer, point.elevation, None)?;
                // Texts are shown as such, not once more as tags.
                let tags = point.tags.iter().take(point.tag_ids.len());
                shown.tags(tags.map(|tag| joined(&tag.key, &tag.value)))?;
            }
            Feature::Way(way) => {
                shown.head("way", number - points)?;
                let blocks: Vec<_> = way.blocks.iter().map(|block| &block.nodes[..]).collect();
                shown.first(&blocks)?;
                shown.texts(way.name, way.house_number, way.reference)?;
                shown.numbers(way.layer, None, Some(way.bitmap))?;
                let tags = way.tags.iter().take(way.tag_ids.len());
                shown.tags(tags.map(|tag| joined(&tag.key, &tag.value)))?;
                shown.blocks(&blocks, way.label)?;
            }
        }
    }
    Ok(())
}

fn joined(key: &str, value: &str) -> String {
    if value.is_empty() {
        return key.into();
    }
    format!("{key}={value}")
}

fn streamed(
    sub_file: &SubFile<'_, '_>,
    place: TilePlace,
    zoom: u8,
    shown: &mut Shown<'_>,
) -> Result<(), Failure> {
    let mut stream = sub_file.stream(place.number, zoom).map_err(of_tile(place))?;
    let interval = sub_file.interval();
    let clamped = zoom.clamp(interval.min_zoom, interval.max_zoom);
    writeln!(shown.out, "streamed at zoom {clamped}, all ways accepted")?;
    let (mut points, mut ways) = (0, 0);
    loop {
        match stream.next()? {
            Step::Point(point) => {
                shown.head("point", points)?;
                shown.position(point.offset)?;
                let text = |part: Option<Part<'_>>| part.map(|part| part.to_text());
                shown.texts(text(point.name), text(point.house_number), None)?;
                shown.numbers(point.layer, point.elevation, None)?;
                shown.tags(point.tags().map(|tag| tag.text.to_text()))?;
                points += 1;
            }
            Step::Way(head) => {
                let body = stream.accept()?;
                shown.head("way", ways)?;
                let blocks: Vec<_> = body.blocks.iter().map(|nodes| &nodes[..]).collect();
                shown.first(&blocks)?;
                let text = |part: Option<Part<'_>>| part.map(|part| part.to_text());
                shown.texts(text(body.name), text(body.house_number), text(body.reference))?;
                shown.numbers(head.layer, None, Some(head.bitmap))?;
                shown.tags(head.tags().map(|tag| tag.text.to_text()))?;
                shown.blocks(&blocks, body.label)?;
                ways += 1;
            }
            Step::End(_) => {
                writeln!(shown.out, "end: {}, {}", count(points, "point"), count(ways, "way"))?;
                return Ok(());
            }
        }
    }
}

/// Where features are written to, a line for each.
struct Shown<'o> {
    corner: Position,
    nodes: bool,
    out: &'o mut dyn Write,
}

impl Shown<'_> {
    fn head(&mut self, kind: &str, number: u64) -> io::Result<()> {
        write!(self.out, "{:<10}", format!("{kind} {number}"))
    }

    fn position(&mut self, at: Offset) -> io::Result<()> {
        write!(self.out, " {}", position(self.corner + at))
    }

    /// A way's first node stands for it.
    fn first(&mut self, blocks: &[&[Offset]]) -> io::Result<()> {
        match blocks.iter().find_map(|nodes| nodes.first()) {
            Some(&first) => self.position(first),
            None => write!(self.out, " no nodes"),
        }
    }

    fn texts(
        &mut self,
        text: Option<String>,
        house_number: Option<String>,
        reference: Option<String>,
    ) -> io::Result<()> {
        if let Some(text) = text {
            write!(self.out, "  {}", name(&text))?;
        }
        if let Some(text) = house_number {
            write!(self.out, "  house number \"{}\"", clean(&text))?;
        }
        if let Some(text) = reference {
            write!(self.out, "  reference \"{}\"", clean(&text))?;
        }
        Ok(())
    }

    fn numbers(
        &mut self,
        layer: i8,
        elevation: Option<i32>,
        bitmap: Option<u16>,
    ) -> io::Result<()> {
        if layer != 0 {
            write!(self.out, "  layer {layer}")?;
        }
        if let Some(elevation) = elevation {
            write!(self.out, "  elevation {elevation} m")?;
        }
        if let Some(bitmap) = bitmap {
            write!(self.out, "  cells {bitmap:04x}")?;
        }
        Ok(())
    }

    /// The tags end a point's line.
    fn tags(&mut self, tags: impl Iterator<Item = String>) -> io::Result<()> {
        for (k, tag) in tags.enumerate() {
            write!(self.out, "{}{}", if k == 0 { "  " } else { " " }, clean(&tag))?;
        }
        writeln!(self.out)
    }

    /// A way's blocks, in a line of their own.
    fn blocks(&mut self, blocks: &[&[Offset]], label: Option<Offset>) -> io::Result<()> {
        write!(self.out, "{:11}", "")?;
        for (k, nodes) in blocks.iter().enumerate() {
            let word = count(nodes.len() as u64, "node");
            write!(
                self.out,
                "{}{word}{}",
                if k == 0 { "" } else { " + " },
                if closed(nodes) { " (closed)" } else { "" }
            )?;
        }
        if let (Some(label), Some(first)) = (label, blocks.iter().find_map(|nodes| nodes.first())) {
            write!(self.out, ", label at {}", position(self.corner + (*first + label)))?;
        }
        writeln!(self.out)?;
        if !self.nodes {
            return Ok(());
        }
        for (k, nodes) in blocks.iter().enumerate() {
            for &at in *nodes {
                writeln!(self.out, "{:11}block {k}: {}", "", position(self.corner + at))?;
            }
        }
        Ok(())
    }
}
