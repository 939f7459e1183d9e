//! Opening a map: the header and, with the debug flag, the index signatures.

use mapsforge_rs::types::{LatLong, MapFile, MapHeader, ZoomInterval};

use crate::answer::{digest, refused, Answer, Fold};
use crate::differences::{self, Header};
use crate::source::Source;

pub fn answer(map: &[u8]) -> Answer {
    with_map(map, |map| words(&map.header)).unwrap_or_else(|refusal| refusal)
}

/// What is made of an opened map, or the refusal to open it.
pub fn with_map<T>(map: &[u8], make: impl FnOnce(MapFile<Source>) -> T) -> Result<T, Answer> {
    let Some(Header { plain, refusal }) = differences::header(map) else {
        return opened(Source::new(map)).map(make);
    };
    match (opened(Source::with_header(&plain, map)), refusal) {
        (Err(at_its_end), Some(refusal)) if at_its_end == [1] => Err(refusal),
        (opened, _) => opened.map(make),
    }
}

fn opened(source: Source) -> Result<MapFile<Source>, Answer> {
    MapFile::from_source(source).map_err(|error| refused(&error))
}

/// All fields, in the order of the file.
fn words(header: &MapHeader) -> Answer {
    [
        &[0, header.header_size.into(), header.file_version.into()][..],
        &[header.file_size, header.creation_date],
        &box_of(header),
        &[header.tile_size.into()],
        &text(&header.projection),
        &[header.flags.into()],
        &optional(&header.map_start_position, position),
        &optional(&header.start_zoom_level, |&zoom| vec![zoom.into()]),
        &optional(&header.language_preference, |language| text(language)),
        &optional(&header.comment, |comment| text(comment)),
        &optional(&header.created_by, |creator| text(creator)),
        &tags(&header.poi_tags),
        &tags(&header.way_tags),
        &intervals(&header.zoom_interval_configuration),
    ]
    .concat()
}

fn box_of(header: &MapHeader) -> [u64; 4] {
    let sides = &header.bounding_box;
    [sides.min_lat, sides.min_lon, sides.max_lat, sides.max_lon].map(f64::to_bits)
}

/// 0 for none, else 1 and the words of the value.
fn optional<T>(value: &Option<T>, words: impl Fn(&T) -> Answer) -> Answer {
    value.as_ref().map_or(vec![0], |value| [&[1], words(value).as_slice()].concat())
}

fn position(position: &LatLong) -> Answer {
    vec![position.latitude.to_bits(), position.longitude.to_bits()]
}

fn text(text: &str) -> Answer {
    vec![text.len() as u64, digest(text.as_bytes())]
}

fn tags(tags: &[String]) -> Answer {
    let mut fold = Fold::new();
    for tag in tags {
        fold.word(tag.len() as u64);
        fold.bytes(tag.as_bytes());
    }
    vec![tags.len() as u64, fold.value()]
}

fn intervals(intervals: &[ZoomInterval]) -> Answer {
    let mut fold = Fold::new();
    for interval in intervals {
        let zooms = [interval.base_zoom_level, interval.min_zoom_level, interval.max_zoom_level];
        fold.bytes(&zooms);
        fold.word(interval.sub_file_start);
        fold.word(interval.sub_file_size);
    }
    vec![intervals.len() as u64, fold.value()]
}
