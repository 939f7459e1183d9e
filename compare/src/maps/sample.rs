//! Crafted maps, the boundaries first and then random ones, with records about them.

mod bounds;
mod columns;
mod fields;
mod index;
mod intervals;
mod random;
mod signatures;
mod tags;
mod texts;

use std::io;
use std::path::Path;

use super::calls::{Form, Records};
use super::writer::{entry, tags, text, Header, DEBUG, INDEX_SIGNATURE};

/// Writes the records to `stdin` and a line for each of them to `stdout`.
pub fn write(folder: &Path, form: Form) -> io::Result<()> {
    crafted().write(folder, form)
}

/// What is asked of the crafted maps.
pub fn crafted() -> Records {
    let mut records = Records::default();
    fields::add(&mut records);
    bounds::add(&mut records);
    texts::add(&mut records);
    tags::add(&mut records);
    intervals::add(&mut records);
    signatures::add(&mut records);
    index::add(&mut records);
    columns::add(&mut records);
    random::add(&mut records);
    records
}

/// A header with every field, ill-formed texts, and two intervals whose sub files are not there.
fn rich_header() -> Header {
    let header = Header {
        version: 5,
        file_size: 0x0102_0304_0506_0708,
        created: 1_767_225_600_000,
        bounds: [62_250_823, -64_600, 62_303_923, 79_800],
        projection: text(b"Mercator"),
        start: Some([62_280_000, -7]),
        start_zoom: Some(14),
        language: Some(text(b"fo,en")),
        comment: Some(text(b"F\xC3\xA6rger \xE2\x82")),
        created_by: Some(text(b"compare")),
        poi_tags: tags(&[b"amenity=ferry", b"ele=%i", b"", b"name=%s", b"a\xFF=%b"]),
        way_tags: tags(&[b"highway=pier", b"maxspeed=%h", b"a=%box", b"\xF0\x9F\x9A=%f"]),
        ..Header::tiny()
    };
    header.with_interval([8, 0, 9], 0x0A0B_0C0D_0E0F_1011).with_interval([13, 10, 21], u64::MAX)
}

/// The rich header with the debug flag, and two sub files of one tile each.
fn rich_debug_map() -> Vec<u8> {
    let mut header = Header { flags: DEBUG, ..rich_header() };
    let sub_file = [&INDEX_SIGNATURE[..], &entry(true, 21)].concat();
    header.intervals[0].start = header.length();
    header.intervals[1].start = header.length() + sub_file.len() as u64;
    header.before(&[sub_file.as_slice(), &sub_file].concat())
}

/// A map with every cut and every damage, each cut also by itself, and its first tags.
fn all_of(records: &mut Records, map: &[u8]) {
    records.map(map);
    records.all_cuts();
    records.all_damages();
    (0..=map.len()).for_each(|length| records.cut(length));
    (0..=5).for_each(|k| records.poi_tag(k));
    (0..=5).for_each(|k| records.way_tag(k));
}
