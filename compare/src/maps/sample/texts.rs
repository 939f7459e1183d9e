//! The header's texts, each with every kind of length and of bytes.

use mapsforge_rs::grid::Grid;

use super::{all_of, rich_header, Records};
use crate::leaves::sample::{unsigned, unsigned_in};
use crate::maps::writer::{counted, entry, text, Header, DEBUG, INDEX_SIGNATURE, PROJECTION};

/// The longest text.
const LIMIT: u64 = 1 << 20;

/// Puts a stored text into one of the header's places.
type Place = fn(&mut Header, &[u8]);

const PLACES: [Place; 7] = [
    |header, stored| header.projection = stored.to_vec(),
    |header, stored| header.language = Some(stored.to_vec()),
    |header, stored| header.comment = Some(stored.to_vec()),
    |header, stored| header.created_by = Some(stored.to_vec()),
    |header, stored| header.poi_tags = counted(1, stored),
    |header, stored| header.poi_tags = counted(2, &[&text(b"a"), stored].concat()),
    |header, stored| header.way_tags = counted(2, &[stored, &text(b"a")].concat()),
];

pub fn add(records: &mut Records) {
    for place in PLACES {
        for stored in stored_texts() {
            let mut header = Header::tiny();
            place(&mut header, &stored);
            records.map(&header.bytes());
        }
    }
    unfinished(records);
    earlier_faults(records);
    all_of(records, &padded_map());
    records.entry(0, Grid { x_min: 0, y_min: 0, x_max: 0, y_max: 0 }, 0);
}

fn stored_texts() -> Vec<Vec<u8>> {
    let mut all: Vec<Vec<u8>> = TEXTS.iter().map(|bytes| text(bytes)).collect();
    all.push(text(&[b'x'; 200]));
    for length in [2, 5, 6, 9, 10] {
        all.push([&unsigned_in(2, length), &b"ab"[..]].concat());
        all.push(unsigned_in(0, length));
    }
    // 9, and at the limit 1 since the map ends
    for length in [3, 5, 6, 9] {
        all.push(unsigned_in(LIMIT + 1, length));
        all.push(unsigned_in(LIMIT, length));
    }
    // small in the 32 bits that the Rust keeps
    for power in [32, 35, 62] {
        all.push([&unsigned((1 << power) + 3), &b"abc"[..]].concat());
    }
    all.push(vec![0x80, 0x80, 0x80, 0x80, 0x10]);
    all.push(vec![0x80; 9]);
    all.push(vec![0xFF; 9]);
    all
}

const TEXTS: [&[u8]; 7] =
    [b"", b"ab", b"F\xC3\xA6rger", b"a\xFFb", b"\xE2\x82A", b"\xED\xA0\x80", b"a\xF0\x9F\x9A"];

/// Lengths cut off by the map's end, also behind the fifth byte, in the first text and in the last.
fn unfinished(records: &mut Records) {
    let header = Header { projection: unsigned_in(0, 9), ..Header::tiny() };
    let map = header.bytes();
    records.map(&map);
    (PROJECTION..=PROJECTION + 10).for_each(|length| records.cut(length));
    let header = Header { way_tags: counted(1, &[0x80; 10]), ..Header::tiny() };
    let map = header.bytes();
    records.map(&map);
    (map.len() - 12..=map.len()).for_each(|length| records.cut(length));
}

/// Refusals before a text that the Rust could not read.
fn earlier_faults(records: &mut Records) {
    for projection in [vec![0x80; 9], unsigned_in(0, 6), unsigned(LIMIT << 12)] {
        let header = Header { projection, ..Header::tiny() };
        records.map(&Header { version: 2, ..header.clone() }.bytes());
        records.map(&Header { bounds: [1, 0, 0, 0], ..header.clone() }.bytes());
        records.map(&Header { header_size: Some(0), ..header.clone() }.bytes());
        records.map(&Header { created_by: Some(vec![0x80; 9]), ..header.clone() }.bytes());
        records.map(&Header { created_by: Some(unsigned(LIMIT + 1)), ..header }.bytes());
    }
}

/// All texts of the rich header in padded lengths of 6 to 9 bytes, with its sub files in place.
fn padded_map() -> Vec<u8> {
    let padded = |bytes: &[u8], length| [&unsigned_in(bytes.len() as u64, length), bytes].concat();
    let mut header = Header {
        flags: DEBUG,
        projection: padded(b"Mercator", 6),
        language: Some(padded(b"fo", 7)),
        comment: Some(padded(b"\xE2\x82", 8)),
        created_by: Some(padded(b"", 9)),
        poi_tags: counted(2, &[padded(b"a=%i", 9), text(b"b")].concat()),
        way_tags: counted(2, &[text(b"c"), padded(b"d=%s", 6)].concat()),
        ..rich_header()
    };
    let length = header.length();
    header.intervals.iter_mut().for_each(|interval| interval.start = length);
    header.before(&[&INDEX_SIGNATURE[..], &entry(true, 21)].concat())
}
