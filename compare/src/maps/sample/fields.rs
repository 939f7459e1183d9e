//! The header's fields: which of them are there, their ends, and which of two faults is refused.

use super::{all_of, rich_debug_map, rich_header, Records};
use crate::maps::writer::{
    tags, text, Header, COMMENT, CREATED_BY, DEBUG, LANGUAGE, PROJECTION, START, START_ZOOM,
};

pub fn add(records: &mut Records) {
    flags(records);
    positions_and_zooms(records);
    numbers(records);
    magic(records);
    two_faults(records);
    all_of(records, &Header::tiny().bytes());
    all_of(records, &rich_debug_map());
    all_of(records, &rich_header().bytes());
    every_flag_byte(records, &rich_header());
}

/// Every combination of optional fields, with the reserved flags off and on.
fn flags(records: &mut Records) {
    for optional in (0..=START | START_ZOOM | LANGUAGE | COMMENT | CREATED_BY).step_by(4) {
        for reserved in [0, 3] {
            records.map(&with_fields(optional, reserved).bytes());
        }
    }
    // the debug flag asks nothing of a map without sub files
    for other in [1, 2, DEBUG, DEBUG | 3] {
        records.map(&with_fields(0, other).bytes());
        records.map(&with_fields(0x7C, other).bytes());
    }
}

/// The fields that some flags name, and other flags.
fn with_fields(optional: u8, others: u8) -> Header {
    let named = |flag| optional & flag != 0;
    Header {
        flags: others,
        start: named(START).then_some([1, -2]),
        start_zoom: named(START_ZOOM).then_some(7),
        language: named(LANGUAGE).then(|| text(b"en")),
        comment: named(COMMENT).then(|| text(b"c")),
        created_by: named(CREATED_BY).then(|| text(b"by")),
        ..Header::tiny()
    }
}

/// Start positions and zooms, which need not be on the globe.
fn positions_and_zooms(records: &mut Records) {
    let ends = [i32::MIN, i32::MAX];
    for start in [[0, 0], [-1, 1], [90_000_001, -180_000_001], ends, [ends[1], ends[0]]] {
        records.map(&Header { start: Some(start), ..Header::tiny() }.bytes());
    }
    for zoom in [0, 22, 255] {
        records.map(&Header { start_zoom: Some(zoom), ..Header::tiny() }.bytes());
    }
}

/// Numbers that are read and, but for version and header size, never judged.
fn numbers(records: &mut Records) {
    for version in [0, 1, 2, 3, 4, 5, 6, 0x7FFF_FFFF, 0x8000_0000, u32::MAX] {
        records.map(&Header { version, ..Header::tiny() }.bytes());
    }
    for size in [0, 1, 44, 46, 0x8000_0000, u32::MAX] {
        records.map(&Header { header_size: Some(size), ..Header::tiny() }.bytes());
    }
    for number in [1, 1 << 63, u64::MAX] {
        records.map(&Header { file_size: number, ..Header::tiny() }.bytes());
        records.map(&Header { created: number, ..Header::tiny() }.bytes());
    }
    for tile_size in [0, 1, 0x0102, u16::MAX] {
        records.map(&Header { tile_size, ..Header::tiny() }.bytes());
    }
}

/// Magic bytes: too short, wrong, and wrong by blanks, which the Rust trims.
fn magic(records: &mut Records) {
    let good = Header::tiny().magic;
    records.map(b"");
    records.map(&good[..19]);
    records.map(&good);
    let wrong: [&[u8]; 8] = [
        &[0; 20],
        &[b' '; 20],
        b"Mapsforge binary OSM",
        b"mapsforge binary OSm",
        b" mapsforge binary OS",
        b"mapsforge binary OS ",
        b"mapsforge binary OS\xFF",
        b"\xE2\x80\x83mapsforge binary ",
    ];
    for magic in wrong {
        records.map(magic);
        records.map(&Header { magic: magic.to_vec(), ..Header::tiny() }.bytes());
    }
    records.map(&[b" ", &*good, b" "].concat());
    records.map(&Header { magic: [b" ", &*good].concat(), ..Header::tiny() }.bytes());
}

/// A fault that the header alone shows.
type Fault = fn(&mut Header);

/// In the order of the file. The size is judged behind all fields, the signature behind the size.
const FAULTS: [Fault; 10] = [
    |header| header.magic[19] = b'N',
    |header| header.version = 2,
    |header| header.bounds[0] = 90_000_001,
    |header| header.projection = TOO_LONG.to_vec(),
    |header| header.language = Some(UNENDING.to_vec()),
    |header| header.comment = Some(TOO_LONG.to_vec()),
    |header| header.poi_tags = [&[0, 1], UNENDING].concat(),
    |header| header.way_tags = [&[0, 1], TOO_LONG].concat(),
    |header| header.header_size = Some(0),
    |header| header.flags = DEBUG,
];

/// A length above the longest text, 9.
const TOO_LONG: &[u8] = &[0x81, 0x80, 0x40];
/// A length whose ninth byte has its top bit, 11.
const UNENDING: &[u8] = &[0x80; 9];

/// Each fault, and each pair of faults, of which the first is refused.
fn two_faults(records: &mut Records) {
    for (place, first) in FAULTS.iter().enumerate() {
        records.map(&faulty(&[*first]));
        for second in &FAULTS[place + 1..] {
            records.map(&faulty(&[*first, *second]));
        }
    }
    // a fault is refused as soon as its field is read, but for the size
    each_cut(records, &faulty(&FAULTS[1..2]), 24, 32);
    each_cut(records, &faulty(&FAULTS[2..3]), 56, 64);
    let unsized_map = faulty(&FAULTS[8..9]);
    each_cut(records, &unsized_map, unsized_map.len() - 3, unsized_map.len());
}

fn each_cut(records: &mut Records, map: &[u8], first: usize, last: usize) {
    records.map(map);
    (first..=last).for_each(|length| records.cut(length));
}

/// With one interval, whose signature would be the magic bytes.
fn faulty(faults: &[Fault]) -> Vec<u8> {
    let mut header = Header {
        language: Some(text(b"en")),
        comment: Some(text(b"c")),
        poi_tags: tags(&[b"a"]),
        way_tags: tags(&[b"b"]),
        ..Header::tiny().with_interval([0; 3], 0)
    };
    faults.iter().for_each(|fault| fault(&mut header));
    header.bytes()
}

/// Fields that are read at the place of others, as far as the map goes.
fn every_flag_byte(records: &mut Records, header: &Header) {
    for flags in 0..=255 {
        records.damage(PROJECTION + header.projection.len(), flags);
    }
}
