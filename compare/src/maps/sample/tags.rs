//! Lists of tags: how many there are, and what they say of their values.

use super::Records;
use crate::leaves::sample::TAGS;
use crate::maps::writer::{counted, tags, Header};

pub fn add(records: &mut Records) {
    no_tags(records);
    listed(records, &[b"a=%box"], &[]);
    listed(records, &[], &[b"a=%box"]);
    listed(records, &[b""], &[b"", b""]);
    let backwards: Vec<&[u8]> = TAGS.iter().rev().copied().collect();
    listed(records, TAGS, &backwards);
    three_hundred(records);
    short_lists(records);
    most_tags(records);
}

fn no_tags(records: &mut Records) {
    records.map(&Header::tiny().bytes());
    for k in [0, 1, u16::MAX] {
        records.poi_tag(k);
        records.way_tag(k);
    }
    records.map(b"not a map, which has no tags");
    records.poi_tag(0);
    records.way_tag(0);
}

/// Every tag, and one past the last.
fn listed(records: &mut Records, poi: &[&[u8]], way: &[&[u8]]) {
    records.map(&Header { poi_tags: tags(poi), way_tags: tags(way), ..Header::tiny() }.bytes());
    (0..=poi.len()).for_each(|k| records.poi_tag(k as u16));
    (0..=way.len()).for_each(|k| records.way_tag(k as u16));
}

fn three_hundred(records: &mut Records) {
    let letters = ["=%b", "=%h", "=%i", "=%f", "=%s", "=%x", "=%", ""];
    let texts: Vec<String> = (0..300).map(|k| format!("k{k}{}", letters[k % 8])).collect();
    let texts: Vec<&[u8]> = texts.iter().map(|text| text.as_bytes()).collect();
    let header = Header { poi_tags: tags(&texts), way_tags: tags(&texts[1..]), ..Header::tiny() };
    records.map(&header.bytes());
    for k in [0, 1, 7, 8, 127, 128, 254, 255, 256, 257, 298, 299, 300, u16::MAX] {
        records.poi_tag(k);
        records.way_tag(k);
    }
}

/// Counts that the map does not hold, or that take later fields for tags.
fn short_lists(records: &mut Records) {
    for count in [1, 2, 3, 255, 256, u16::MAX] {
        let short = counted(count, &[1, b'a']);
        records.map(&Header { poi_tags: short.clone(), ..Header::tiny() }.bytes());
        records.map(&Header { way_tags: short, ..Header::tiny() }.bytes());
        let empty = counted(count, &[0; 12]);
        records.map(&Header { poi_tags: empty.clone(), ..Header::tiny() }.bytes());
        records.map(&Header { way_tags: empty, ..Header::tiny() }.bytes());
    }
}

/// As many tags as can be counted, all of them empty; the largest map here.
fn most_tags(records: &mut Records) {
    let empty = [0; u16::MAX as usize];
    let map = Header { poi_tags: counted(u16::MAX, &empty), ..Header::tiny() }.bytes();
    records.map(&map);
    for k in [0, 255, 32768, u16::MAX - 1, u16::MAX] {
        records.poi_tag(k);
    }
    records.way_tag(0);
    records.cut(map.len() - 6);
    records.cut(map.len() - 5);
    records.cut(map.len() - 1);
}
