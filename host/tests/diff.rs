//! `mapsforge diff`: what was added, removed, moved, renamed or retagged, on changed copies of the shipped map.

mod common;

use common::json::Json;
use common::{answer, complaint, cut, map_bytes, replaced, run, shipped, text, written};
use mapsforge::{Map, Position, Step};

const TAGGED: [&str; 2] = ["--tag", "amenity=ferry_terminal"];

/// The place in the map of a point of tile 10 of sub file 2.
fn point_place(bytes: &[u8], number: u64) -> usize {
    let map = Map::open(bytes).unwrap();
    let mut stream = map.sub_file(2).unwrap().stream(10, 21).unwrap();
    for _ in 0..number {
        assert!(matches!(stream.next(), Ok(Step::Point(_))));
    }
    stream.to_come().unwrap().next_point as usize
}

fn compared(name: &str, new: &[u8], words: &[&str], status: i32) -> String {
    let path = text(&written(name, new));
    answer(&[&["diff", &shipped("islands.map"), &path][..], words].concat(), status)
}

#[test]
fn nothing_changed() {
    let map = shipped("islands.map");
    for other in ["islands.map", "short-size.map", "islands-debug.map"] {
        let told = answer(&["diff", &map, &shipped(other)], 0);
        assert_eq!(told, "zoom 21: no change, 408 features\n", "{other}");
    }
    let told = answer(&["diff", &map, &map, "--zoom", "9", "--tag", "natural,highway=primary"], 0);
    assert!(told.starts_with("zoom 9, natural or highway=primary: no change, "), "{told}");
    // Is ramp 2 where it was?
    let told = answer(&[&["diff", &map, &map, "--same"][..], &TAGGED].concat(), 0);
    let same = "same      point \"Rampe 2\" (amenity=ferry_terminal) at 62.265446, 0.040366\n";
    assert!(told.contains(same), "{told}");
}

#[test]
fn a_moved_point_is_told_with_its_metres() {
    let mut bytes = map_bytes("islands.map");
    let at = point_place(&bytes, 3);
    // The second byte of the latitude: 128 microdegrees more, the other way.
    assert!(bytes[at] & 0x80 != 0 && bytes[at + 1] & 0x40 != 0);
    bytes[at + 1] -= 1;
    let told = compared("moved.map", &bytes, &TAGGED, 1);
    let expected = "moved     point \"Rampe 2\" (amenity=ferry_terminal) by 14 m, from 62.265446, \
                    0.040366 to 62.265574, 0.040366\n\
                    zoom 21, amenity=ferry_terminal: 8 features the same, 1 moved, 0 renamed, \
                    0 retagged, 0 removed, 0 added\n";
    assert_eq!(told, expected);
    let here = Position { latitude: 62.265446, longitude: 0.040366 };
    let there = Position { latitude: 62.265574, longitude: 0.040366 };
    assert!((here.metres_to(there) - 14.23).abs() < 0.01, "{}", here.metres_to(there));
}

/// Two ramps whose names are exchanged have both moved, each to where the other was.
#[test]
fn exchanged_names_are_moves() {
    let bytes = replaced(map_bytes("islands.map"), b"Rampe 2", b"Rampe X");
    let bytes = replaced(bytes, b"Rampe 3", b"Rampe 2");
    let bytes = replaced(bytes, b"Rampe X", b"Rampe 3");
    let told = compared("exchanged.map", &bytes, &TAGGED, 1);
    for line in [
        "moved     point \"Rampe 2\" (amenity=ferry_terminal) by 100 m, from 62.265446, 0.040366 to 62.266007, 0.041872\n",
        "moved     point \"Rampe 3\" (amenity=ferry_terminal) by 100 m, from 62.266007, 0.041872 to 62.265446, 0.040366\n",
    ] {
        assert!(told.contains(line), "{told}");
    }
    assert!(
        told.ends_with("7 features the same, 2 moved, 0 renamed, 0 retagged, 0 removed, 0 added\n")
    );
}

#[test]
fn a_renamed_point_is_told() {
    let bytes = replaced(map_bytes("islands.map"), b"Rampe 2", b"Rampe 9");
    let told = compared("renamed.map", &bytes, &TAGGED, 1);
    let line =
        "renamed   point \"Rampe 9\" (amenity=ferry_terminal) at 62.265446, 0.040366, before \
                \"Rampe 2\"\n";
    assert!(told.starts_with(line), "{told}");
    // Without the tag also the way of that name.
    let told = compared("renamed-all.map", &bytes, &[], 1);
    assert!(told.contains("renamed   way \"Rampe 9\" (leisure=slipway width=%f) at "), "{told}");
    assert!(told
        .ends_with("406 features the same, 0 moved, 2 renamed, 0 retagged, 0 removed, 0 added\n"));
}

#[test]
fn a_retagged_point_is_told() {
    let mut bytes = map_bytes("islands.map");
    let at = point_place(&bytes, 3);
    // Latitude and longitude of three bytes each, the layer and the number of tags, then the tag: amenity=ferry_terminal.
    let ends = |from: usize| (from..).find(|&k| bytes[k] & 0x80 == 0).unwrap() + 1;
    let tag = ends(ends(at)) + 1;
    assert_eq!((bytes[tag - 1], bytes[tag]), (0x51, 4));
    bytes[tag] = 18;
    let told = compared("retagged.map", &bytes, &[], 1);
    let line = "retagged  point \"Rampe 2\" (amenity=bench) at 62.265446, 0.040366, before \
                (amenity=ferry_terminal)\n";
    assert!(told.starts_with(line), "{told}");
    // By the tag alone it is gone.
    let told = compared("untagged.map", &bytes, &TAGGED, 1);
    let line = "removed   point \"Rampe 2\" (amenity=ferry_terminal) at 62.265446, 0.040366\n";
    assert!(told.starts_with(line), "{told}");
}

#[test]
fn what_is_removed_and_added_is_told() {
    // Tile 11 is marked empty, by the sub file's end.
    let mut bytes = map_bytes("islands.map");
    bytes[12233 + 55..12233 + 60].copy_from_slice(&17582u64.to_be_bytes()[3..]);
    let told = compared("emptied.map", &bytes, &["--tag", "place,highway=bus_stop"], 1);
    let line =
        "removed   point \"Storgata øst\" (highway=bus_stop operator=%s) at 62.263288, 0.045410\n";
    assert!(told.contains(line), "{told}");
    let path = text(&written("emptied-old.map", &bytes));
    let told = answer(&["diff", &path, &shipped("islands.map"), "--tag", "highway=bus_stop"], 1);
    assert!(told.starts_with("added     point \"Storgata øst\""), "{told}");
    assert!(told.ends_with("0 removed, 1 added\n"), "{told}");
    let told = answer(&["diff", &path, &shipped("islands.map")], 1);
    assert!(told.ends_with(" 57 added\n"), "{told}");
}

#[test]
fn what_cannot_be_read_is_told_with_status_2() {
    let path = cut("diff", "islands.map", 20000);
    let output = run(&["diff", &shipped("islands.map"), &path, "--tag", "amenity"]);
    assert_eq!(output.status.code(), Some(2));
    let told = String::from_utf8(output.stderr).unwrap();
    assert_eq!(told.lines().count(), 6, "{told}");
    assert!(told.contains("cannot read tile 10 of ") && told.contains("refused with 20"), "{told}");
    assert!(String::from_utf8(output.stdout).unwrap().contains("removed   point \"Rampe 2\""));

    let path = cut("diff", "islands.map", 12250);
    let told = complaint(&["diff", &path, &path], 1);
    assert!(told.contains("refused with 19: the index is cut off"), "{told}");
    let told = complaint(&["diff", &path, &path, "--zoom", "30"], 2);
    assert!(told.contains("no sub file for zoom 30"), "{told}");
    let told = complaint(&["diff", &shipped("islands.map")], 2);
    assert!(told.contains("diff needs a NEW map"), "{told}");
}

#[test]
fn changes_are_given_as_json() {
    let bytes = replaced(map_bytes("islands.map"), b"Rampe 2", b"Rampe 9");
    let bytes = replaced(bytes, b"Rampe 3", b"Rampe 4");
    let told = compared("json.map", &bytes, &["--json", "--same", TAGGED[0], TAGGED[1]], 1);
    let document = Json::parse(&told);
    let page = std::fs::read_to_string(common::repository("docs/JSON.md")).unwrap();
    for name in document.names() {
        assert!(page.contains(&format!("`{name}`")), "{name} is missing in docs/JSON.md");
    }
    assert_eq!(document.get("format").text(), "mapsforge-diff");
    assert_eq!((document.get("status").number(), document.get("zoom").number()), (1.0, 21.0));
    assert_eq!(document.get("tags").list()[0].text(), "amenity=ferry_terminal");
    assert_eq!(document.get("same_count").number(), 7.0);
    assert_eq!(document.get("same").list().len(), 7);
    let renamed = document.get("renamed").list();
    assert_eq!(renamed.len(), 2, "{told}");
    let names: Vec<_> = renamed
        .iter()
        .map(|change| (change.get("old").get("name").text(), change.get("new").get("name").text()))
        .collect();
    assert!(names.contains(&("Rampe 2", "Rampe 9")) && names.contains(&("Rampe 3", "Rampe 4")));
    assert_eq!(renamed[0].get("metres").number(), 0.0);
    for name in renamed[0].names().iter().chain(&renamed[0].get("old").names()) {
        assert!(page.contains(&format!("`{name}`")), "{name} is missing in docs/JSON.md");
    }
    for list in ["moved", "retagged", "removed", "added", "unread"] {
        assert_eq!(document.get(list).list(), &[], "{list}");
    }
    // Without --same there is no such list.
    let told = compared("json-less.map", &bytes, &["--json"], 1);
    assert_eq!(Json::parse(&told).get("same"), &Json::Null);
}

/// A way that several tiles have is told once.
#[test]
fn a_way_of_several_tiles_is_told_once() {
    let bytes = replaced(map_bytes("islands.map"), "Riksvegen".as_bytes(), b"Rixvegen!");
    let told = compared("road.map", &bytes, &["--tag", "highway=primary"], 1);
    let lines: Vec<_> = told.lines().filter(|line| line.starts_with("renamed")).collect();
    let mut once = lines.clone();
    once.dedup();
    assert_eq!(lines, once);
    assert!(!lines.is_empty() && told.contains(" 0 removed, 0 added\n"), "{told}");
}
