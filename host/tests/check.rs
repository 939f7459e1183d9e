//! `mapsforge check` and what it stands on: the verdict by the library's answers, the findings, both as text and as JSON.

mod common;

use common::json::Json;
use common::{
    answer, closed_early, command, complaint, cut, limited, map_bytes, map_path, offset_place,
    one_row, run, shipped, stored, text, tool, with_box, written, SHIPPED,
};
use mapsforge::check::{self, Cause, Fault, Finding, Met, Spot};
use mapsforge::{Kind, Map, Refusal, SubFile};
use std::io::Write;
use std::process::Stdio;
use std::time::{Duration, Instant};

// ---- the library's side

#[derive(Default)]
struct Kept(Vec<Finding>);

impl check::Watch for Kept {
    fn found(&mut self, finding: Finding) {
        self.0.push(finding);
    }
}

/// All findings of a map.
fn findings(bytes: &[u8]) -> Vec<Finding> {
    let map = Map::open(bytes).expect("the map opens");
    let mut kept = Kept::default();
    let sum = check::every_tile(&map, 2, &mut kept);
    assert_eq!(sum.findings, kept.0.len() as u64);
    kept.0
}

/// Sub file and tile of a finding.
fn tile_of(finding: &Finding) -> (usize, usize) {
    (finding.covered.expect("it has a sub file").sub_file, finding.tile.expect("and a tile").number)
}

#[test]
fn the_short_size_is_found_and_nothing_else() {
    for name in SHIPPED {
        let found = findings(&map_bytes(name));
        if name != "short-size.map" {
            assert_eq!(found, [], "{name}");
            continue;
        }
        let [finding] = &found[..] else { panic!("{found:?}") };
        assert_eq!(tile_of(finding), (2, 10));
        assert_eq!(finding.byte, Some(23258));
        let Cause::Size { stored: 0x22, decoded: 0x23, declined } = &finding.cause else {
            panic!("{finding:?}");
        };
        assert_eq!(declined.comes, Met::Way { name: None, tags: vec![] });
        let tags = ["highway=residential", "maxspeed=%b"].map(String::from).to_vec();
        let name = Some("Havnegata".into());
        assert_eq!(declined.due, Met::Way { name, tags: tags.clone() });
        let way = finding.feature.as_ref().expect("it has a feature");
        assert_eq!((way.kind, way.number, way.zooms), (Kind::Way, 9, Some((13, 21))));
        assert_eq!((way.name.as_deref(), &way.tags), (Some("Kirkegata"), &tags));
        let at = way.position.expect("it has a position");
        assert_eq!(format!("{:.6} {:.6}", at.latitude, at.longitude), "62.262883 0.039900");
        assert_eq!(finding.around, way.position);
    }
}

/// The verdict is the library's: where it says that sizes are wrong or a tile does not collect, there is a fault, whatever
/// the walk finds; and each fault has a finding at least.
#[test]
fn the_verdict_is_the_librarys() {
    let mut random = common::Random(11);
    let mut faulty = 0;
    for round in 0..200 {
        let mut bytes = map_bytes(SHIPPED[round % 3]);
        for _ in 0..4 {
            let at = random.next() as usize % bytes.len();
            bytes[at] = random.next() as u8;
        }
        let Ok(map) = Map::open(&bytes) else { continue };
        for sub_file in map.sub_files().flatten() {
            if sub_file.tile_count().is_ok_and(|count| count <= 100) {
                for place in sub_file.tiles().unwrap() {
                    let report = check::tile(&sub_file, place);
                    let collected = sub_file.collect(place.number);
                    let inexact = collected.as_ref().is_ok_and(|tile| !tile.exact());
                    assert_eq!(report.faults.contains(&Fault::Sizes), inexact);
                    let refused = collected.as_ref().err().map(|refusal| Fault::Refused(*refusal));
                    assert!(refused.is_none_or(|fault| report.faults == [fault]));
                    let findings = check::explain(&sub_file, &report);
                    assert!(findings.len() >= report.faults.len());
                    faulty += report.faults.len();
                }
            }
        }
    }
    assert!(faulty > 50, "{faulty}");
}

#[test]
fn the_place_of_a_refusal_is_named() {
    let whole = map_bytes("islands.map");
    let at = |tile| Map::open(&whole).unwrap().sub_file(2).unwrap().entry(tile).unwrap().place;
    let refused = |finding: &Finding| match finding.cause {
        Cause::Refused { refusal, spot } => (tile_of(finding), refusal, spot, finding.byte),
        _ => panic!("{finding:?}"),
    };

    // Cut in the last tile: its last way, which starts at the same place whole or cut.
    let found = findings(&whole[..whole.len() - 1]);
    assert_eq!(found[0].cause, Cause::FileSize { stored: 29815, actual: 29814 });
    let ((2, 11), Refusal::Source, Spot::Way(52), Some(way)) = refused(&found[1]) else {
        panic!("{found:?}");
    };
    assert_eq!(found.len(), 2);
    assert_eq!(way + 1 + u64::from(whole[way as usize]), whole.len() as u64);

    // Cut in the last tile's head.
    let found = findings(&whole[..at(11) as usize + 3]);
    let refusal = Refusal::TileHeadCutOff(at(11) + 3);
    assert_eq!(refused(&found[1]), ((2, 11), refusal, Spot::Head, Some(at(11))));
    let told = format!("refused with 20: the head of tile 11 is cut off at byte {}: ", at(11) + 3);
    assert!(found[1].what().starts_with(&told), "{}", found[1]);

    // Cut behind the header: each sub file's index.
    let end = Map::open(&whole).unwrap().header().end as usize;
    let found = findings(&whole[..end]);
    assert_eq!(found[1].cause, Cause::Index { start: 1852, tiles: 4, room: 0, cut_off: 1852 });
    assert_eq!(found.len(), 4);
    // Asked tile by tile, each one's entry.
    let map = Map::open(&whole[..end]).unwrap();
    let sub_file = map.sub_file(2).unwrap();
    let last = check::tile(&sub_file, sub_file.tile(11).unwrap());
    let [finding] = &check::explain(&sub_file, &last)[..] else { panic!("it is one") };
    let entry = Some(12233 + 5 * 11);
    assert_eq!(refused(finding), ((2, 11), Refusal::IndexCutOff(12288), Spot::Entry, entry));

    // A point with a tag that the header does not have.
    let map = Map::open(&whole).unwrap();
    let tile = map.sub_file(2).unwrap().collect(8).unwrap();
    let id = tile.points().next().unwrap().unwrap().tag_ids[0] as u8;
    let head = at(8) as usize + 19;
    let place = (head..).find(|&k| whole[k] == id && whole[k - 1] & 0xf0 == 0x50).unwrap();
    let mut tagged = whole.clone();
    tagged[place] = 0x7f;
    let found = findings(&tagged);
    let refusal = Refusal::InvalidTagId(0x7f);
    assert_eq!(refused(&found[0]), ((2, 8), refusal, Spot::Point(0), Some(head as u64)));
    assert_eq!(found.len(), 1);
}

/// The place that is told of a cut index is the one by which the library refuses the first entry that is missing.
#[test]
fn the_place_of_a_cut_index_is_named() {
    for (name, signature) in [("islands.map", 0), ("islands-debug.map", 16)] {
        let whole = map_bytes(name);
        let start = Map::open(&whole).unwrap().intervals()[2].start;
        let entries = start + signature;
        for length in entries..entries + 60 {
            let map = Map::open(&whole[..length as usize]).unwrap();
            let room = (length - entries) / 5;
            let cut_off = entries + 5 * room;
            let found = check::map(&map);
            assert_eq!(found[1].cause, Cause::Index { start, tiles: 12, room, cut_off });
            assert_eq!((found.len(), found[1].byte), (2, Some(cut_off)));
            let refused = map.sub_file(2).unwrap().entry(room as usize).unwrap_err();
            assert_eq!(refused, Refusal::IndexCutOff(cut_off));
            let told =
                format!("sub file 2: refused with 19: the index is cut off at byte {cut_off}: ");
            assert!(found[1].to_string().starts_with(&told), "{}", found[1]);
        }
    }
}

/// Each way of a tile in turn gets a wrong size, and just that one is found.
#[test]
fn each_wrong_size_is_found() {
    for (name, signature) in [("islands.map", 0), ("islands-debug.map", 32)] {
        let mut bytes = map_bytes(name);
        let whole = bytes.clone();
        let map = Map::open(&whole).unwrap();
        let sub_file = map.sub_file(2).unwrap();
        let ways = sub_file.collect(10).unwrap().way_count();
        let (offset, head_end) = stored(&whole, offset_place(&sub_file, 10));
        let mut at = head_end + offset;
        for way in 0..ways {
            at += signature;
            let (size, start) = stored(&whole, at);
            // One less for an odd way, one more for an even one, by the number's lowest bits.
            bytes[at] = if way % 2 == 1 { bytes[at] - 1 } else { bytes[at] + 1 };
            let (wrong, end) = stored(&bytes, at);
            assert_eq!((wrong.abs_diff(size), end), (1, start), "the change is small");
            let found = explained(&bytes, 10);
            let [finding] = &found[..] else { panic!("{found:?}") };
            let Cause::Size { stored, decoded, .. } = finding.cause else { panic!("{finding:?}") };
            assert_eq!((stored, decoded), (wrong as u64, size as u64));
            assert_eq!(finding.byte, Some(at as u64));
            let note = finding.feature.as_ref().expect("it has a feature");
            let fetched = sub_file.collect(10).unwrap().way(way).unwrap();
            assert_eq!((note.number, note.name.as_deref()), (way, fetched.name_in("nb")));
            bytes[at] = whole[at];
            at = start + size;
        }
        assert_eq!(at as u64, sub_file.entry(11).unwrap().place);
    }
}

/// Two wrong sizes in one tile are two findings.
#[test]
fn all_wrong_sizes_of_a_tile_are_found() {
    let mut bytes = map_bytes("short-size.map");
    let found = {
        let map = Map::open(&bytes).unwrap();
        let sub_file = map.sub_file(2).unwrap();
        let (offset, head_end) = stored(&bytes, offset_place(&sub_file, 10));
        head_end + offset
    };
    bytes[found] += 1;
    let numbers: Vec<_> =
        explained(&bytes, 10).iter().map(|found| found.feature.as_ref().unwrap().number).collect();
    assert_eq!(numbers, [0, 9]);
}

/// The findings of a tile of sub file 2.
fn explained(bytes: &[u8], tile: usize) -> Vec<Finding> {
    let map = Map::open(bytes).expect("the map opens");
    let sub_file: SubFile<'_, '_> = map.sub_file(2).unwrap();
    check::explain(&sub_file, &check::tile(&sub_file, sub_file.tile(tile).unwrap()))
}

/// A byte between the points and the ways of the last tile, which the offset leads past.
#[test]
fn an_offset_that_leads_elsewhere_is_found() {
    let mut bytes = map_bytes("islands.map");
    let whole = bytes.clone();
    let map = Map::open(&whole).unwrap();
    let place = offset_place(&map.sub_file(2).unwrap(), 11);
    let (offset, head_end) = stored(&whole, place);
    let first_way = head_end + offset;
    bytes[place] += 1;
    bytes.insert(first_way, 0);
    let found = findings(&bytes);
    let (leads_to, points_end) = (first_way as u64 + 1, first_way as u64);
    assert_eq!(found[1].cause, Cause::Offset { leads_to, points_end });
    assert_eq!((found.len(), tile_of(&found[1])), (2, (2, 11)));
    // The tile is the same all the same.
    let changed = Map::open(&bytes).unwrap();
    let names = |map: &Map<'_>| -> Vec<Option<String>> {
        let tile = map.sub_file(2).unwrap().collect(11).unwrap();
        let ways = tile.ways().map(|way| way.unwrap().name);
        ways.collect()
    };
    assert_eq!(names(&changed), names(&map));
}

#[test]
fn an_absurd_grid_is_a_finding() {
    let bytes = with_box(map_bytes("islands.map"), [-90000000, -180000000, 90000000, 180000000]);
    let map = Map::open(&bytes).unwrap();
    let found = check::map(&map);
    assert_eq!(found.len(), 3);
    let (tiles, room) = (1 << 26, (29815 - 12233) / 5);
    let cut_off = 12233 + 5 * room;
    assert_eq!(found[2].cause, Cause::Index { start: 12233, tiles, room, cut_off });
}

/// Whatever the number of threads, the same is found in the same order.
#[test]
fn threads_change_nothing() {
    let mut bytes = map_bytes("islands.map");
    let mut random = common::Random(3);
    for _ in 0..40 {
        let at = 12300 + random.next() as usize % (bytes.len() - 12300);
        bytes[at] ^= 0x15;
    }
    let path = text(&written("threads.map", &bytes));
    let one = answer(&["check", "--all", "--threads", "1", &path], 1);
    assert!(one.lines().count() > 20, "{one}");
    for threads in ["2", "3", "8", "64"] {
        assert_eq!(answer(&["check", "--all", "--threads", threads, &path], 1), one);
    }
    assert_eq!(answer(&["check", "--all", &path], 1), one);
}

// ---- the command

#[test]
fn check_tells_whether_all_is_well() {
    for name in ["islands.map", "islands-debug.map"] {
        let path = shipped(name);
        let counted =
            "20 tiles (none empty) in 3 sub files, 94 points, 408 ways: stream and list agree";
        assert_eq!(answer(&["check", &path], 0), format!("{counted}\nPASS: {path}\n"));
    }
    let path = shipped("short-size.map");
    let checked = answer(&["check", &path], 1);
    let lines: Vec<_> = checked.lines().collect();
    let expected = [
        "1.  way 9 \"Kirkegata\", highway=residential maxspeed=%b, at 62.262883, 0.039900, zoom 13 to 21",
        "    sub file 2, tile 10 (13/4096/2272), byte 23258: its stored size is 34, its decoded length 35: 1 byte too short",
        "    list:  shows the way and all others as they are, for it decodes each",
        "    panel: if it declines this way, it goes on 1 byte too early: next comes a way without tags, where the list has a way \"Havnegata\" (highway=residential maxspeed=%b)",
        "    do:    use the last map that passed; copy or fetch the map again; if the finding stays, ask its maker to write it anew",
        "20 tiles (none empty) in 3 sub files, 94 points, 408 ways: 1 finding",
    ];
    assert_eq!(lines[..6], expected);
    assert_eq!(lines[6..], [format!("DO NOT USE: {path}")]);
    let readme = std::fs::read_to_string(common::repository("README.md")).unwrap();
    let told = checked.replace(&path, "maps/short-size.map");
    assert!(readme.contains(&told), "README shows what check says");
}

/// Tile 10 has the offset of tile 11, and tile 11 that of the sub file's end: both are empty, and nothing else is said.
#[test]
fn tiles_that_are_marked_empty_are_empty() {
    let (start, size) = (12233, 17582u64);
    let mut map = map_bytes("islands.map");
    let entry = |tile: usize| start + 5 * tile..start + 5 * tile + 5;
    map.copy_within(entry(11), entry(10).start);
    let path = text(&written("marked.map", &map));
    let checked = answer(&["check", &path], 0);
    let counted = "20 tiles (1 empty) in 3 sub files, 59 points, 267 ways: stream and list agree\n";
    assert!(checked.starts_with(counted), "{checked}");

    map[entry(11)].copy_from_slice(&size.to_be_bytes()[3..]);
    map.copy_within(entry(11), entry(10).start);
    let path = text(&written("marked-last.map", &map));
    let checked = answer(&["check", &path], 0);
    assert!(checked.starts_with("20 tiles (2 empty) in 3 sub files, 55 points, 214 ways: stream"));
    assert!(answer(&["tiles", &path], 0).ends_with("0        0  empty\n"));
    assert!(answer(&["show", &path, "2:10"], 0).ends_with("0 points, 0 ways\n"));
    let streamed = answer(&["show", &path, "2:11", "--zoom", "14"], 0);
    assert!(streamed.ends_with("end: 0 points, 0 ways\n"), "{streamed}");

    let opened = Map::open(&map).unwrap();
    let tile = opened.sub_file(2).unwrap().collect(10).unwrap();
    assert_eq!((tile.rows(), tile.first_way_offset(), tile.exact()), (&[(0, 0); 9][..], 0, true));
    assert_eq!(tile.fetch(0), Err(Refusal::InvalidFeature));
}

#[test]
fn several_maps_and_folders_are_checked() {
    let folder = std::path::Path::new(env!("CARGO_TARGET_TMPDIR")).join("several");
    let _ = std::fs::remove_dir_all(&folder);
    std::fs::create_dir_all(folder.join("b/c")).unwrap();
    std::fs::create_dir_all(folder.join("none")).unwrap();
    for (name, map) in [("a.map", "islands.map"), ("b/c/b.MAP", "short-size.map")] {
        std::fs::copy(map_path(map), folder.join(name)).unwrap();
    }
    std::fs::write(folder.join("notes.txt"), "no map").unwrap();
    std::os::unix::fs::symlink(&folder, folder.join("b/loop")).unwrap();
    let at = |name: &str| text(&folder.join(name));
    let verdicts = |words: &[&str]| -> (Vec<String>, Option<i32>) {
        let output = run(words);
        let told = String::from_utf8(output.stdout).unwrap();
        let lines = told.lines().filter(|line| line.starts_with(['P', 'D']));
        (lines.map(String::from).collect(), output.status.code())
    };
    let pass = format!("PASS: {}", at("a.map"));
    let fail = format!("DO NOT USE: {}", at("b/c/b.MAP"));
    let whole = verdicts(&["check", &text(&folder)]);
    assert_eq!(whole, (vec![pass.clone(), fail.clone()], Some(1)));
    let (lines, status) = verdicts(&["check", &at("b"), &at("a.map"), &shipped("islands.map")]);
    let islands = format!("PASS: {}", shipped("islands.map"));
    assert_eq!((lines, status), (vec![fail, pass.clone(), islands], Some(1)));
    // What cannot be looked at is told, and the others are checked all the same.
    let (lines, status) = verdicts(&["check", &at("none"), &at("no.map"), &at("a.map")]);
    let unseen = |name: &str| format!("DO NOT USE: {}", at(name));
    assert_eq!((lines, status), (vec![unseen("none"), unseen("no.map"), pass], Some(2)));
    let told = complaint(&["check", &at("none")], 2);
    assert!(told.contains("no file in this folder ends in .map"), "{told}");
}

#[test]
fn a_map_comes_on_standard_input() {
    for (name, status, verdict) in [("islands.map", 0, "PASS"), ("short-size.map", 1, "DO NOT USE")]
    {
        let map = std::fs::File::open(map_path(name)).unwrap();
        let output = command().args(["check", "-"]).stdin(map).output().unwrap();
        assert_eq!(output.status.code(), Some(status));
        let told = String::from_utf8(output.stdout).unwrap();
        assert!(told.ends_with(&format!("{verdict}: -\n")), "{told}");
    }
}

#[test]
fn findings_are_given_as_json() {
    let (islands, short) = (shipped("islands.map"), shipped("short-size.map"));
    let told = answer(&["check", "--json", &islands, &short], 1);
    let document = Json::parse(&told);
    assert_eq!(document.names(), ["format", "version", "status", "maps"]);
    assert_eq!(document.get("format").text(), "mapsforge-check");
    assert_eq!((document.get("version").number(), document.get("status").number()), (1.0, 1.0));
    let [pass, fail] = document.get("maps").list() else { panic!("{told}") };
    assert_eq!((pass.get("map").text(), pass.get("verdict").text()), (&*islands, "PASS"));
    assert_eq!((pass.get("findings").list(), pass.get("empty_tiles").number()), (&[][..], 0.0));
    assert_eq!(fail.get("verdict").text(), "DO NOT USE");
    let numbers = ["sub_files", "tiles", "points", "ways", "finding_count"];
    assert_eq!(numbers.map(|name| fail.get(name).number()), [3.0, 20.0, 94.0, 408.0, 1.0]);
    let [finding] = fail.get("findings").list() else { panic!("{told}") };
    let numbers = ["sub_file", "tile", "tile_zoom", "tile_x", "tile_y", "byte"];
    let expected = [2.0, 10.0, 13.0, 4096.0, 2272.0, 23258.0];
    assert_eq!(numbers.map(|name| finding.get(name).number()), expected);
    assert_eq!((finding.get("kind").text(), finding.get("refusal")), ("stored-size", &Json::Null));
    for text in ["what", "list", "panel", "do"] {
        assert!(!finding.get(text).text().is_empty());
    }
    let way = finding.get("feature");
    assert_eq!((way.get("kind").text(), way.get("name").text()), ("way", "Kirkegata"));
    assert_eq!(way.get("tags").list()[0].text(), "highway=residential");
    assert_eq!(way.get("position").get("latitude").number(), 62.262883);
    assert_eq!((way.get("min_zoom").number(), way.get("max_zoom").number()), (13.0, 21.0));

    // A map that could not be looked at is in the document too.
    let none = text(&written("no-map.map", b"This is no map."));
    let output = run(&["check", "--json", &none]);
    assert_eq!(output.status.code(), Some(2));
    let document = Json::parse(&String::from_utf8(output.stdout).unwrap());
    let [map] = document.get("maps").list() else { panic!("{document:?}") };
    assert_eq!((map.get("checked"), map.get("verdict").text()), (&Json::Bool(false), "DO NOT USE"));
    assert!(map.get("error").text().contains("this is not a Mapsforge map"));
}

/// The names that docs/JSON.md lists are those of the documents.
#[test]
fn the_names_of_json_are_documented() {
    let page =
        std::fs::read_to_string(common::repository("docs/JSON.md")).expect("the page is there");
    fn names(json: &Json, all: &mut Vec<String>) {
        match json {
            Json::Object(fields) => fields.iter().for_each(|(name, value)| {
                all.push(name.clone());
                names(value, all);
            }),
            Json::List(items) => items.iter().for_each(|item| names(item, all)),
            _ => (),
        }
    }
    let mut all = Vec::new();
    // A map with a finding, one with padding, and one that could not be looked at.
    let none = text(&written("undocumented.map", b"This is no map."));
    let mut head = vec![0; 18];
    head.extend([0x80, 0]);
    let padded = text(&written("undocumented-padding.map", &one_row(&[0], &head)));
    let short = shipped("short-size.map");
    let output = run(&["check", "--json", "--padding", &short, &padded, &none]);
    names(&Json::parse(&String::from_utf8(output.stdout).unwrap()), &mut all);
    for name in &all {
        assert!(page.contains(&format!("`{name}`")), "{name} is missing in docs/JSON.md");
    }
    // Nor does the page list a name that is not there.
    let part = page.split("\n## ").find(|part| part.starts_with("`mapsforge check"));
    let rows = part.expect("it tells of check").lines().filter(|line| line.starts_with("| `"));
    let listed: Vec<&str> =
        rows.flat_map(|row| row.split('|').nth(1).unwrap().split('`')).collect();
    let listed = listed.iter().filter(|name| !name.trim_matches([' ', ',']).is_empty());
    assert!(listed.clone().count() > 30);
    for name in listed {
        assert!(all.iter().any(|one| one == name), "docs/JSON.md tells of {name}");
    }
}

#[test]
fn check_stays_quick_on_absurd_maps() {
    let start = Instant::now();
    let world = with_box(map_bytes("islands.map"), [-90000000, -180000000, 90000000, 180000000]);
    let path = text(&written("world.map", &world));
    let checked = answer(&["check", &path], 1);
    assert!(checked.contains("sub file 2: refused with 19: the index is cut off at byte 29813:"));
    assert!(checked.contains(". Its grid has 67108864 tiles, but from its start at byte 12233 on"));
    assert!(checked.contains("list:  shows nothing at zoom 13 to 21\n"));
    assert!(answer(&["tiles", &path], 1).contains(". Its grid has 67108864 tiles, but from"));
    assert!(start.elapsed() < Duration::from_secs(5));
}

/// Cut off behind the index: every finding is told, and the last line is the verdict.
#[test]
fn check_tells_of_heads_that_are_cut_off() {
    let path = cut("head", "islands.map", 12300);
    let checked = answer(&["check", &path], 1);
    let size =
        "1.  the header says that the file has 29815 bytes, but it has 12300: it is cut off\n";
    assert!(checked.starts_with(size), "{checked}");
    // The map ends in tile 0's zoom table, and before tile 1.
    for refused in [
        "sub file 2, tile 0 (13/4094/2270), around 62.298579, -0.065918: refused with 20: the head of tile 0 is cut off at byte 12300: the file is incomplete",
        "sub file 2, tile 1 (13/4095/2270), around 62.298579, -0.021973: refused with 20: the head of tile 1 is cut off at byte 12312: the file is incomplete",
    ] {
        assert!(checked.contains(refused), "{refused:?} is missing in {checked}");
    }
    assert!(checked.ends_with(&format!(": 13 findings\nDO NOT USE: {path}\n")), "{checked}");

    // The signature of tile 0 of the debug map lacks its last byte: all of it is missing.
    let debug = map_bytes("islands-debug.map");
    let map = mapsforge::Map::open(&debug).unwrap();
    let place = map.sub_file(2).unwrap().entry(0).unwrap().place;
    let path = cut("head", "islands-debug.map", place as usize + 31);
    let refused = format!("refused with 20: the head of tile 0 is cut off at byte {place}: ");
    for command in ["check", "tiles"] {
        let told = answer(&[command, &path], 1);
        assert!(told.contains(&refused), "{refused:?} is missing in {told}");
    }
}

/// Cut off in an index: a finding for the sub file, whose tiles are not read.
#[test]
fn check_and_tiles_tell_of_an_index_that_is_cut_off() {
    let path = cut("index", "islands.map", 12250);
    let refused = "sub file 2: refused with 19: the index is cut off at byte 12248: the file is incomplete, or its \
                   header is damaged; copy or fetch the map anew. Its grid has 12 tiles, but from its start at byte \
                   12233 on the map has room for 3 index entries: its tiles are not read\n";
    let checked = answer(&["check", &path], 1);
    assert!(checked.contains(refused), "{checked}");
    let counted = "8 tiles (none empty) in 3 sub files, 16 points, 78 ways: 2 findings\n";
    assert!(checked.contains(counted), "{checked}");
    assert!(answer(&["tiles", &path], 1).ends_with(refused));
}

/// Cut off in a feature: that is 1, at the feature.
#[test]
fn check_tells_a_feature_that_is_cut_off_from_a_head() {
    let checked = answer(&["check", &cut("feature", "islands.map", 20000)], 1);
    for refused in [
        "2.  way 49, zoom 16 to 21\n    sub file 2, tile 6 (13/4096/2271), byte 19999, around",
        ": way 49 is refused with 1: the map ends",
        "refused with 20: the head of tile 7 is cut off at byte 20320: ",
    ] {
        assert!(checked.contains(refused), "{refused:?} is missing in {checked}");
    }
}

#[test]
fn only_the_first_findings_are_shown_unless_all_are_asked_for() {
    // Each tile of a map of one row of 200 is cut off.
    let path = text(&written("many.map", &many_tiles(200)));
    let checked = answer(&["check", &path], 1);
    assert!(checked.contains("\n100."), "{checked}");
    assert!(checked.contains("\n... and 100 more: --all shows them\n"), "{checked}");
    let all = answer(&["check", "--all", &path], 1);
    assert!(all.contains("\n200.") && !all.contains("more: --all"), "{all}");
    let json = Json::parse(&answer(&["check", "--json", &path], 1));
    let map = &json.get("maps").list()[0];
    assert_eq!(map.get("finding_count").number(), 200.0);
    assert_eq!(map.get("findings").list().len(), 100);
}

/// A map of so many tiles in a row, none of which is there.
fn many_tiles(tiles: u64) -> Vec<u8> {
    one_row(&(0..tiles).map(|tile| 1 << 30 | tile).collect::<Vec<_>>(), &[])
}

/// A map of so many copies of tile 10 of a shipped map, of 5955 bytes each.
fn copies(name: &str, tiles: u64) -> Vec<u8> {
    let tile = &map_bytes(name)[21740..27695];
    one_row(&(0..tiles).map(|k| 5955 * k).collect::<Vec<_>>(), &tile.repeat(tiles as usize))
}

/// Whoever closes the pipe has seen enough, but the verdict stays.
#[test]
fn a_closed_pipe_does_not_change_the_verdict() {
    let path = text(&written("many-piped.map", &many_tiles(3000)));
    for words in [&["check"][..], &["check", "--json"], &["check", "--threads", "1"]] {
        let output = closed_early(&[words, &["--all", &path]].concat());
        assert_eq!(String::from_utf8_lossy(&output.stderr), "", "{words:?}");
        assert_eq!(output.status.code(), Some(1), "{words:?}");
    }
    // Closed before anything is written: all that is written comes at the end.
    let child =
        command().args(["check", &shipped("short-size.map")]).stdout(Stdio::piped()).spawn();
    let mut child = child.expect("the command runs");
    drop(child.stdout.take());
    assert_eq!(child.wait().expect("it ends").code(), Some(1));
}

/// Well under a second.
const QUICK: Duration = Duration::from_millis(500);

/// A map of more than a megabyte takes well under a second, with and without findings.
#[test]
fn a_map_of_a_megabyte_is_checked_quickly() {
    for (name, status, ends) in [
        (
            "islands.map",
            0,
            "200 tiles (none empty) in 1 sub file, 7000 points, 28200 ways: stream and list agree",
        ),
        (
            "short-size.map",
            1,
            "200 tiles (none empty) in 1 sub file, 7000 points, 28200 ways: 200 findings",
        ),
    ] {
        let bytes = copies(name, 200);
        assert!(bytes.len() > 1_000_000);
        let path = text(&written(&format!("megabyte-{name}"), &bytes));
        // Other programs may take the processors for a while: the best of a few runs counts.
        let mut best = Duration::MAX;
        for _ in 0..8 {
            let start = Instant::now();
            let checked = answer(&["check", &path], status);
            best = best.min(start.elapsed());
            assert!(checked.contains(ends), "{checked}");
            if best < QUICK {
                break;
            }
        }
        assert!(best < QUICK, "{best:?}");
    }
}

/// A single wrong byte in a large map is found in its tile.
#[test]
fn one_wrong_size_among_many_tiles_is_found() {
    let mut bytes = copies("islands.map", 200);
    let wrong = copies("short-size.map", 200);
    let places: Vec<_> = (0..bytes.len()).filter(|&k| bytes[k] != wrong[k]).collect();
    assert_eq!(places.len(), 200);
    bytes[places[137]] = wrong[places[137]];
    let found = findings(&bytes);
    let [finding] = &found[..] else { panic!("{found:?}") };
    assert_eq!((tile_of(finding), finding.byte), ((0, 137), Some(places[137] as u64)));
}

/// A bar shows how far it has come, on a terminal only, and is gone at the end.
#[test]
fn a_bar_is_drawn_on_a_terminal() {
    let test = "a_bar_is_drawn_on_a_terminal";
    // It gives a program a terminal of its own.
    let Some(script) = tool(&["script"], test) else { return };
    let path = text(&written("bar.map", &copies("islands.map", 1200)));
    let on_terminal = |words: &str| {
        let command =
            format!("{} check --threads 1 {path} {words}", env!("CARGO_BIN_EXE_mapsforge"));
        let mut terminal = std::process::Command::new(&script);
        terminal.args(["--quiet", "--return", "--command", &command, "/dev/null"]);
        let output = limited(&mut terminal, Duration::from_secs(60));
        assert_eq!(output.status.code(), Some(0));
        String::from_utf8(output.stdout).unwrap()
    };
    let told = on_terminal("");
    let (bar, cleared) = ("\r[", "\r\u{1b}[K");
    assert!(told.contains(bar) && told.contains(" of 1200 tiles"), "{told:?}");
    let (_, end) = told.rsplit_once(cleared).expect("the bar is taken away");
    assert!(end.contains("1200 tiles (none empty)") && !end.contains(bar), "{end:?}");
    // The answer may go elsewhere; where complaints go elsewhere, there is no bar.
    assert!(on_terminal(">/dev/null").contains(bar));
    assert!(!on_terminal("2>/dev/null").contains(bar));
    let output = run(&["check", &path]);
    assert_eq!(output.stderr, b"");
}

#[test]
fn a_full_disk_is_told_by_check() {
    let mut full = std::fs::OpenOptions::new().write(true).open("/dev/full").expect("Linux has it");
    assert!(full.write(b"x").is_err());
    let output = command().args(["check", &shipped("islands.map")]).stdout(full).output().unwrap();
    assert_eq!(output.status.code(), Some(2));
    assert!(String::from_utf8_lossy(&output.stderr).contains("cannot write: no space left"));
}
