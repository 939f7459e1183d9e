//! `mapsforge svg`: what it draws, what it names, and what it says where list and panel part.

mod common;

use common::{
    answer, complaint, map_bytes, replaced, repository, run, shipped, text, tool, written, xml,
};
use mapsforge::{latitude_of_row, Map};

/// The standard output and the complaints of a run that should end with this status.
fn drawn(words: &[&str], status: i32) -> (String, String) {
    let output = run(words);
    let told = String::from_utf8(output.stderr).expect("complaints are UTF-8");
    assert_eq!(output.status.code(), Some(status), "{words:?}: {told}");
    let svg = String::from_utf8(output.stdout).expect("drawings are UTF-8");
    assert!(svg.starts_with("<svg ") && svg.ends_with("</svg>\n"), "{words:?}");
    (svg, told)
}

/// The words in a drawing, each line of text one.
fn words(svg: &str) -> Vec<String> {
    xml::texts(svg, "text")
}

/// How often a name stands in a drawing.
fn times(svg: &str, name: &str) -> usize {
    words(svg).iter().filter(|word| *word == name).count()
}

fn has(svg: &str, name: &str) -> bool {
    words(svg).iter().any(|word| word == name)
}

#[test]
fn a_tile_is_drawn() {
    let map = shipped("islands.map");
    let svg = answer(&["svg", &map, "2:10"], 0);
    assert!(svg.starts_with("<svg ") && svg.ends_with("</svg>\n"));
    assert!(svg.contains("<title>sub file 2, tile 10 (13/4096/2272)</title>"));
    assert!(has(&svg, "Havnby"));
    let elements = xml::elements(&svg);
    let badges = elements.iter().filter(|element| {
        element.name == "circle" && element.attributes.contains(&("r".into(), "8.5".into()))
    });
    let marks = svg.matches("<circle").count() - badges.count() + svg.matches("l7 12h-14Z").count();
    assert_eq!(marks, 34);
    let path = text(&written("tile.svg", &[]));
    assert_eq!(answer(&["svg", &map, "2:10", "-o", &path], 0), "");
    assert_eq!(std::fs::read_to_string(&path).unwrap(), svg);
    // Fewer features at a lower zoom.
    assert!(answer(&["svg", &map, "2:10", "--zoom", "13"], 0).len() < svg.len() / 2);
    assert_eq!(answer(&["svg", &map, "2:10", "--as", "list"], 0), svg);
}

/// The drawing in docs/ names all three ramps, and is what README's first command draws, which also gives the verdict.
#[test]
fn the_documented_drawing_names_everything() {
    let shown = std::fs::read_to_string(repository("docs/islands.svg")).unwrap();
    for name in ["Rampe 1", "Rampe 2", "Rampe 3"] {
        assert!(has(&shown, name), "{name} is missing in docs/islands.svg");
    }
    let readme = std::fs::read_to_string(repository("README.md")).unwrap();
    let command = readme.split("```sh\n").nth(1).unwrap().lines().next().unwrap();
    let command = command.split('#').next().unwrap().trim();
    let (check, svg) = command.split_once(" && ").expect("it is two commands");
    let map = shipped("islands.map");
    let word = |word: &str| match word {
        "./mapsforge" => String::new(),
        "maps/islands.map" => map.clone(),
        other => other.to_string(),
    };
    let words = |line: &str| -> Vec<String> {
        line.split_whitespace().map(word).filter(|word| !word.is_empty()).collect()
    };
    let run_words = |line: &[String]| -> String {
        answer(&line.iter().map(String::as_str).collect::<Vec<_>>(), 0)
    };
    let verdict = run_words(&words(check));
    assert!(verdict.ends_with(&format!("\nPASS: {map}\n")), "{verdict}");
    let told = verdict.replace(&map, "maps/islands.map");
    assert!(readme.contains(&told), "README shows what check says");
    let svg = words(svg);
    let [options @ .., output, file] = &svg[..] else { panic!("{svg:?}") };
    assert_eq!(output, "-o");
    assert!(readme.contains("](docs/islands.svg)") && file.ends_with(".svg"));
    assert_eq!(run_words(options), shown, "docs/islands.svg is what README's first command draws");
}

/// Every name of a feature that is in the picture stands in it or in its legend.
#[test]
fn no_name_is_left_out() {
    let bytes = map_bytes("islands.map");
    let map = Map::open(&bytes).unwrap();
    let mut names = 0;
    for sub_file in map.sub_files().map(Result::unwrap) {
        let zoom = sub_file.interval().base_zoom;
        for place in sub_file.tiles().unwrap() {
            let target = format!("{}:{}", sub_file.number(), place.number);
            let svg = answer(&["svg", &shipped("islands.map"), &target], 0);
            // A long name of the legend goes on in the next line.
            let all: String = words(&svg).iter().map(|word| format!("{} ", word.trim())).collect();
            let corner = sub_file.corner(place).unwrap();
            let south = latitude_of_row(place.y as u32 + 1, zoom).unwrap();
            let east = corner.longitude + 360.0 / f64::from(1u32 << zoom);
            for feature in sub_file.placed(place, 21).unwrap() {
                let feature = feature.unwrap();
                let inside = feature.nodes().any(|at| {
                    (south..corner.latitude).contains(&at.latitude)
                        && (corner.longitude..east).contains(&at.longitude)
                });
                if let Some(name) = feature.shown_name().filter(|_| inside) {
                    assert!(all.contains(name), "{name:?} is missing in tile {target}: {all}");
                    names += 1;
                }
            }
        }
    }
    assert!(names > 150, "{names}");
}

/// A name that finds no room at its feature is moved, and names do not lie over each other.
#[test]
fn what_finds_no_room_is_moved() {
    let svg = answer(&["svg", &shipped("islands.map"), "2:10"], 0);
    // The area's name is larger, and no longer takes the place of the point's.
    for name in ["Havnby havn", "Rampe 1", "Rampe 2", "Rampe 3", "Venterommet", "Brygge B"] {
        assert!(has(&svg, name), "{name}");
    }
    let mut boxes: Vec<(String, [f64; 4])> = Vec::new();
    for element in xml::elements(&svg) {
        let value = |name: &str| -> Option<f64> {
            element.attributes.iter().find(|(key, _)| key == name)?.1.parse().ok()
        };
        // Names along lines are turned, and have no x; numbers and the legend have no size of their own.
        let (Some(x), Some(y), Some(size)) = (value("x"), value("y"), value("font-size")) else {
            continue;
        };
        if element.name == "text" && !element.attributes.iter().any(|(key, _)| key == "xml:space") {
            let half = element.text.chars().count() as f64 * 0.6 * size / 2.0;
            boxes.push((element.text, [x - half, y - size * 0.9, x + half, y + size * 0.2]));
        }
    }
    assert!(boxes.len() > 25, "{boxes:?}");
    for (k, (name, one)) in boxes.iter().enumerate() {
        for (other_name, other) in &boxes[..k] {
            let apart = one[2] <= other[0]
                || other[2] <= one[0]
                || one[3] <= other[1]
                || other[3] <= one[1];
            assert!(apart, "{name} lies over {other_name}");
        }
    }
}

#[test]
fn what_must_be_shown_is_shown_or_told() {
    let map = shipped("islands.map");
    drawn(&["svg", &map, "2:10", "--must-show", "amenity=ferry_terminal"], 0);
    drawn(&["svg", &map, "2:10", "--must-show", "amenity=ferry_terminal,leisure=slipway"], 0);
    // Trees have no names.
    let (_, told) = drawn(&["svg", &map, "2:10", "--must-show", "natural=tree"], 1);
    assert_eq!(told.matches("no label for point").count(), 8, "{told}");
    assert!(told.contains("(natural=tree) at 62.258068, 0.039748: it has no name"), "{told}");
    // There is none.
    let (_, told) = drawn(&["svg", &map, "2:10", "--must-show", "amenity=casino"], 1);
    assert_eq!(told, "mapsforge: no feature with amenity=casino is in the picture\n");
    // There is one in the map, but not in the picture.
    let (_, told) = drawn(&["svg", &map, "2:0", "--must-show", "amenity=ferry_terminal"], 1);
    assert!(told.contains("no feature with amenity=ferry_terminal is in the picture"));
}

/// A map whose one tile has so many points at one place, each with a name of its own.
fn crowd(points: usize) -> Vec<u8> {
    let mut tile = Vec::new();
    let number = |mut value: usize, bytes: &mut Vec<u8>| {
        while value >= 0x80 {
            bytes.push(value as u8 | 0x80);
            value >>= 7;
        }
        bytes.push(value as u8);
    };
    number(points, &mut tile);
    tile.extend([0; 17]);
    let mut stored = Vec::new();
    for point in 0..points {
        // 0.01 degrees down and to the right, in signed numbers: the last byte's 40 is the sign.
        stored.extend([0x90, 0xce, 0x40, 0x90, 0xce, 0x00]);
        // No layer, one tag (natural=tree), a name.
        stored.extend([0x51, 5, 0x80]);
        let name = format!("Number {point:04} of a crowd of trees");
        stored.push(name.len() as u8);
        stored.extend(name.as_bytes());
    }
    number(stored.len(), &mut tile);
    tile.extend(stored);
    let whole = map_bytes("islands.map");
    let end = Map::open(&whole).unwrap().header().end as usize;
    let mut bytes = common::with_box(whole[..end].to_vec(), [0, 0, 9, 9]);
    bytes.truncate(end - 38);
    let place = end - 3 * 19;
    let start = bytes.len() as u64;
    bytes[place - 1] = 1;
    bytes[place..][..3].copy_from_slice(&[13, 13, 21]);
    bytes[place + 3..][..8].copy_from_slice(&start.to_be_bytes());
    // The box at the equator has two rows, of which the second is empty.
    let rows = Map::open(&bytes).unwrap().sub_file(0).unwrap().tile_count().unwrap();
    let size = 5 * rows + tile.len() as u64;
    bytes[place + 11..][..8].copy_from_slice(&size.to_be_bytes());
    for row in 0..rows {
        let offset = if row == 0 { 5 * rows } else { size };
        bytes.extend_from_slice(&offset.to_be_bytes()[3..]);
    }
    bytes.extend(tile);
    bytes
}

/// In a crowd names are moved, then numbered, and where there is no room even for numbers the legend has the names.
#[test]
fn a_crowd_is_numbered_and_listed() {
    let path = text(&written("crowd.map", &crowd(900)));
    let svg = answer(&["svg", &path, "0:0"], 0);
    let all = words(&svg);
    for point in 0..900 {
        let name = format!("Number {point:04} of a crowd of trees");
        let found = all.iter().any(|word| word.trim().contains(&name));
        let wrapped = all.iter().any(|word| word.contains(&name[..20]));
        assert!(found || wrapped, "{name} is missing");
    }
    assert!(all.iter().any(|word| word.starts_with("1  Number")), "{all:?}");
    assert!(svg.contains("(no room"), "{all:?}");
    let (_, told) = drawn(&["svg", &path, "0:0", "--must-show", "natural=tree"], 1);
    assert!(told.contains(": there is no room\n"), "{told}");
    assert!(!told.contains("it has no name"), "{told}");
    // A few find room for their names or for numbers.
    let path = text(&written("few.map", &crowd(30)));
    drawn(&["svg", &path, "0:0", "--must-show", "natural=tree"], 0);
}

/// On the map with the short size the panel that declines roads loses the ramps' ways, and everybody sees it.
#[test]
fn a_declining_stream_is_drawn_as_it_reads() {
    let (islands, short) = (shipped("islands.map"), shipped("short-size.map"));
    // A list reads both maps alike.
    assert_eq!(answer(&["svg", &islands, "2:10"], 0), answer(&["svg", &short, "2:10"], 0));
    // A panel does not.
    let (good, told) = drawn(&["svg", &islands, "2:10", "--as", "panel"], 0);
    assert_eq!(told, "");
    assert!(has(&good, "panel: declines highway, building by stored sizes"));
    assert!(has(&good, "Brygge B") && !has(&good, "Storgata") && !has(&good, "Riksvegen"));
    let (bad, told) = drawn(&["svg", &short, "2:10", "--as", "panel"], 1);
    let refused =
        "tile 13/4096/2272 is refused with 11 at way 10, and nothing more of it is drawn: \
                   a number goes on after nine bytes: the map is damaged there";
    assert_eq!(told, format!("mapsforge: panel: {refused}\n"));
    assert!(!has(&bad, "Brygge B") && has(&bad, "Rampe 2"));
    // What must be shown is counted as the list has it.
    let required = ["--must-show", "leisure=slipway"];
    let (_, told) = drawn(&[&["svg", &short, "2:10", "--as", "panel"][..], &required].concat(), 1);
    assert!(told.contains("panel: no feature with leisure=slipway is in the picture"), "{told}");
    // Nothing of what it declines goes astray here.
    let (well, _) = drawn(&["svg", &short, "2:10", "--as", "panel", "--decline", "building"], 0);
    assert!(has(&well, "Brygge B") && has(&well, "Storgata"));
}

#[test]
fn both_are_drawn_with_what_differs_in_red() {
    let (same, told) = drawn(&["svg", &shipped("islands.map"), "2:10", "--both"], 0);
    assert_eq!(told, "");
    assert!(has(&same, "List and panel show the same, but for the ways that the panel declines."));
    assert!(!same.contains("#d00000"), "nothing is red");
    let heading = "list: every way is decoded. Pale, without names: what the panel declines";
    assert!(has(&same, heading));

    let (svg, told) = drawn(&["svg", &shipped("short-size.map"), "2:10", "--both"], 1);
    let differ =
        "list and panel differ: 16 features only in the list, no feature only on the panel";
    assert!(told.ends_with(&format!("mapsforge: {differ}\n")), "{told}");
    assert!(has(&svg, differ));
    assert!(has(&svg, "panel: declines highway, building by stored sizes. 16 features missing"));
    let lines = words(&svg);
    let missing = "only list: way 19 \"Rampe 2\" (leisure=slipway width=%f) at 62.265446, 0.040366";
    assert!(lines.iter().any(|line| line.trim() == missing), "{lines:?}");
    // Each of the sixteen is drawn in red, two of them areas.
    let red = "stroke=\"#d00000\"";
    assert_eq!(
        svg.lines().filter(|line| line.contains(red) && line.starts_with("<path")).count(),
        16
    );
}

/// A red name stands beside its red line, not on it.
#[test]
fn red_names_are_legible() {
    let place = ["--at", "62.2652,0.0402", "--size", "600", "--both"];
    let (svg, _) = drawn(&[&["svg", &shipped("short-size.map")][..], &place].concat(), 1);
    let elements = xml::elements(&svg);
    let of = |element: &xml::Element, name: &str| -> String {
        let found = element.attributes.iter().find(|(key, _)| key == name);
        found.map(|(_, value)| value.clone()).unwrap_or_default()
    };
    let numbers = |text: &str| -> Vec<f64> {
        let words = text.split(|letter: char| !"-.0123456789".contains(letter));
        words.filter_map(|word| word.parse().ok()).collect()
    };
    let paths = elements.iter().filter(|element| of(element, "stroke") == "#d00000");
    let lines: Vec<Vec<f64>> = paths
        .filter(|path| of(path, "fill") == "none")
        .map(|path| numbers(&of(path, "d")))
        .collect();
    let names = elements.iter().filter(|element| of(element, "fill") == "#c00000");
    let turned: Vec<_> = names.filter(|name| !of(name, "transform").is_empty()).collect();
    assert!(lines.len() > 8 && turned.len() > 5, "{} {}", lines.len(), turned.len());
    for name in turned {
        let at = numbers(&of(name, "transform"));
        for step in lines.iter().flat_map(|line| line.windows(4).step_by(2)) {
            let (right, down) = (step[2] - step[0], step[3] - step[1]);
            let part = ((at[0] - step[0]) * right + (at[1] - step[1]) * down)
                / (right * right + down * down).max(1e-9);
            let part = part.clamp(0.0, 1.0);
            let away = (step[0] + part * right - at[0]).hypot(step[1] + part * down - at[1]);
            assert!(away > 10.0, "{} lies on a line: {away}", name.text);
        }
    }
}

#[test]
fn a_square_around_a_place_is_drawn_over_several_tiles() {
    let map = shipped("islands.map");
    let (svg, _) = drawn(&["svg", &map, "--at", "62.2679,0.0439", "--size", "2000"], 0);
    let title = "2000 metres around 62.267900, 0.043900, zoom 21";
    assert!(svg.contains(&format!("<title>{title}</title>")), "{svg}");
    // Four tiles meet there: the ground of each is drawn.
    let grounds = svg.lines().filter(|line| line.starts_with("<rect x="));
    assert_eq!(grounds.count(), 4);
    // Names of tiles 6, 10 and 11.
    for name in ["Rampe 2", "Fyrgata", "Storgata øst"] {
        assert!(has(&svg, name), "{name} is missing: {:?}", words(&svg));
    }
    // A way that two tiles have is named once.
    let routes = ["--size", "3000", "--must-show", "route=ferry"];
    let (svg, _) = drawn(&[&["svg", &map, "--at", "62.2679,0.0439"][..], &routes].concat(), 0);
    assert_eq!(times(&svg, "Havnby–鷗島"), 1, "{:?}", words(&svg));
    let (small, _) = drawn(&["svg", &map, "--at", "62.2654,0.0403", "--size", "100"], 0);
    assert!(has(&small, "Rampe 2") && !has(&small, "Rampe 3"));
    let (low, _) = drawn(&["svg", &map, "--at", "62.27,0.0", "--size", "9000", "--zoom", "9"], 0);
    assert!(low.contains("zoom 9</title>"));

    let told = |words: &[&str], part: &str| {
        let text = complaint(&[&["svg", &map][..], words].concat(), 2);
        assert!(text.contains(part), "{text:?} does not have {part:?}");
    };
    told(&["--at", "10,10"], "the map has no tile at 10.000000, 10.000000");
    told(&["--at", "62.2679"], "takes LAT,LON behind --at, not \"62.2679\"");
    told(&["--at", "95,0"], "takes LAT,LON behind --at");
    told(&["--at", "62.2679,0.04", "--size", "-5"], "takes a size above 0");
    told(&["--at", "62.2679,0.04", "2:10"], "does not know what to do with \"2:10\"");
    told(&["2:10", "--size", "100"], "takes --size with --at only");
    told(&["--at", "62.2679,0.04", "--zoom", "25"], "no sub file has zoom 25");
    told(&[], "needs a TILE, --at LAT,LON or --window ENDS");
    told(&["2:10", "--as", "boat"], "takes list or panel behind --as, not \"boat\"");
    told(&["2:10", "--as", "list", "--both"], "takes --both or --as, not both");
    told(&["2:10", "--decline", "highway"], "takes --decline with --as panel or --both only");
    told(&["2:10", "--must-show", "=x"], "takes KEY or KEY=VALUE behind --must-show, not \"=x\"");
}

/// A square that is larger than the map shows grey where nothing is known.
#[test]
fn a_large_square_has_a_limit() {
    let map = shipped("islands.map");
    let (svg, _) = drawn(&["svg", &map, "--at", "62.27,0", "--size", "1000000"], 0);
    assert!(svg.contains("fill=\"#dddddd\""));
    let bytes =
        common::with_box(map_bytes("islands.map"), [-90000000, -180000000, 90000000, 180000000]);
    let world = text(&written("wide.map", &bytes));
    let told = complaint(&["svg", &world, "--at", "62.27,0", "--size", "1000000"], 2);
    assert!(told.contains("has more than 1024 tiles at zoom 21"), "{told}");
}

#[test]
fn names_in_a_language() {
    let map = shipped("islands.map");
    let svg = answer(&["svg", &map, "2:10", "--language", "en"], 0);
    assert!(has(&svg, "Harbour Town"));
    assert!(!has(&answer(&["svg", &map, "2:10"], 0), "Harbour Town"));
    assert!(has(&answer(&["svg", &map, "2:10", "--language", "fr"], 0), "Havnby"));
}

#[test]
fn letters_that_turn_the_writing_are_written_out() {
    let bytes = replaced(map_bytes("islands.map"), b"Rampe 2", "Ra\u{202e}e2".as_bytes());
    let bytes = replaced(bytes, b"Rampe 3", b"<R&\x1b\"3>");
    let path = text(&written("turned.map", &bytes));
    let svg = answer(&["svg", &path, "2:10"], 0);
    assert!(has(&svg, "Ra\\u{202e}e2") && has(&svg, "<R&\\u{1b}\"3>"), "{:?}", words(&svg));
    assert!(!svg.contains('\u{202e}') && !svg.contains('\u{1b}'));
}

/// A program that knows SVG reads each drawing.
#[test]
fn drawings_are_xml() {
    let Some(xmllint) = tool(&["xmllint"], "drawings_are_xml") else { return };
    for (k, words) in
        [&["2:10"][..], &["2:10", "--both"], &["--at", "62.2652,0.0402", "--size", "600"]]
            .into_iter()
            .enumerate()
    {
        let path = text(&written(&format!("drawing-{k}.svg"), &[]));
        drawn_to(words, &path);
        let read = std::process::Command::new(&xmllint).args(["--noout", &path]).output().unwrap();
        assert!(read.status.success(), "{}", String::from_utf8_lossy(&read.stderr));
    }
}

fn drawn_to(words: &[&str], path: &str) {
    let output = run(&[&["svg", &shipped("islands.map"), "-o", path][..], words].concat());
    assert!(output.status.success(), "{output:?}");
}
