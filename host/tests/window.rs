//! Windows over several tiles: `Map::window`, `mapsforge window` and `mapsforge svg --window`, against what the windows' own
//! sub tiles say, one by one.

mod common;

use common::{answer, complaint, cut, map_bytes, run, shipped, xml, SHIPPED};
use mapsforge::{raw, Feature, Grid, Kind, Map, MapFile, Refusal, Step, Window};
use std::collections::BTreeMap;

/// Tiles by row and column, each with its mask, from a walk over the sub tiles.
fn walked(grid: Grid, window: Window) -> BTreeMap<(i32, i32), u16> {
    let mut tiles = BTreeMap::new();
    for y in window.top..=window.bottom {
        for x in window.left..=window.right {
            let (column, row) = (x.div_euclid(4) as i32, y.div_euclid(4) as i32);
            let inside = (grid.x_min..=grid.x_max).contains(&column)
                && (grid.y_min..=grid.y_max).contains(&row);
            if inside {
                let cell = 4 * y.rem_euclid(4) + x.rem_euclid(4);
                *tiles.entry((row, column)).or_default() |= 0x8000 >> cell;
            }
        }
    }
    tiles
}

/// Windows around the corners of a grid.
fn around(grid: Grid) -> Vec<Window> {
    let [x_min, y_min, x_max, y_max] = grid.corners().map(|side| 4 * i64::from(side));
    let mut windows = Vec::new();
    for left in [x_min - 5, x_min, x_min + 2, x_max + 3] {
        for top in [y_min - 1, y_min + 3, y_max + 4] {
            for (width, height) in [(0, 0), (1, 6), (7, 2), (30, 30), (-1, 3), (3, -1)] {
                windows.push(Window { left, top, right: left + width, bottom: top + height });
            }
        }
    }
    windows
}

#[test]
fn tiles_are_those_of_the_sub_tiles() {
    for name in SHIPPED {
        let bytes = map_bytes(name);
        let map = Map::open(&bytes).unwrap();
        for zoom in [5, 11, 14] {
            let sub_file = map.sub_file_for_zoom(zoom).unwrap().unwrap();
            for window in around(sub_file.grid()) {
                let known = walked(sub_file.grid(), window);
                let tiles = map.window(window, zoom).unwrap().unwrap();
                assert_eq!(tiles.len(), known.len(), "{window:?}");
                let mut left = known.len();
                for (tile, ((y, x), mask)) in tiles.clone().zip(known) {
                    assert_eq!((tile.place.y, tile.place.x, tile.mask), (y, x, mask));
                    assert_eq!(sub_file.tile_at(x, y), Ok(Some(tile.place)));
                    left -= 1;
                }
                assert_eq!(left, 0);
                assert_eq!(tiles.count(), walked(sub_file.grid(), window).len());
            }
        }
        assert!(map.window(Window { left: 0, top: 0, right: 0, bottom: 0 }, 22).unwrap().is_none());
    }
}

/// Windows that nobody could walk over.
#[test]
fn the_widest_window_takes_no_longer() {
    let bytes = map_bytes("islands.map");
    let map = Map::open(&bytes).unwrap();
    let widest = Window { left: i64::MIN, top: i64::MIN, right: i64::MAX, bottom: i64::MAX };
    let all: Vec<_> = map.window(widest, 14).unwrap().unwrap().collect();
    let known: Vec<_> = map.sub_file(2).unwrap().tiles().unwrap().collect();
    assert_eq!(all.iter().map(|tile| tile.place).collect::<Vec<_>>(), known);
    assert!(all.iter().all(|tile| tile.mask == 0xffff));
    // A grid of 2^31 tiles: the first and the last of them.
    let grid = Grid { x_min: i32::MIN, y_min: 0, x_max: -1, y_max: 0 };
    let sub_file = map.sub_file(2).unwrap().with_grid(grid);
    let mut tiles = sub_file.window(widest, 14).unwrap();
    assert_eq!(tiles.len(), 1 << 31);
    let first = tiles.next().unwrap();
    assert_eq!((first.place.number, first.place.x, first.place.y), (0, i32::MIN, 0));
    assert_eq!(tiles.len(), (1 << 31) - 1);
    let narrow = Window { left: -4, right: -2, ..widest };
    let last = sub_file.window(narrow, 14).unwrap().next().unwrap();
    assert_eq!((last.place.number, last.place.x, last.mask), ((1 << 31) - 1, -1, 0xeeee));
}

#[test]
fn a_bad_grid_is_refused_before_all_else() {
    let bytes = map_bytes("islands.map");
    let map = Map::open(&bytes).unwrap();
    let reversed = Grid { x_min: 5, y_min: 0, x_max: 4, y_max: 0 };
    let sub_file = map.sub_file(2).unwrap().with_grid(reversed);
    for window in [[0, 0, 9, 9], [9, 9, 0, 0]] {
        let [left, top, right, bottom] = window;
        let window = Window { left, top, right, bottom };
        assert_eq!(sub_file.window(window, 14).err(), Some(Refusal::InvalidGrid));
    }
}

/// What comes of a tile: its points, and the ways that touch a touched cell, whether the window decides or the caller.
#[test]
fn ways_without_a_shared_cell_are_declined() {
    let bytes = map_bytes("islands.map");
    let map = Map::open(&bytes).unwrap();
    let (mut some, mut declined) = (0, 0);
    for window in around(map.sub_file(2).unwrap().grid()) {
        for tile in map.window(window, 21).unwrap().unwrap() {
            let whole = tile.sub_file().collect(tile.place.number).unwrap();
            let ways = whole.ways().map(|way| way.unwrap().bitmap & tile.mask != 0);
            let wanted: Vec<_> = ways.enumerate().filter(|(_, shared)| *shared).collect();
            let wanted: Vec<u64> = wanted.into_iter().map(|(number, _)| number as u64).collect();
            let placed: Vec<_> = tile.placed().unwrap().map(Result::unwrap).collect();
            let ways = placed.iter().filter(|feature| feature.kind == Kind::Way);
            assert_eq!(ways.map(|way| way.number).collect::<Vec<_>>(), wanted);
            let points = placed.iter().filter(|feature| feature.kind == Kind::Point);
            assert_eq!(points.count() as u64, whole.point_count());
            some += wanted.len();
            declined += whole.way_count() - wanted.len() as u64;
            let mut stream = tile.stream().unwrap();
            let mut accepted = 0;
            loop {
                match stream.next().unwrap() {
                    Step::Point(_) => (),
                    Step::Way(head) if tile.accepts(&head) => {
                        stream.accept().unwrap();
                        accepted += 1;
                    }
                    Step::Way(_) => stream.decline().unwrap(),
                    Step::End(_) => break,
                }
            }
            assert_eq!(accepted, wanted.len());
        }
    }
    assert!(some > 100 && declined > 100, "{some} {declined}");
}

#[test]
fn a_placed_way_has_its_bitmap() {
    let file = MapFile::open(shipped("islands.map")).unwrap();
    let map = file.map().unwrap();
    let sub_file = map.sub_file(2).unwrap();
    let whole = sub_file.collect(10).unwrap();
    let known: Vec<_> = whole
        .features()
        .map(|feature| match feature.unwrap() {
            Feature::Point(_) => None,
            Feature::Way(way) => Some(way.bitmap),
        })
        .collect();
    let placed = sub_file.placed(sub_file.tile(10).unwrap(), 21).unwrap();
    assert_eq!(placed.map(|feature| feature.unwrap().bitmap).collect::<Vec<_>>(), known);
}

#[test]
fn a_cell_is_shared_if_a_bit_is() {
    for k in 0..16 {
        for other in 0..16 {
            assert_eq!(raw::shares_cell(1 << k, 1 << other), k == other);
            assert!(!raw::shares_cell(!(1 << k), 1 << k));
        }
    }
    for bitmap in (0..=u16::MAX).step_by(7) {
        assert_eq!(raw::shares_cell(bitmap, 0x6c93), bitmap & 0x6c93 != 0);
    }
    assert!(!raw::shares_cell(0, u16::MAX) && !raw::shares_cell(u16::MAX, 0));
}

#[test]
fn a_box_has_its_sub_tiles() {
    let bytes = map_bytes("islands.map");
    let map = Map::open(&bytes).unwrap();
    let whole = Window::of_box(&map.header().bounding_box, 13).unwrap();
    let tiles = map.window(whole, 14).unwrap().unwrap();
    assert_eq!(tiles.len(), 12);
    assert_eq!(Window::of_box(&map.header().bounding_box, 62), Err(Refusal::ZoomTooLarge));
}

// ---- the command

#[test]
fn the_command_lists_tiles_and_cells() {
    let map = shipped("islands.map");
    let told = answer(&["window", &map, "16386", "9087", "16388", "9088", "--zoom", "14"], 0);
    assert!(told.contains(
        "\nwindow: sub tiles of zoom 15, columns 16386 to 16388, rows 9087 to 9088\n4 tiles\n"
    ));
    let rows: Vec<Vec<&str>> =
        told.lines().skip(4).map(|line| line.split_whitespace().collect()).collect();
    let front = |row: &Vec<&str>| row[..8].join(" ");
    assert_eq!(
        rows.iter().map(front).collect::<Vec<_>>(),
        [
            "6 4096 2271 0003 .... .... .... ..##",
            "7 4097 2271 0008 .... .... .... #...",
            "10 4096 2272 3000 ..## .... .... ....",
            "11 4097 2272 8000 #... .... .... ....",
        ]
    );
    // Points, accepted and declined ways: at zoom 14 the tile has 5 points and 34 ways.
    assert_eq!(rows[2][8], "5");
    let ways: Vec<u64> = rows[2][9..].iter().map(|number| number.parse().unwrap()).collect();
    assert_eq!(ways.iter().sum::<u64>(), 34);
    assert!(ways.iter().all(|&number| number > 0), "{ways:?}");
}

#[test]
fn the_commands_document_says_the_same() {
    let map = shipped("islands.map");
    let words = ["window", &map, "16386", "9087", "16388", "9088", "-z", "14", "--json"];
    let told = answer(&words, 0);
    let start = format!(
        "{{\"format\":\"mapsforge-window\",\"version\":1,\"status\":0,\"map\":\"{map}\",\"zoom\":14,\
         \"sub_file\":2,\"tile_zoom\":13,\"left\":16386,\"top\":9087,\"right\":16388,\
         \"bottom\":9088,\"tile_count\":4,\"tiles\":[{{\"tile\":6,\"tile_x\":4096,\"tile_y\":2271,\
         \"mask\":3,\"points\":"
    );
    assert!(told.starts_with(&start), "{told}");
    assert_eq!(told.lines().count(), 1);
    // Each name stands in docs/JSON.md.
    let page = std::fs::read_to_string(common::repository("docs/JSON.md")).unwrap();
    let part = page.split("## `mapsforge window").nth(1).expect("it has its part");
    for name in
        told.split('"').skip(1).step_by(2).filter(|word| told.contains(&format!("\"{word}\":")))
    {
        assert!(part.contains(&format!("`{name}`")), "{name}");
    }
}

#[test]
fn a_window_without_tiles_says_why() {
    let map = shipped("islands.map");
    let told = |ends: [&str; 4]| {
        let words: Vec<&str> = ["window", map.as_str()].into_iter().chain(ends).collect();
        let told = answer(&words, 0);
        told.lines().last().unwrap().to_string()
    };
    assert_eq!(told(["5", "0", "4", "9"]), "no tiles: LEFT is above RIGHT: 5 and 4");
    assert_eq!(told(["0", "-3", "4", "-4"]), "no tiles: TOP is above BOTTOM: -3 and -4");
    assert_eq!(
        told(["-5", "-4", "16375", "9223372036854775807"]),
        "no tiles: sub file 2 has sub tiles in columns 16376 to 16391 and rows 9080 to 9091"
    );
    let all = answer(
        &[
            "window",
            &map,
            "-9223372036854775808",
            "-9223372036854775808",
            "9223372036854775807",
            "9223372036854775807",
        ],
        0,
    );
    assert!(all.contains("\n12 tiles\n"));
}

#[test]
fn mistakes_are_told() {
    let map = shipped("islands.map");
    let told = |words: &[&str]| complaint(&[&["window", &map], words].concat(), 2);
    assert!(told(&["1", "2", "3"]).contains("window needs BOTTOM"));
    assert!(told(&["1", "2", "3", "x"]).contains("takes whole numbers of 64 bits"));
    assert!(told(&["1", "2", "3", "9223372036854775808"]).contains("not \"1 2 3 92"));
    assert!(told(&["1", "2", "3", "4", "5"]).contains("does not know what to do with \"5\""));
    assert!(told(&["1", "2", "3", "4", "-z", "40"]).contains("no sub file has zoom 40"));
    let svg = |words: &[&str]| complaint(&[&["svg", &map], words].concat(), 2);
    assert!(svg(&["--window", "1,2,3"]).contains("takes LEFT,TOP,RIGHT,BOTTOM behind --window"));
    assert!(svg(&["--window", "1,2,3,4", "--at", "62,0"]).contains("takes --at or --window"));
    assert!(svg(&["--window", "1,2,3,4", "--size", "9"]).contains("--size with --at only"));
    assert!(svg(&["--window", "1,2,0,4"]).contains("touches no tile: LEFT is above RIGHT"));
    assert!(svg(&["--window", "1,2,3,4"]).contains("touches no tile: sub file 2 has"));
}

/// A map that ends in tile 10: the tile is refused, the others come.
#[test]
fn a_refused_tile_is_told() {
    let map = cut("window", "islands.map", 23_000);
    let output = run(&["window", &map, "16384", "9084", "16391", "9091"]);
    let told = String::from_utf8(output.stdout).unwrap();
    assert_eq!(output.status.code(), Some(1), "{told}");
    assert!(told.contains("####  refused with 1\n"), "{told}");
    assert!(String::from_utf8(output.stderr).unwrap().contains("refused with 1: "));
    let json = answer(&["window", &map, "16384", "9084", "16391", "9091", "--json"], 1);
    assert!(json.contains("\"points\":null,\"accepted\":null,\"declined\":null,\"refusal\":1}"));
}

// ---- the drawing

fn names(svg: &str) -> Vec<String> {
    xml::texts(svg, "text")
}

#[test]
fn a_window_is_drawn() {
    let map = shipped("islands.map");
    // A square has no frame.
    let square = answer(&["svg", &map, "--window", "16386,9088,16387,9089"], 0);
    assert!(square.contains(
        "<title>window of sub tiles 16386,9088 to 16387,9089 of zoom 15, zoom 21</title>"
    ));
    assert!(!square.contains("stroke-dasharray=\"8 5\""));
    assert!(names(&square).iter().any(|name| name == "Havnegata"));
    let wide = answer(&["svg", &map, "--window", "16386,9087,16389,9089"], 0);
    assert!(wide
        .contains("<rect x=\"0.0\" y=\"128.0\" width=\"1024.0\" height=\"768.0\" fill=\"none\""));
    // Beyond the map there is nothing to show: the picture is of the map's own sub tiles.
    let beyond =
        answer(&["svg", &map, "--window", "-9223372036854775808,0,9223372036854775807,9091"], 0);
    assert!(beyond.contains("<title>window of sub tiles 16376,9080 to 16391,9091 of zoom 15"));
}

/// A way is left out whose bitmap shares no cell with the window, by list and panel alike, which then show the same.
#[test]
fn ways_beyond_the_window_are_left_out() {
    let map = shipped("islands.map");
    let paths = |svg: &str| svg.matches("<path").count();
    let one = answer(&["svg", &map, "--window", "16387,9088,16387,9088"], 0);
    let tile = answer(&["svg", &map, "--window", "16384,9088,16387,9091"], 0);
    assert!(paths(&one) < paths(&tile), "{} {}", paths(&one), paths(&tile));
    assert!(paths(&tile) <= paths(&answer(&["svg", &map, "2:10"], 0)));
    let both =
        ["svg", &map, "--window", "16387,9088,16387,9088", "--both", "--decline", "building"];
    assert!(answer(&both, 0).contains("List and panel show the same"));
}
