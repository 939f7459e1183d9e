//! The headers in C and in C++: alone, in examples/list_tile.c, and against the wrapper. They are compiled by `cc` and `c++`.

mod common;

use common::{compile, compiler, map_path, program, repository, Random, C, CPP};
use mapsforge::{latitude_of_row, raw, word, BoundingBox, Grid, MapFile, Step, SubFile, TilePlace};
use std::io::Write;
use std::path::{Path, PathBuf};
use std::process::{Command, Output, Stdio};

const HEADERS: [&str; 2] = ["mapsforge.h", "mapsforge_grid.h"];

/// Each header can be the first that a program includes, and be included again.
#[test]
fn each_header_stands_alone() {
    for language in [C].into_iter().chain(CPP) {
        for header in HEADERS {
            let include = format!("#include \"{header}\"\n");
            let end = if language == C { "c" } else { "cpp" };
            let source = common::written(&format!("alone.{end}"), include.repeat(2).as_bytes());
            let mut command = compiler(language);
            command.arg("-fsyntax-only").arg(source);
            compile(command);
        }
    }
}

// ---- the example

fn list_tile(program: &Path, map: &Path, zoom: u8, latitude: f64, longitude: f64) -> Output {
    let position = [zoom.to_string(), latitude.to_string(), longitude.to_string()];
    Command::new(program).arg(map).args(position).output().expect("the program runs")
}

/// What the example prints of a tile, by the wrapper.
fn names(sub_file: &SubFile<'_, '_>, tile: usize, zoom: u8) -> String {
    let mut stream = sub_file.stream(tile, zoom).unwrap();
    let mut names = String::new();
    loop {
        let (kind, name) = match stream.next().unwrap() {
            Step::Point(point) => ("point", point.name),
            Step::Way(_) => ("way", stream.accept().unwrap().name),
            Step::End(_) => return names,
        };
        let name = name.map(|name| name.to_text());
        if let Some(name) = name {
            names += &format!("{kind} {}\n", name.split('\r').next().unwrap());
        }
    }
}

/// A position well inside a tile.
fn inside(sub_file: &SubFile<'_, '_>, place: TilePlace) -> (f64, f64) {
    let corner = sub_file.corner(place).unwrap();
    let next = sub_file.corner(TilePlace { x: place.x + 1, y: place.y + 1, ..place }).unwrap();
    let middle = |a: f64, b: f64| (a + b) / 2.0;
    (middle(corner.latitude, next.latitude), middle(corner.longitude, next.longitude))
}

#[test]
fn the_example_lists_each_tile_in_c_and_in_cpp() {
    let path = map_path("islands.map");
    let file = MapFile::open(&path).unwrap();
    let map = file.map().unwrap();
    for language in [C].into_iter().chain(CPP) {
        let program = program("examples/list_tile.c", language);
        for sub_file in map.sub_files().map(Result::unwrap) {
            for place in sub_file.tiles().unwrap() {
                let (latitude, longitude) = inside(&sub_file, place);
                let zoom = sub_file.interval().max_zoom;
                let run = list_tile(&program, &path, zoom, latitude, longitude);
                assert!(run.status.success(), "{run:?}");
                let expected = names(&sub_file, place.number, zoom);
                assert_eq!(String::from_utf8_lossy(&run.stdout), expected);
            }
        }
    }
}

#[test]
fn the_example_says_what_is_wrong() {
    let program = program("examples/list_tile.c", ["cc", "-std=c11"]);
    let map = map_path("islands.map");
    let town = list_tile(&program, &map, 13, 62.2656, 0.0407);
    assert!(town.stdout.starts_with(b"point Havnby\n"), "{town:?}");
    // No sub file has the zoom; the grid does not have the position; a file that is no map.
    let wrong = [
        (list_tile(&program, &map, 22, 62.2656, 0.0407), "stream: refused with 8\n"),
        (list_tile(&program, &map, 13, 62.2656, 0.2), "stream: refused with 8\n"),
        (list_tile(&program, &program, 13, 62.2656, 0.0407), "open: refused with 2\n"),
    ];
    for (run, expected) in wrong {
        assert_eq!(run.status.code(), Some(1));
        assert_eq!(String::from_utf8_lossy(&run.stderr), expected);
    }
    let unread = list_tile(&program, Path::new("no such map"), 13, 62.2656, 0.0407);
    assert_eq!(unread.status.code(), Some(2));
}

/// README.md's two lines, but for the place of the library and of the program.
#[test]
fn the_example_is_built_as_the_readme_says() {
    let readme = std::fs::read_to_string(repository("README.md")).unwrap();
    let example = std::fs::read_to_string(repository("examples/list_tile.c")).unwrap();
    let program = PathBuf::from(env!("CARGO_TARGET_TMPDIR")).join("list_tile");
    let command = |start: &str| {
        let line = readme.lines().find(|line| line.starts_with(start)).expect(start);
        let line = line.split('#').next().unwrap().trim_end();
        let words = line.split_whitespace().map(|word| match word {
            "target/staticlib/libmapsforge.a" => common::library(),
            "list_tile" | "./list_tile" => program.clone(),
            other => PathBuf::from(other),
        });
        let words: Vec<_> = words.collect();
        let mut command = Command::new(&words[0]);
        command.args(&words[1..]).current_dir(repository("."));
        (line, command)
    };
    let (line, build) = command("gcc ");
    assert!(example.contains(line));
    compile(build);
    let (_, mut run) = command("./list_tile ");
    let names = String::from_utf8(run.output().unwrap().stdout).unwrap();
    assert!(names.starts_with("point Havnby\npoint Moloen\n"), "{names}");
}

// ---- grids

/// A box, or a grid, at a zoom.
#[derive(Clone, Copy, Debug)]
enum Asked {
    Box([f64; 4], u8),
    Grid([i32; 4], u8),
}

/// Latitudes and longitudes at which something happens.
const EDGES: [f64; 22] = [
    0.0,
    -0.0,
    5e-324,
    45.0,
    -45.0,
    44.99999999999998,
    mapsforge::LATITUDE_LIMIT,
    -mapsforge::LATITUDE_LIMIT,
    85.051_128_779_806_6,
    85.051_128_779_806_58,
    -85.051_128_779_806_58,
    90.0,
    -90.0,
    179.99999999999997,
    180.0,
    -180.0,
    -190.0,
    1e300,
    -1e300,
    f64::INFINITY,
    f64::NEG_INFINITY,
    f64::NAN,
];

/// Boxes of real maps, in microdegrees.
fn box_of_a_map(random: &mut Random) -> [f64; 4] {
    let mut within = |limit: i64| {
        let mut ends =
            [(); 2].map(|_| random.next() as i64 % (limit + 1)).map(|end| end as f64 / 1e6);
        ends.sort_by(f64::total_cmp);
        ends
    };
    let ([south, north], [west, east]) = (within(90_000_000), within(180_000_000));
    [south, west, north, east]
}

/// Boxes that end with a tile, or a last bit beside its edge.
fn box_at_edges(random: &mut Random, zoom: u8) -> [f64; 4] {
    let mut number = || (random.next() % (1 << zoom.min(31))) as u32;
    let longitude = |column: u32| {
        let mut longitude = [0.0];
        assert_eq!(raw::longitude(column, zoom, &mut [0; 6], &mut longitude), 0);
        longitude[0]
    };
    let edges = [
        latitude_of_row(number(), zoom).unwrap(),
        longitude(number()),
        latitude_of_row(number(), zoom).unwrap(),
        longitude(number()),
    ];
    edges.map(|edge| match random.next() % 3 {
        0 => f64::from_bits(edge.to_bits().wrapping_sub(1)),
        1 => f64::from_bits(edge.to_bits() + 1),
        _ => edge,
    })
}

/// Grids that a box may not have.
fn odd_grid(random: &mut Random) -> [i32; 4] {
    [(); 4].map(|_| match random.next() % 5 {
        0 => i32::MIN,
        1 => i32::MAX,
        2 => random.next() as i32,
        _ => (random.next() % 9) as i32 - 4,
    })
}

fn asked() -> Vec<Asked> {
    let mut random = Random(11);
    let mut all = Vec::new();
    for _ in 0..20_000 {
        let zoom = (random.next() % 64) as u8;
        all.push(Asked::Box(box_of_a_map(&mut random), zoom % 22));
        all.push(Asked::Box(box_at_edges(&mut random, zoom), zoom));
        let odd = [(); 4].map(|_| EDGES[random.next() as usize % EDGES.len()]);
        all.push(Asked::Box(odd, (random.next() % 67) as u8));
        all.push(Asked::Grid(odd_grid(&mut random), (random.next() % 67) as u8));
    }
    all.push(Asked::Box([-90.0, -180.0, 90.0, 180.0], 255));
    all.push(Asked::Grid([i32::MIN, i32::MIN, i32::MAX, i32::MAX], 255));
    all
}

/// As tests/grid.c is asked.
fn asked_line(asked: Asked) -> String {
    match asked {
        Asked::Box(degrees, zoom) => {
            let [south, west, north, east] = degrees.map(f64::to_bits);
            format!("box {south:x} {west:x} {north:x} {east:x} {zoom}\n")
        }
        Asked::Grid([x_min, y_min, x_max, y_max], zoom) => {
            format!("grid {x_min} {y_min} {x_max} {y_max} {zoom}\n")
        }
    }
}

/// What it prints of a tile.
fn tile_line(grid: &Grid, zoom: u8, tile: u64) -> String {
    let Some((x, y)) = grid.place_of(tile) else {
        return " | none".into();
    };
    // The library, of a grid that it takes, has the same number.
    let (mut words, interval) = ([0; word::TILE_INDEX_WORDS], [1; word::INTERVAL_WORDS]);
    if raw::tile_index(&interval, grid.corners(), x, y, &mut words) == 0 {
        assert_eq!(words[word::TILE_INDEX_THERE..], [1, tile]);
    }
    let mut longitude = [0.0];
    let refusal = raw::longitude(x as u32, zoom, &mut [0; 6], &mut longitude);
    let latitude = latitude_of_row(y as u32, zoom).unwrap_or(0.0);
    let corner = [latitude, longitude[0]].map(f64::to_bits);
    format!(" | {x} {y} 1 {tile} {refusal} {:x} {:x}", corner[0], corner[1])
}

/// What it prints.
fn line(asked: Asked) -> String {
    let (grid, zoom) = match asked {
        Asked::Grid([x_min, y_min, x_max, y_max], zoom) => {
            (Ok(Grid { x_min, y_min, x_max, y_max }), zoom)
        }
        Asked::Box([south, west, north, east], zoom) => {
            (Grid::of_box(&BoundingBox { south, west, north, east }, zoom), zoom)
        }
    };
    let Ok(grid) = grid else {
        return "refused with 18, 18, 18".into();
    };
    let [x_min, y_min, x_max, y_max] = grid.corners();
    let (columns, rows, tiles) = (grid.columns(), grid.rows(), grid.tiles());
    let mut line = format!("{x_min} {y_min} {x_max} {y_max} {columns} {rows} {tiles}");
    for tile in [0, tiles / 3, tiles.wrapping_sub(1), tiles] {
        line += &tile_line(&grid, zoom, tile);
    }
    line + " | 0000"
}

/// The C header's grids are the wrapper's, bit for bit.
#[test]
fn grids_are_the_wrappers() {
    let asked = asked();
    let input: String = asked.iter().copied().map(asked_line).collect();
    let program = program("host/tests/grid.c", C);
    let mut run =
        Command::new(program).stdin(Stdio::piped()).stdout(Stdio::piped()).spawn().unwrap();
    let mut stdin = run.stdin.take().unwrap();
    // In a thread of its own, since both pipes may fill.
    let writer = std::thread::spawn(move || stdin.write_all(input.as_bytes()));
    let output = run.wait_with_output().unwrap();
    writer.join().unwrap().unwrap();
    assert!(output.status.success());

    let output = String::from_utf8(output.stdout).unwrap();
    assert_eq!(output.lines().count(), asked.len());
    let (mut refused, mut places) = (0, 0);
    for (printed, asked) in output.lines().zip(asked) {
        assert_eq!(printed, line(asked), "{asked:?}");
        refused += usize::from(printed.starts_with("refused"));
        places += printed.matches(" 1 ").count();
    }
    assert!(refused > 500 && places > 100_000, "{refused} {places}");
}

// ---- stack

/// The stack that mapsforge.h says a call takes at most.
fn stack_limit(function: &str) -> usize {
    match function.trim_start_matches("mapsforge_") {
        "check_rules" => 12 * 1024,
        "fetch" => 8 * 1024,
        _ => 4 * 1024,
    }
}

#[test]
fn calls_keep_to_their_stack() {
    let program = program("host/tests/stack.c", C);
    for map in common::SHIPPED {
        // It first makes all calls in a thread of MAPSFORGE_STACK bytes.
        let run = Command::new(&program).arg(map_path(map)).output().expect("the program runs");
        assert!(run.status.success(), "{run:?}");
        let measured = String::from_utf8(run.stdout).unwrap();
        assert_eq!(measured.lines().count(), 26);
        for line in measured.lines() {
            let (function, bytes) = line.split_once(' ').unwrap();
            let bytes: usize = bytes.parse().unwrap();
            assert!(bytes <= stack_limit(function), "{line}");
            // A third of it is left for the thread's own start, and for the C library.
            assert!(bytes <= word::STACK / 3 * 2, "{line}");
        }
    }
}
