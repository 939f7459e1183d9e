//! Numbers that are not plain: what each call says of them, and what `mapsforge check --padding` tells.

mod common;

use common::json::Json;
use common::{answer, map_bytes, one_row, run, shipped, text, written, Random, SHIPPED};
use mapsforge::check::{self, Cause, Finding, Padded, Waste};
use mapsforge::{raw, word, Feature, Map, Refusal, Step, Stream, StreamEnd, SubFile};

/// Zooms 13 to 21.
const ROWS: usize = 9;

// ---- tiles by hand

/// A tile's numbers and features by their bytes. A count of a row, and the first-way offset, is what it should be unless other
/// bytes are given.
#[derive(Clone, Default)]
struct Tile {
    points: Vec<Vec<u8>>,
    ways: Vec<Vec<u8>>,
    /// Bytes in place of the number that is the k-th of the head; the last one is the first-way offset.
    other: Option<(usize, Vec<u8>)>,
}

impl Tile {
    /// All features are in the first row.
    fn bytes(&self) -> Vec<u8> {
        let (points, ways) = (self.points.concat(), self.ways.concat());
        let mut head = vec![vec![0]; 2 * ROWS];
        (head[0], head[1]) = (vec![self.points.len() as u8], vec![self.ways.len() as u8]);
        head.push(number(points.len() as u64));
        if let Some((k, bytes)) = &self.other {
            head[*k] = bytes.clone();
        }
        [head.concat(), points, ways].concat()
    }

    fn map(&self) -> Vec<u8> {
        one_row(&[0], &self.bytes())
    }
}

/// An unsigned number in the fewest bytes.
fn number(mut value: u64) -> Vec<u8> {
    let mut bytes = Vec::new();
    while value > 0x7f {
        bytes.push(value as u8 | 0x80);
        value >>= 7;
    }
    bytes.push(value as u8);
    bytes
}

/// A point without tags and texts.
fn point(latitude: &[u8]) -> Vec<u8> {
    [latitude, &[0x05, 0x50, 0x00]].concat()
}

/// A way without tags: its stored size is written like this, its only node has this latitude.
fn way(size: impl Fn(u64) -> Vec<u8>, latitude: &[u8]) -> Vec<u8> {
    let behind = [&[0xff, 0xff, 0x50, 0x00, 0x01, 0x01], latitude, &[0x07]].concat();
    [size(behind.len() as u64), behind].concat()
}

/// A number in a byte more than it needs.
fn padded(value: u64) -> Vec<u8> {
    let mut bytes = number(value);
    *bytes.last_mut().unwrap() |= 0x80;
    bytes.push(0);
    bytes
}

/// Runs on the only tile of a map.
fn on_tile<T>(bytes: &[u8], look: impl FnOnce(SubFile<'_, '_>) -> T) -> T {
    look(Map::open(bytes).expect("it opens").sub_file(0).expect("it has a sub file"))
}

fn next_end(stream: &mut Stream<'_, '_>) -> StreamEnd {
    match stream.next().unwrap() {
        Step::End(end) => end,
        other => panic!("{other:?}"),
    }
}

// ---- what the calls say

/// Signed numbers: which are plain, and how many bytes they waste.
const SIGNED: [(&[u8], bool, u64); 9] = [
    (&[0x00], true, 0),
    (&[0x40], false, 0),
    (&[0x41], true, 0),
    (&[0xc0, 0x00], true, 0),
    (&[0xc0, 0x40], true, 0),
    (&[0xbf, 0x00], false, 1),
    (&[0x81, 0x40], false, 1),
    (&[0x80, 0x00], false, 1),
    (&[0x80, 0x01], true, 0),
];

#[test]
fn coordinates_are_plain_or_not() {
    for (bytes, plain, wasted) in SIGNED {
        let map = Tile { points: vec![point(bytes)], ..Tile::default() }.map();
        on_tile(&map, |sub_file| {
            let tile = sub_file.collect(0).unwrap();
            assert_eq!((tile.plain(), tile.point(0).unwrap().plain), (plain, plain), "{bytes:x?}");
            let mut stream = sub_file.stream(0, 13).unwrap();
            assert!(stream.plain());
            let Step::Point(point) = stream.next().unwrap() else { panic!("it is a point") };
            assert_eq!((point.plain, stream.plain()), (plain, plain));
            // A next of no feature says the same again.
            assert_eq!([(); 2].map(|()| next_end(&mut stream).plain), [plain; 2]);
            assert_eq!(wasted_in(sub_file), if plain { vec![] } else { vec![(0, wasted)] });
        });
        let map = Tile { ways: vec![way(number, bytes)], ..Tile::default() }.map();
        on_tile(&map, |sub_file| {
            let tile = sub_file.collect(0).unwrap();
            let way = tile.way(0).unwrap();
            assert_eq!((tile.plain(), way.plain, way.head_plain), (plain, plain, true));
            assert_eq!(wasted_in(sub_file), if plain { vec![] } else { vec![(0, wasted)] });
        });
    }
}

/// A way's data alone: each count and each coordinate in turn.
#[test]
fn data_of_a_way_alone_are_plain_or_not() {
    // One block of two nodes: its numbers, with one of them in other bytes.
    let with = |other: usize, bytes: &[u8]| -> Vec<u8> {
        let numbers: [&[u8]; 6] = [&[1], &[2], &[5], &[6], &[7], &[0x48]];
        (0..6).flat_map(|k| if k == other { bytes } else { numbers[k] }).copied().collect()
    };
    let said = |data: &[u8]| {
        let [mut measured, mut read] = [[9; word::WAY_DATA_WORDS]; 2];
        assert_eq!(raw::measure_way_data(data, 0, 1, &mut measured), 0, "{data:x?}");
        let ends = [word::WAY_DATA_BLOCKS, word::WAY_DATA_NODES, word::WAY_DATA_END];
        assert_eq!(ends.map(|k| measured[k]), [1, 2, data.len() as u64]);
        for double in [false, true] {
            let (counts, floats) = (&mut [9], [&mut [9.0; 2], &mut [9.0; 2]]);
            let [latitudes, longitudes] = floats;
            let number =
                raw::read_way_data(data, 0, 1, double, counts, latitudes, longitudes, &mut read);
            assert_eq!((number, read), (0, measured));
        }
        measured[word::WAY_DATA_PLAIN]
    };
    assert_eq!(said(&with(6, &[])), 1);
    for (k, value) in [(0, 1), (1, 2)] {
        assert_eq!(said(&with(k, &[0x80 | value, 0])), 0);
        assert_eq!(said(&with(k, &[0x80 | value, 0x80, 0])), 0);
    }
    for (bytes, plain, _) in SIGNED {
        for k in 2..6 {
            assert_eq!(said(&with(k, bytes)), u64::from(plain), "{k}: {bytes:x?}");
        }
    }
    // Nothing is read of no data blocks.
    let mut words = [9; word::WAY_DATA_WORDS];
    assert_eq!(raw::measure_way_data(&[], 0, 0, &mut words), 0);
    assert_eq!(words, [9, 9, 9, 9, 9, 9, 0, 0, 0, 1]);
    // A refused call writes no word of it.
    let refused = &with(5, &[0xc8]);
    let mut words = [9; word::WAY_DATA_WORDS];
    assert_eq!(raw::measure_way_data(refused, 0, 1, &mut words), 1);
    assert_eq!(words, [9; word::WAY_DATA_WORDS]);
}

/// Unsigned numbers where the tile stays readable: 0 and 1 in more bytes, in each number of the head.
#[test]
fn every_number_of_a_head_counts() {
    let plain = Tile { points: vec![point(&[5])], ways: vec![way(number, &[5])], other: None };
    let offset = plain.points.concat().len() as u64;
    for k in 0..=2 * ROWS {
        let value = if k < 2 { 1 } else { [0, offset][k / (2 * ROWS)] };
        for length in 1..=9 {
            let mut bytes = vec![0x80; length];
            (bytes[0], bytes[length - 1]) = (bytes[0] | value as u8, bytes[length - 1] & 0x7f);
            if length == 1 {
                bytes = number(value);
            }
            let map = Tile { other: Some((k, bytes)), ..plain.clone() }.map();
            on_tile(&map, |sub_file| {
                let tile = sub_file.collect(0).unwrap();
                assert_eq!(tile.plain(), length == 1, "number {k} in {length} bytes");
                assert!(tile.point(0).unwrap().plain && tile.way(0).unwrap().plain);
                // Rows above the zoom count too.
                for zoom in [13, 21] {
                    let mut stream = sub_file.stream(0, zoom).unwrap();
                    assert_eq!(stream.plain(), length == 1);
                    let Step::Point(point) = stream.next().unwrap() else { panic!("a point") };
                    let Step::Way(head) = stream.next().unwrap() else { panic!("a way") };
                    assert!(point.plain && head.plain && stream.accept().unwrap().plain);
                    assert_eq!(next_end(&mut stream).plain, length == 1);
                }
                let expected = if length == 1 { vec![] } else { vec![(2, length as u64 - 1)] };
                assert_eq!(wasted_in(sub_file), expected);
            });
        }
    }
}

/// A padded head and a padded body: what head, accept and end say, and that refused calls say nothing.
#[test]
fn a_stream_says_what_it_has_read() {
    for (head_plain, body_plain) in [(true, true), (true, false), (false, true), (false, false)] {
        let size = if head_plain { number } else { padded };
        let latitude: &[u8] = if body_plain { &[0x05] } else { &[0x85, 0x00] };
        let map = Tile { ways: vec![way(size, latitude)], ..Tile::default() }.map();
        on_tile(&map, |sub_file| {
            let plain = head_plain && body_plain;
            let fetched = sub_file.collect(0).unwrap().way(0).unwrap();
            assert_eq!((fetched.plain, fetched.head_plain), (plain, head_plain));
            let mut stream = sub_file.stream(0, 13).unwrap();
            let Step::Way(head) = stream.next().unwrap() else { panic!("it is a way") };
            assert_eq!((head.plain, stream.plain()), (head_plain, head_plain));
            // Refused with 15 and 16: nothing of the body counts.
            let refused = stream.accept_into(&mut [], &mut [], &mut []).unwrap_err();
            assert!(matches!(refused, Refusal::TooShort(_)));
            assert_eq!(stream.next().unwrap_err(), Refusal::OutOfTurn);
            assert_eq!(stream.plain(), head_plain);
            let mut declined = stream.clone();
            declined.decline().unwrap();
            assert_eq!(next_end(&mut declined).plain, head_plain);
            // Accept speaks of the whole way.
            assert_eq!(stream.accept().unwrap().plain, plain);
            assert_eq!(next_end(&mut stream).plain, plain);
        });
    }
}

#[test]
fn an_empty_tile_is_plain() {
    let map = one_row(&[0], &[]);
    on_tile(&map, |sub_file| {
        assert!(sub_file.is_empty(0).unwrap());
        assert!(sub_file.collect(0).unwrap().plain());
        let mut stream = sub_file.stream(0, 13).unwrap();
        assert!(stream.plain() && next_end(&mut stream).plain);
        assert_eq!(wasted_in(sub_file), []);
    });
}

/// The shipped maps are plain, tile for tile and feature for feature.
#[test]
fn the_shipped_maps_are_plain() {
    for name in SHIPPED {
        let bytes = map_bytes(name);
        let map = Map::open(&bytes).unwrap();
        for sub_file in map.sub_files().flatten() {
            for place in sub_file.tiles().unwrap() {
                let tile = sub_file.collect(place.number).unwrap();
                assert!(tile.plain());
                assert!(tile.features().all(|feature| match feature.unwrap() {
                    Feature::Point(point) => point.plain,
                    Feature::Way(way) => way.plain && way.head_plain,
                }));
                assert_eq!(check::padding(&sub_file, place).unwrap(), Default::default());
            }
        }
    }
}

// ---- what is counted

/// What is padded in a tile, as kind (0 a feature, 2 the head) and bytes wasted. The count agrees with the library.
fn wasted_in(sub_file: SubFile<'_, '_>) -> Vec<(u8, u64)> {
    let found = check::padding(&sub_file, sub_file.tile(0).unwrap()).unwrap();
    assert_eq!(found.disagreements, []);
    let of = |one: &Padded| (if one.feature.is_some() { 0 } else { 2 }, one.waste.bytes);
    found.padded.iter().map(of).collect()
}

/// On damaged maps the count agrees with the library too, and both kinds are met.
#[test]
fn the_count_agrees_on_damaged_maps() {
    let mut random = Random(23);
    let [mut plain, mut not] = [0, 0];
    for round in 0..400 {
        let mut bytes = map_bytes(SHIPPED[round % 3]);
        for _ in 0..1 + random.next() % 6 {
            let at = 1000 + random.next() as usize % (bytes.len() - 1000);
            bytes[at] =
                [random.next() as u8, 0x40, 0x80, bytes[at] | 0x80][random.next() as usize % 4];
        }
        let Ok(map) = Map::open(&bytes) else { continue };
        for sub_file in map.sub_files().flatten() {
            for place in sub_file.tiles().unwrap() {
                let Ok(found) = check::padding(&sub_file, place) else { continue };
                assert_eq!(found.disagreements, [], "round {round}");
                let is_plain = sub_file.collect(place.number).unwrap().plain();
                assert_eq!(found.padded.is_empty(), is_plain);
                *(if is_plain { &mut plain } else { &mut not }) += 1;
            }
        }
    }
    assert!(plain > 1000 && not > 100, "{plain} {not}");
}

// ---- the command

/// A tile with a padded head, a padded point, a point that is minus zero, and a way with both parts padded.
fn wasteful() -> Vec<u8> {
    let latitude = &[0x85, 0x80, 0x00];
    let points = vec![point(&[5]), point(&[0x85, 0x00]), point(&[0x40])];
    Tile {
        points,
        ways: vec![way(number, &[5]), way(padded, latitude)],
        other: Some((7, padded(0))),
    }
    .map()
}

#[test]
fn check_tells_what_is_padded() {
    let bytes = wasteful();
    let map = text(&written("wasteful.map", &bytes));
    // Without the option nothing is said of it.
    let told = answer(&["check", &map], 0);
    assert!(!told.contains("padd"), "{told}");
    let told = answer(&["check", "--padding", &map], 0);
    let lines: Vec<&str> = told.lines().collect();
    let [head, point, zero, way, sum, counted, verdict] = lines[..] else { panic!("{told}") };
    let start = "padded: sub file 0, tile 0 (13/4096/4095), byte ";
    let start = start.replace("(13/4096/4095)", &tile_name(&bytes));
    assert!(lines[..4].iter().all(|line| line.starts_with(&start)), "{told}");
    assert!(head.ends_with(": the tile's head: 1 byte of 20 wasted by 1 number"), "{head}");
    assert!(
        point.contains(": point 1, no tags, at ") || point.contains(": point 1, at "),
        "{point}"
    );
    assert!(point.ends_with("zoom 13 to 21: 1 byte of 5 wasted by 1 number"), "{point}");
    assert!(zero.ends_with(": 0 bytes of 4 wasted by 1 number (1 minus zero)"), "{zero}");
    assert!(way.contains(": way 1"), "{way}");
    assert!(way.ends_with(": 3 bytes of 12 wasted by 2 numbers"), "{way}");
    let expected = format!(
        "padding: 5 bytes of {} wasted by 5 numbers (1 minus zero), in 1 of 1 tile: 1 tile head, 2 points, 1 way",
        bytes.len()
    );
    assert_eq!(sum, expected);
    assert!(counted.ends_with("3 points, 2 ways: stream and list agree"), "{counted}");
    assert_eq!(verdict, format!("PASS: {map}"));

    let islands = shipped("islands.map");
    let told = answer(&["check", "--padding", &islands], 0);
    assert!(told.starts_with("padding: no byte is wasted, all numbers of 20 tiles are plain\n"));
}

/// The shipped map whose sizes are padded: as many bytes more than islands.map has as are counted, all in heads of ways, and
/// everything else as there.
#[test]
fn the_padded_map_is_the_shipped_one_but_for_its_bytes() {
    let [padded, good] = ["padded.map", "islands.map"].map(map_bytes);
    let more = padded.len() - good.len();
    let told = answer(&["check", "--padding", &shipped("padded.map")], 0);
    let sum = format!(
        "\npadding: {more} bytes of {} wasted by {more} numbers, in 17 of 20 tiles: 0 tile heads, 0 points, {more} ways\n",
        padded.len()
    );
    assert!(told.contains(&sum), "{told}");
    // README has its first line and its last ones.
    let readme = std::fs::read_to_string(common::repository("README.md")).unwrap();
    let lines: Vec<&str> = told.lines().collect();
    let told = told.replace(&shipped("padded.map"), "maps/padded.map");
    let end: String = told.lines().skip(100).map(|line| format!("{line}\n")).collect();
    assert!(readme.contains(&format!("padded.map\n{}\n...\n{end}", lines[0])), "{end}");

    let [padded, good] = [&padded, &good].map(|bytes| Map::open(bytes).unwrap());
    for sub_file in padded.sub_files().flatten() {
        let other = good.sub_file(sub_file.number()).unwrap();
        for place in sub_file.tiles().unwrap() {
            let [tile, other] = [sub_file, other].map(|one| one.collect(place.number).unwrap());
            assert!(other.plain() && tile.exact());
            assert_eq!(
                (tile.rows(), tile.first_way_offset()),
                (other.rows(), other.first_way_offset())
            );
            let mut plain = true;
            for (one, other) in tile.features().zip(other.features()) {
                let (mut one, other) = (one.unwrap(), other.unwrap());
                if let Feature::Way(way) = &mut one {
                    // The size is all that is padded.
                    assert_eq!(way.plain, way.head_plain);
                    plain &= way.plain;
                    (way.plain, way.head_plain) = (true, true);
                }
                assert_eq!(one, other);
            }
            assert_eq!(tile.plain(), plain);
        }
    }
}

/// The tile's name as other programs have it.
fn tile_name(bytes: &[u8]) -> String {
    on_tile(bytes, |sub_file| {
        let place = sub_file.tile(0).unwrap();
        format!("({}/{}/{})", sub_file.interval().base_zoom, place.x, place.y)
    })
}

#[test]
fn padding_is_given_as_json() {
    let bytes = wasteful();
    let map = text(&written("wasteful-json.map", &bytes));
    let document = Json::parse(&answer(&["check", "--json", &map], 0));
    assert_eq!(document.get("maps").list()[0].get("padding"), &Json::Null);
    let document = Json::parse(&answer(&["check", "--json", "--padding", &map], 0));
    let padding = document.get("maps").list()[0].get("padding");
    let names = [
        "looked_at_tiles",
        "padded_tiles",
        "padded_heads",
        "padded_points",
        "padded_ways",
        "numbers",
        "minus_zeros",
        "wasted_bytes",
        "map_bytes",
    ];
    let numbers = names.map(|name| padding.get(name).number());
    assert_eq!(numbers, [1.0, 1.0, 1.0, 2.0, 1.0, 5.0, 1.0, 5.0, bytes.len() as f64]);
    let padded = padding.get("padded").list();
    assert_eq!(padded.len(), 4);
    assert_eq!(padded[0].get("feature"), &Json::Null);
    let way = &padded[3];
    let numbers = ["size", "numbers", "minus_zeros", "wasted_bytes", "sub_file", "tile"];
    assert_eq!(numbers.map(|name| way.get(name).number()), [12.0, 2.0, 0.0, 3.0, 0.0, 0.0]);
    let feature = way.get("feature");
    assert_eq!((feature.get("kind").text(), feature.get("number").number()), ("way", 1.0));
    // The place is that of the stored size.
    let byte = way.get("byte").number() as usize;
    assert_eq!(bytes[byte..][..2], padded_size());
}

fn padded_size() -> [u8; 2] {
    let way = way(padded, &[0x85, 0x80, 0x00]);
    [way[0], way[1]]
}

/// Tiles that do not collect are findings, and are not counted; a great many lines are cut short.
#[test]
fn padding_beside_findings() {
    let mut bytes = wasteful();
    bytes.truncate(bytes.len() - 1);
    let map = text(&written("wasteful-cut.map", &bytes));
    let told = answer(&["check", "--padding", &map], 1);
    let sum = "padding: no byte is wasted, all numbers of 0 tiles are plain; 1 tile that does not collect is not counted\n";
    assert!(told.contains(sum) && told.ends_with(&format!("DO NOT USE: {map}\n")), "{told}");

    let points = vec![point(&[0x40]); 120];
    let many = text(&written("wasteful-many.map", &Tile { points, ..Tile::default() }.map()));
    let lines = |words: &[&str]| answer(words, 0).matches("padded: sub file").count();
    assert_eq!(lines(&["check", "--padding", &many]), 100);
    assert!(answer(&["check", "--padding", &many], 0).contains("\n... and 20 more that are padded"));
    assert_eq!(lines(&["check", "--padding", "--all", &many]), 120);
    assert_eq!(run(&["info", "--padding", &many]).status.code(), Some(2));
}

/// What would be said if the count did not agree with the library. No map makes it so.
#[test]
fn a_disagreement_would_be_told() {
    let finding = |plain, counted| Finding {
        cause: Cause::Padding { plain, counted },
        covered: None,
        tile: None,
        feature: None,
        around: None,
        byte: None,
    };
    let waste = Waste { numbers: 2, minus_zeros: 0, bytes: 3 };
    for (plain, counted, what) in [
        (
            true,
            Some(waste),
            "the library says that all numbers are plain, but 2 are counted that are not",
        ),
        (
            false,
            Some(Waste::default()),
            "the library says that a number is not plain, but 0 are counted that are not",
        ),
        (true, None, "the library says that all numbers are plain, but they cannot be counted so"),
    ] {
        let finding = finding(plain, counted);
        assert_eq!((finding.kind(), &*finding.what()), ("padding", what));
        assert!(finding.remedy().contains("tell who maintains the reader"));
    }
}

/// Several threads tell the same, in the same order.
#[test]
fn threads_find_the_same_padding() {
    #[derive(Default)]
    struct Kept(Vec<Padded>, Vec<Finding>);
    impl check::Watch for Kept {
        fn found(&mut self, finding: Finding) {
            self.1.push(finding);
        }
        fn wanted_padding(&self) -> Option<u64> {
            Some(u64::MAX)
        }
        fn padded(&mut self, padded: Padded) {
            self.0.push(padded);
        }
    }
    let content = Tile { points: vec![point(&[0x80, 0x40])], ..Tile::default() }.bytes();
    let offsets: Vec<u64> = (0..100).map(|k| k * content.len() as u64).collect();
    let bytes = one_row(&offsets, &content.repeat(100));
    let map = Map::open(&bytes).unwrap();
    let [one, four] = [1, 4].map(|threads| {
        let mut kept = Kept::default();
        let sum = check::every_tile(&map, threads, &mut kept);
        assert_eq!((sum.padding.tiles, sum.padding.points, sum.findings), (100, 100, 0));
        let waste = Waste { numbers: 100, minus_zeros: 100, bytes: 100 };
        assert_eq!(sum.padding.waste, waste);
        assert_eq!(kept.1, []);
        kept.0
    });
    assert_eq!((one.len(), &one), (100, &four));
}
