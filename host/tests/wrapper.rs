//! The wrapper on the shipped maps and on changed ones.

mod common;

use common::{
    interval_place, map_bytes, map_path, offset_place, one_row, repository, stored, with_box,
    written, SHIPPED,
};
use mapsforge::check;
use mapsforge::{
    raw, row_of_latitude, word, BoundingBox, Feature, Grid, InlineKind, Lengths, Map, MapFile,
    Name, Refusal, Step, SubFile,
};
use std::f64::consts::PI;
use std::io::{ErrorKind, Read};

// ---- what maps/islands.txt says

/// The words of a line of `key number` pairs, as numbers by key.
fn after<'a>(line: &'a str, key: &str) -> &'a str {
    let rest = line.split(key).nth(1).unwrap_or_else(|| panic!("no {key:?} in {line:?}"));
    rest.trim_start().split([' ', ',', ':']).next().unwrap_or("")
}

fn number(line: &str, key: &str) -> i64 {
    after(line, key).parse().unwrap_or_else(|_| panic!("no number behind {key:?} in {line:?}"))
}

#[test]
fn the_maps_are_as_their_summary_says() {
    let summary = std::fs::read_to_string(repository("maps/islands.txt")).unwrap();
    let mut name = "";
    let mut sub_file = 0;
    let mut tiles = 0;
    for line in summary.lines() {
        if let Some((file, _)) = line.split_once(".map: ") {
            name = SHIPPED.iter().find(|known| known.trim_end_matches(".map") == file).unwrap();
            let bytes = map_bytes(name);
            let map = Map::open(&bytes).unwrap();
            assert_eq!(bytes.len() as i64, number(line, "map:"));
            assert_eq!(map.header().file_size as usize, bytes.len());
            assert_eq!(map.point_tags().len() as i64, number(line, "bytes,"));
            assert_eq!(map.way_tags().len() as i64, number(line, "points,"));
        } else if line.starts_with("  sub file ") {
            sub_file = number(line, "sub file") as usize;
            let bytes = map_bytes(name);
            sub_file_is(&Map::open(&bytes).unwrap(), sub_file, line);
        } else if line.trim_start().starts_with(|c: char| c.is_ascii_digit()) {
            let bytes = map_bytes(name);
            tile_is(&Map::open(&bytes).unwrap().sub_file(sub_file).unwrap(), line);
            tiles += 1;
        }
    }
    assert_eq!(tiles, 60);
}

fn sub_file_is(map: &Map<'_>, sub_file: usize, line: &str) {
    let found = map.sub_file(sub_file).unwrap();
    let interval = found.interval();
    assert_eq!(i64::from(interval.base_zoom), number(line, "base"));
    assert_eq!(i64::from(interval.min_zoom), number(line, "zoom"));
    assert_eq!(i64::from(interval.max_zoom), number(line, " to"));
    assert_eq!(interval.start as i64, number(line, "start"));
    assert_eq!(interval.size as i64, number(line, "size"));
    let corners = ["x_min", "y_min", "x_max", "y_max"].map(|key| number(line, key) as i32);
    assert_eq!(found.grid().corners(), corners);
    assert_eq!(found.tile_count(), Ok(found.grid().tiles()));
}

/// A line of a tile: number, x, y, water, bytes, points+ways, double, and points+ways for each zoom.
fn tile_is(sub_file: &SubFile<'_, '_>, line: &str) {
    let water = line.contains(" sea ");
    let line = line.replace(" sea ", " ");
    let words: Vec<&str> = line.split_whitespace().collect();
    let pair = |word: &str| {
        let (points, ways) = word.split_once('+').unwrap();
        (points.parse::<u64>().unwrap(), ways.parse::<u64>().unwrap())
    };
    let tile: usize = words[0].parse().unwrap();
    let place = sub_file.tile(tile).unwrap();
    assert_eq!([place.x.to_string(), place.y.to_string()], words[1..3]);
    assert_eq!(sub_file.tile_at(place.x, place.y), Ok(Some(place)));
    assert_eq!(sub_file.entry(tile).unwrap().water, water);
    assert_eq!(sub_file.is_empty(tile), Ok(false));

    let collected = sub_file.collect(tile).unwrap();
    assert_eq!((collected.point_count(), collected.way_count()), pair(words[4]));
    let rows: Vec<_> = words[6..].iter().map(|word| pair(word)).collect();
    assert_eq!(collected.rows(), rows);
    let double = collected.ways().filter(|way| way.as_ref().unwrap().double_delta).count();
    assert_eq!(double.to_string(), words[5]);
    assert_eq!(collected.points().count() as u64, collected.point_count());
    assert_eq!(collected.signature().is_some(), sub_file.map().header().debug());
}

// ---- features

#[test]
fn a_feature_has_its_fields() {
    let bytes = map_bytes("islands.map");
    let map = Map::open(&bytes).unwrap();
    let tile = map.sub_file(2).unwrap().collect(10).unwrap();
    let town = tile.point(0).unwrap();
    assert_eq!(tile.points().next(), Some(Ok(town.clone())));
    assert_eq!(town.name.as_deref(), Some("Havnby\ren\u{8}Harbour Town"));
    assert_eq!((town.elevation, town.layer, town.house_number), (Some(12), 0, None));
    let tags: Vec<_> = town.tags.iter().map(|tag| (&*tag.key, &*tag.value)).collect();
    assert_eq!(tags[..2], [("place", "town"), ("population", "%i")]);
    assert_eq!(tags[2], ("name", "Havnby\ren\u{8}Harbour Town"));
    assert_eq!(town.tag_ids.len(), 2);

    let route = tile.way(11).unwrap();
    assert_eq!(tile.ways().nth(11), Some(Ok(route.clone())));
    assert_eq!(tile.point(35).unwrap_err(), Refusal::InvalidFeature);
    assert_eq!(tile.way(141).unwrap_err(), Refusal::InvalidFeature);
    assert_eq!(tile.way(u64::MAX).unwrap_err(), Refusal::InvalidFeature);
    assert_eq!(route.name.as_deref(), Some("Havnby–Storøya"));
    assert_eq!(route.reference.as_deref(), Some("31"));
    assert_eq!((route.bitmap, route.blocks.len()), (0x1000, 1));
    assert_eq!(route.blocks[0].nodes.len(), 33);
    assert_eq!(route.blocks[0].initial, route.blocks[0].nodes[0]);
    // Document 01's figure: the hash of "ab" is 2777121825.
    let hash = |text: &str| {
        let letters: Vec<u64> = text.chars().map(u64::from).collect();
        letters.iter().enumerate().fold(0u64, |sum, (i, letter)| {
            let power = 31u64.wrapping_pow((letters.len() - i + 1) as u32);
            sum.wrapping_add(*letter).wrapping_mul(power)
        })
    };
    assert_eq!(hash("ab"), 2777121825);
    for tag in &route.tags {
        assert_eq!((tag.key_hash, tag.value_hash), (hash(&tag.key), hash(&tag.value)), "{tag:?}");
    }
}

/// What stream and collected tile have in common, as a text.
fn seen(feature: &Feature<'_>) -> String {
    match feature {
        Feature::Point(point) => format!(
            "{:?} {} {:?} {:?} {:?} {:?}",
            point.offset,
            point.layer,
            point.tag_ids,
            point.name,
            point.house_number,
            point.elevation
        ),
        Feature::Way(way) => {
            let blocks: Vec<_> = way.blocks.iter().map(|block| &block.nodes).collect();
            format!(
                "{} {} {:?}: {:?} {:?} {:?} {:?} {blocks:?}",
                way.bitmap,
                way.layer,
                way.tag_ids,
                way.name,
                way.house_number,
                way.reference,
                way.label
            )
        }
    }
}

/// What a stream delivers, with every `skipped`th way declined (0 for none). A declined way is its head.
fn streamed(sub_file: &SubFile<'_, '_>, tile: usize, zoom: u8, skipped: usize) -> Vec<String> {
    let mut stream = sub_file.stream(tile, zoom).unwrap();
    let mut all = Vec::new();
    let mut ways = 0;
    loop {
        match stream.next().unwrap() {
            Step::Point(point) => all.push(format!(
                "{:?} {} {:?} {:?} {:?} {:?}",
                point.offset,
                point.layer,
                point.tag_ids,
                point.name.map(|name| name.to_text()),
                point.house_number.map(|text| text.to_text()),
                point.elevation
            )),
            Step::Way(head) => {
                ways += 1;
                let start = format!("{} {} {:?}:", head.bitmap, head.layer, head.tag_ids);
                if skipped > 0 && ways % skipped == 0 {
                    stream.decline().unwrap();
                    all.push(start);
                    continue;
                }
                let body = stream.accept().unwrap();
                all.push(format!(
                    "{start} {:?} {:?} {:?} {:?} {:?}",
                    body.name.map(|name| name.to_text()),
                    body.house_number.map(|text| text.to_text()),
                    body.reference.map(|text| text.to_text()),
                    body.label,
                    body.blocks
                ));
            }
            Step::End(end) => {
                assert_eq!(end.sub_file, sub_file.number());
                assert_eq!(end.water, sub_file.entry(tile).unwrap().water);
                return all;
            }
        }
    }
}

#[test]
fn stream_and_collected_tile_agree() {
    for name in ["islands.map", "islands-debug.map"] {
        let bytes = map_bytes(name);
        let map = Map::open(&bytes).unwrap();
        for sub_file in map.sub_files().map(Result::unwrap) {
            for place in sub_file.tiles().unwrap() {
                agrees(&sub_file, place.number);
            }
        }
    }
}

fn agrees(sub_file: &SubFile<'_, '_>, tile: usize) {
    let collected = sub_file.collect(tile).unwrap();
    assert!(collected.exact());
    let points: Vec<_> =
        collected.points().map(|point| seen(&Feature::Point(point.unwrap()))).collect();
    let ways: Vec<_> = collected.ways().map(|way| seen(&Feature::Way(way.unwrap()))).collect();
    let interval = sub_file.interval();
    let (mut p, mut w) = (0, 0);
    for (zoom, row) in (interval.min_zoom..=interval.max_zoom).zip(collected.rows()) {
        (p, w) = (p + row.0 as usize, w + row.1 as usize);
        for skipped in [0, 1, 3] {
            let expected: Vec<_> = points[..p]
                .iter()
                .cloned()
                .chain(ways[..w].iter().enumerate().map(|(k, way)| {
                    let declined = skipped > 0 && (k + 1) % skipped == 0;
                    let head = way.split_inclusive("]:").next().unwrap();
                    if declined {
                        head.to_string()
                    } else {
                        way.clone()
                    }
                }))
                .collect();
            assert_eq!(streamed(sub_file, tile, zoom, skipped), expected);
        }
    }
    // The zoom is clamped into the interval.
    assert_eq!(streamed(sub_file, tile, 255, 0).len(), points.len() + ways.len());
}

#[test]
fn a_short_size_leads_a_stream_astray() {
    let bytes = map_bytes("short-size.map");
    let map = Map::open(&bytes).unwrap();
    let sub_file = map.sub_file(2).unwrap();
    let tile = sub_file.collect(10).unwrap();
    assert!(!tile.exact());
    let whole = map_bytes("islands.map");
    let right = Map::open(&whole).unwrap();
    // Accepted, the way is passed by its nodes; declined, by its size.
    let all = streamed(&right.sub_file(2).unwrap(), 10, 21, 0);
    assert_eq!(streamed(&sub_file, 10, 21, 0), all);
    // From the next way on each head comes one late: behind one that is not in the map.
    let declined = streamed(&right.sub_file(2).unwrap(), 10, 21, 1);
    let astray = streamed(&sub_file, 10, 21, 1);
    let way_10 = 35 + 10;
    assert_eq!(astray[..way_10], declined[..way_10]);
    assert_eq!(astray[way_10], "9233 -5 []:");
    assert_eq!(astray[way_10 + 1..], declined[way_10..declined.len() - 1]);
}

#[test]
fn calls_take_turns() {
    let bytes = map_bytes("islands.map");
    let map = Map::open(&bytes).unwrap();
    let mut stream = map.sub_file(2).unwrap().stream(9, 13).unwrap();
    assert_eq!(stream.accept().unwrap_err(), Refusal::OutOfTurn);
    assert_eq!(stream.decline(), Err(Refusal::OutOfTurn));
    assert!(matches!(stream.next(), Ok(Step::Way(_))));
    assert_eq!(stream.next().unwrap_err(), Refusal::OutOfTurn);
    let state = *stream.state();

    // Lists too short: the lengths, and nothing has changed.
    let needed = stream.accept_into(&mut [], &mut [], &mut []).unwrap_err();
    let Refusal::TooShort(Lengths { lists: [blocks, nodes, again, 0, 0], buffer: 0 }) = needed
    else {
        panic!("{needed:?}");
    };
    assert_eq!(nodes, again);
    assert_eq!(needed.values(), [blocks, nodes, nodes, 0, 0, 0]);
    let mut counts = vec![7; blocks as usize];
    let (mut latitudes, mut longitudes) =
        (vec![9.0; nodes as usize], vec![9.0; nodes as usize - 1]);
    let short = stream.accept_into(&mut counts, &mut latitudes, &mut longitudes);
    assert_eq!(short.unwrap_err(), needed);
    assert!(counts.iter().all(|&count| count == 7) && latitudes.iter().all(|&x| x == 9.0));
    assert_eq!(*stream.state(), state);

    // One entry more than needed keeps its value.
    longitudes.resize(nodes as usize + 1, 9.0);
    let body = stream.accept_into(&mut counts, &mut latitudes, &mut longitudes).unwrap();
    assert_eq!(body.blocks, (blocks as usize, nodes as usize));
    assert_eq!(longitudes.last(), Some(&9.0));
    assert!(latitudes.iter().all(|&x| x != 9.0));
    assert_eq!(raw::stream_decline(&mut stream.state().clone(), &mut [0; 6]), 16);
}

/// A skip by words, of a map cut off there: its number, and the state behind it.
fn skipped(map: &Map, bytes: &[u8], state: &[u64; 8]) -> (u64, [u64; 8]) {
    let (mut state, mut words) = (*state, [7; 22]);
    let (signs, place, ids) = (&mut [7; 2], &mut [7.0; 2], &mut [7; 15]);
    let (layout, letters) = (map.layout(), map.letters());
    let number =
        raw::stream_skip(bytes, layout, letters, &mut state, &mut words, signs, place, ids);
    if number != 0 {
        assert_eq!((words, *signs, *place, *ids), ([7; 22], [7; 2], [7.0; 2], [7; 15]));
    }
    (number, state)
}

#[test]
fn a_skip_is_a_decline_and_a_next() {
    let bytes = map_bytes("islands.map");
    let map = Map::open(&bytes).unwrap();
    let sub_file = map.sub_file(2).unwrap();
    let (mut skips, mut cut) = (0, 0);
    for tile in 0..sub_file.tile_count().unwrap() as usize {
        let mut stream = sub_file.stream(tile, 21).unwrap();
        assert_eq!(stream.skip().unwrap_err(), Refusal::OutOfTurn);
        let mut step = stream.next().unwrap();
        while !matches!(step, Step::End(_)) {
            if !stream.waits() {
                step = stream.next().unwrap();
                continue;
            }
            // The next way's head lies behind a cut there: the skip is refused, and the way still waits.
            let past = stream.past().unwrap() as usize;
            let at_last = stream.state()[word::WAITING_WAYS] == 0;
            let refused = skipped(&map, &bytes[..past], stream.state());
            assert_eq!(refused.0, u64::from(!at_last));
            if !at_last {
                assert_eq!(refused.1, *stream.state());
                cut += 1;
            }

            let mut other = stream.clone();
            other.decline().unwrap();
            let next = other.next().unwrap();
            step = stream.skip().unwrap();
            assert_eq!(format!("{step:?}"), format!("{next:?}"));
            assert_eq!(stream.state(), other.state());
            skips += 1;
        }
    }
    assert!(skips > cut && cut > 0, "{skips} {cut}");
}

// ---- refusals

#[test]
fn each_refusal_has_its_number_and_a_sentence() {
    let mut sentences = std::collections::HashSet::new();
    for number in 1..=21 {
        let refusal = Refusal::check(number, &[2, 3, 4, 5, 6, 7]).unwrap_err();
        assert_eq!(refusal.number(), number);
        let values = match number {
            3 | 7 | 19 | 20 => [2, 0, 0, 0, 0, 0],
            15 => [2, 3, 4, 5, 6, 7],
            _ => [0; 6],
        };
        assert_eq!(refusal.values(), values);
        assert!(refusal.to_string().len() > 30);
        assert!(sentences.insert(refusal.to_string()));
        // Only one of them is told otherwise of a tile.
        let of_tile = refusal.of_tile(10).to_string();
        assert_eq!(of_tile != refusal.to_string(), number == 20, "{of_tile}");
    }
    assert_eq!(Refusal::check(0, &[1; 6]), Ok(()));
    let told = |refusal: Refusal, start: &str| {
        let text = refusal.of_tile(10).to_string();
        assert!(text.starts_with(start) && text.ends_with("copy or fetch the map anew"), "{text}");
    };
    told(Refusal::IndexCutOff(7), "the index is cut off at byte 7: the file is incomplete");
    told(Refusal::TileHeadCutOff(8), "the head of tile 10 is cut off at byte 8: the file is");
    assert!(Refusal::TileHeadCutOff(8)
        .to_string()
        .starts_with("the tile's head is cut off at byte 8:"));
}

/// islands.map with a change.
fn changed(change: impl FnOnce(&mut Vec<u8>)) -> Vec<u8> {
    let mut bytes = map_bytes("islands.map");
    change(&mut bytes);
    bytes
}

#[test]
fn opening_refuses_damaged_headers() {
    let refused = |bytes: &[u8]| Map::open(bytes).unwrap_err();
    assert_eq!(refused(&[]), Refusal::Source);
    assert_eq!(refused(&[0; 20]), Refusal::InvalidMagic);
    assert_eq!(
        refused(&changed(|map| map[common::VERSION + 3] = 2)),
        Refusal::UnsupportedVersion(2)
    );
    let beyond = with_box(map_bytes("islands.map"), [90000001, 0, 90000001, 0]);
    assert_eq!(refused(&beyond), Refusal::InvalidBoundingBox);
    let empty = changed(|map| map[common::HEADER_SIZE..][..4].fill(0));
    assert_eq!(refused(&empty), Refusal::InvalidHeaderSize);
    // The flag without the signatures.
    assert_eq!(refused(&changed(|map| map[common::FLAGS] |= 0x80)), Refusal::InvalidIndexSignature);
    let bytes = map_bytes("islands.map");
    let end = Map::open(&bytes).unwrap().header().end as usize;
    for length in 20..end {
        assert_eq!(refused(&bytes[..length]), Refusal::Source);
    }
    assert!(Map::open(&bytes[..end]).is_ok());
}

#[test]
fn tiles_refuse_what_is_not_there() {
    let bytes = map_bytes("islands.map");
    let map = Map::open(&bytes).unwrap();
    assert_eq!(map.sub_file(3).unwrap_err(), Refusal::InvalidTileIndex);
    assert!(map.sub_file_for_zoom(22).unwrap().is_none());
    assert_eq!(map.sub_file_for_zoom(12).unwrap().unwrap().number(), 1);
    let sub_file = map.sub_file(2).unwrap();
    assert_eq!(sub_file.collect(12).unwrap_err(), Refusal::InvalidTileIndex);
    assert_eq!(sub_file.stream(12, 0).unwrap_err(), Refusal::InvalidTileIndex);
    assert_eq!(sub_file.tile(12), None);
    assert_eq!(sub_file.tile_at(4098, 2272), Ok(None));
    let reversed = sub_file.with_grid(Grid { x_min: 5, y_min: 0, x_max: 4, y_max: 0 });
    assert_eq!(reversed.tile_count(), Err(Refusal::InvalidGrid));
    assert_eq!(reversed.collect(0).unwrap_err(), Refusal::InvalidGrid);
    let tile = sub_file.collect(0).unwrap();
    assert_eq!(tile.fetch(0).unwrap_err(), Refusal::InvalidFeature);

    let place = interval_place(&bytes, 2);
    let upside = changed(|map| map[place + 1] = 22);
    let refused = Map::open(&upside).unwrap().sub_file(2).unwrap().collect(0).unwrap_err();
    assert_eq!(refused, Refusal::ReversedInterval);
    let deep = changed(|map| map[place] = 64);
    assert_eq!(Map::open(&deep).unwrap().sub_file(2).unwrap_err(), Refusal::ZoomTooLarge);
}

/// A map that is cut off in the entry or the head of a tile, or right behind it: all that reads the tile refuses it alike.
#[test]
fn a_cut_map_is_refused_where_something_is_missing() {
    for (name, signature) in [("islands.map", 0), ("islands-debug.map", 32)] {
        let whole = map_bytes(name);
        let map = Map::open(&whole).unwrap();
        let sub_file = map.sub_file(2).unwrap();
        let entry = sub_file.entry_place(10).unwrap() as usize;
        let head = sub_file.entry(10).unwrap().place as usize;
        let (_, end) = stored(&whole, offset_place(&sub_file, 10));
        let refused = |length: usize, entry: Option<Refusal>, tile: Refusal| {
            assert_eq!(refused_when_cut(&whole, length), (entry, [tile; 2]), "{name} {length}");
        };
        for length in entry..entry + 5 {
            let cut_off = Refusal::IndexCutOff(entry as u64);
            refused(length, Some(cut_off), cut_off);
        }
        // The next entry is read right after the tile's own.
        for length in entry + 5..entry + 10 {
            refused(length, None, Refusal::IndexCutOff(entry as u64 + 5));
        }
        // The tile is not there at all, or the map ends in its signature.
        for length in (entry + 10..head).step_by(7).chain(head..head + signature) {
            refused(length, None, Refusal::TileHeadCutOff(head as u64));
        }
        // A number is read byte by byte.
        for length in head + signature..end {
            refused(length, None, Refusal::TileHeadCutOff(length as u64));
        }
        let map = Map::open(&whole[..end]).unwrap();
        let sub_file = map.sub_file(2).unwrap();
        assert_eq!(sub_file.collect(10).unwrap_err(), Refusal::Source);
        assert_eq!(sub_file.stream(10, 13).unwrap().next().unwrap_err(), Refusal::Source);
    }
}

/// How tile 10 of sub file 2 of a cut map is refused: its entry, if that is, then a stream and collecting.
fn refused_when_cut(whole: &[u8], length: usize) -> (Option<Refusal>, [Refusal; 2]) {
    let map = Map::open(&whole[..length]).unwrap();
    let sub_file = map.sub_file(2).unwrap();
    let (stream, tile) = (sub_file.stream(10, 13), sub_file.collect(10));
    (sub_file.entry(10).err(), [stream.unwrap_err(), tile.unwrap_err()])
}

/// A map of one tile in which the first zoom adds these features, so many points of four bytes and ways of six.
fn crowded(points: u64, ways: u64) -> Vec<u8> {
    let number = |value: u64| -> Vec<u8> {
        let groups =
            (0..).map(|k| value.checked_shr(7 * k).unwrap_or(0)).take_while(|&rest| rest > 0);
        let last = groups.clone().count().saturating_sub(1);
        let bytes = groups.enumerate().map(|(k, rest)| rest as u8 & 0x7f | u8::from(k < last) << 7);
        if value == 0 {
            vec![0]
        } else {
            bytes.collect()
        }
    };
    let points_bytes: Vec<u8> = (0..points).flat_map(|k| [k as u8 & 0x3f, 1, 0x50, 0]).collect();
    // Without nodes; the bitmap tells them apart.
    let ways_bytes = (0..ways).flat_map(|k| [5, (k >> 8) as u8, k as u8, 0x50, 0, 0]);
    let head = [number(points), number(ways), vec![0; 16], number(points_bytes.len() as u64)];
    one_row(&[0], &[head.concat(), points_bytes, ways_bytes.collect()].concat())
}

/// A tile of 240 KB with 60 000 points, and one of as many bytes of ways: each feature is read where it is listed. A reader
/// that walked to each of them would take minutes here; nothing is timed.
#[test]
fn crowded_tiles_are_read_feature_by_feature() {
    for (points, ways) in [(60_000, 0), (0, 40_000), (30_000, 20_000)] {
        let bytes = crowded(points, ways);
        let map = Map::open(&bytes).unwrap();
        let sub_file = map.sub_file(0).unwrap();
        let tile = sub_file.collect(0).unwrap();
        assert_eq!((tile.point_count(), tile.way_count(), tile.exact()), (points, ways, true));
        let places = tile.listed().places;
        assert_eq!(places.len() as u64, points + ways);
        let start = places.first().copied().unwrap();
        let expected =
            (0..points).map(|k| start + 4 * k).chain((0..ways).map(|k| start + 4 * points + 6 * k));
        assert!(places.iter().copied().eq(expected));
        let mut seen = 0;
        for (k, point) in tile.points().enumerate() {
            assert_eq!(point.unwrap().offset.latitude, (k & 0x3f) as f64 / 1e6);
            seen += 1;
        }
        for (k, way) in tile.ways().enumerate() {
            assert_eq!(u64::from(way.unwrap().bitmap), k as u64);
            seen += 1;
        }
        assert_eq!(seen, points + ways);
        assert_eq!(tile.features().count() as u64, points + ways);
    }
}

/// Each feature of a tile, fetched from a map of which nothing else but the header is left.
#[test]
fn a_fetch_reads_its_feature_alone() {
    for name in ["islands.map", "islands-debug.map"] {
        let whole = map_bytes(name);
        let map = Map::open(&whole).unwrap();
        let sub_file = map.sub_file(2).unwrap();
        let (tile, end) = (sub_file.collect(10).unwrap(), map.header().end as usize);
        let places = tile.listed().places;
        for k in 0..places.len() {
            let start = places[k] as usize;
            let next = places.get(k + 1).map_or(whole.len(), |&next| next as usize);
            let mut bytes = vec![0xff; whole.len()];
            bytes[..end].copy_from_slice(&whole[..end]);
            // Between the points and the first way nothing stands in these maps.
            bytes[start..next].copy_from_slice(&whole[start..next]);
            let fetched = fetch_from(&bytes, &map, &tile, k as u64);
            assert_eq!(fetched, fetch_from(&whole, &map, &tile, k as u64), "{name} {k}");
        }
    }
}

/// The words of a feature of the tile, as other bytes in the map's place have it.
fn fetch_from(bytes: &[u8], map: &Map<'_>, tile: &mapsforge::Tile<'_, '_>, k: u64) -> Vec<u64> {
    let (mut counts, mut degrees, mut buffer) = ([7; 100], [[7.0; 1000]; 4], [b'#'; 1000]);
    let [latitudes, longitudes, initial_latitudes, initial_longitudes] = &mut degrees;
    let lists = raw::FetchLists {
        node_counts: &mut counts,
        latitudes,
        longitudes,
        initial_latitudes,
        initial_longitudes,
        buffer: &mut buffer,
    };
    let mut got = raw::FetchWords::default();
    let (layout, starts, letters) = (map.layout(), map.starts(), map.letters());
    let number = raw::fetch(bytes, layout, starts, letters, tile.listed(), k, lists, &mut got);
    assert_eq!(number, 0);
    let floats = degrees.as_flattened().iter().chain(&got.degrees).map(|degree| degree.to_bits());
    let signed = got.signed_words.map(|word| word as u64);
    let words = got.words.into_iter().chain(got.ids).chain(got.tags).chain(signed).chain(counts);
    words.chain(floats).chain(buffer.map(u64::from)).collect()
}

/// A head that counts more features than the map has makes no list of that length, and is refused as it was.
#[test]
fn a_head_may_count_any_number_of_features() {
    let content = |count: &[u8]| [count, &[0; 18], &[1, 1, 0x50, 0]].concat();
    for count in [&[2][..], &[0xff; 8], &[0x80, 0x80, 0x80, 0x80, 0x40]] {
        let count: Vec<u8> =
            if count.len() == 8 { [count, &[0x7f]].concat() } else { count.into() };
        let bytes = one_row(&[0], &content(&count));
        let map = Map::open(&bytes).unwrap();
        assert_eq!(map.sub_file(0).unwrap().collect(0).unwrap_err(), Refusal::Source);
    }
    // More than the list has at first: collecting says how many there are.
    let bytes = crowded(70_000, 1);
    let map = Map::open(&bytes).unwrap();
    let tile = map.sub_file(0).unwrap().collect(0).unwrap();
    assert_eq!(tile.listed().places.len(), 70_001);
    assert_eq!(tile.way(0).unwrap().bitmap, 0);
}

/// The lists that a map keeps are those of its own names, points first.
#[test]
fn a_map_keeps_the_lists_of_its_tags() {
    for name in SHIPPED {
        let bytes = map_bytes(name);
        let map = Map::open(&bytes).unwrap();
        let names: Vec<_> = map.point_tags().iter().chain(map.way_tags().iter()).collect();
        assert_eq!((map.starts().len(), map.letters().len()), (names.len(), names.len()));
        for ((name, &start), &letter) in names.iter().zip(map.starts()).zip(map.letters()) {
            let (size, behind) = common::stored(&bytes, start as usize);
            assert_eq!(&bytes[behind..][..size], name.text.bytes());
            let known = match name.kind {
                Some(InlineKind::Byte) => b'b',
                Some(InlineKind::Short) => b'h',
                Some(InlineKind::Int) => b'i',
                Some(InlineKind::Float) => b'f',
                Some(InlineKind::Text) => b's',
                None => 0,
            };
            assert_eq!(letter, known);
        }
    }
}

#[test]
fn files_are_mapped_or_read() {
    let path = map_path("islands.map");
    let (mapped, read) = (MapFile::open(&path).unwrap(), MapFile::read(&path).unwrap());
    assert_eq!(mapped.bytes(), read.bytes());
    let empty = MapFile::open(written("empty.map", &[])).unwrap();
    assert_eq!(empty.map().unwrap_err(), Refusal::Source);
    let missing = MapFile::open(map_path("no-such.map")).unwrap_err();
    assert_eq!(missing.kind(), ErrorKind::NotFound);
    assert!(MapFile::open(repository("maps")).is_err());
    // Several threads read one map.
    let map = mapped.map().unwrap();
    std::thread::scope(|scope| {
        for sub_file in 0..3 {
            let map = &map;
            scope.spawn(move || map.sub_file(sub_file).unwrap().collect(0).unwrap());
        }
    });
}

// ---- grids

/// The Rust reader's column and row, with its square's edges kept.
fn rust_tile(latitude: f64, longitude: f64, zoom: u8) -> (i32, i32) {
    let n = (1u64 << zoom) as f64;
    let latitude = latitude * PI / 180.0;
    let x = (n * (longitude + 180.0) / 360.0) as i32;
    let y = ((1.0 - (latitude.tan() + 1.0 / latitude.cos()).ln() / PI) / 2.0 * n) as i32;
    (x, y)
}

#[test]
fn grids_are_the_rust_readers() {
    let mut seed = 1u64;
    let mut random = |limit: f64| {
        seed = seed.wrapping_mul(6364136223846793005).wrapping_add(1442695040888963407);
        // As stored: whole microdegrees.
        (((seed >> 11) as f64 / (1u64 << 53) as f64 * 2.0 - 1.0) * limit * 1e6).trunc() / 1e6
    };
    for _ in 0..20_000 {
        let (a, b, c, d) = (random(85.0), random(179.9), random(85.0), random(179.9));
        let covered =
            BoundingBox { south: a.min(c), west: b.min(d), north: a.max(c), east: b.max(d) };
        for zoom in [0, 1, 5, 8, 13, 16, 21] {
            let grid = Grid::of_box(&covered, zoom).unwrap();
            let first = rust_tile(covered.north, covered.west, zoom);
            let last = rust_tile(covered.south, covered.east, zoom);
            assert_eq!(grid.corners(), [first.0, first.1, last.0, last.1], "{covered:?} {zoom}");
        }
    }
}

#[test]
fn grids_end_at_the_edges_of_the_square() {
    let world = BoundingBox { south: -90.0, west: -180.0, north: 90.0, east: 180.0 };
    for zoom in 0..=30 {
        let last = ((1u64 << zoom) - 1) as i32;
        let grid = Grid::of_box(&world, zoom).unwrap();
        assert_eq!(grid.corners(), [0, 0, last, last]);
        // The Rust reader's own grid has a column too many there.
        assert_eq!(i64::from(rust_tile(0.0, 180.0, zoom).0), 1i64 << zoom);
    }
    let east = BoundingBox { south: -0.5, west: 179.0, north: 0.5, east: 180.0 };
    assert_eq!(Grid::of_box(&east, 8).unwrap().corners(), [255, 127, 255, 128]);
    // Beyond what 32 bits hold it ends there.
    for zoom in [31, 32, 63] {
        assert_eq!(Grid::of_box(&world, zoom).unwrap().corners(), [0, 0, i32::MAX, i32::MAX]);
    }
    assert_eq!(Grid::of_box(&world, 64), Err(Refusal::ZoomTooLarge));
    assert_eq!(row_of_latitude(f64::NAN, 3), Ok(0));
    // A map whose box reaches 180 degrees has the columns of its file.
    let bytes = with_box(map_bytes("islands.map"), [-1, 179999999, 1, 180000000]);
    let grid = Map::open(&bytes).unwrap().sub_file(0).unwrap().grid();
    assert_eq!(grid.corners(), [255, 127, 255, 128]);
}

#[test]
fn corners_lead_back_to_their_tiles() {
    let bytes = map_bytes("islands.map");
    let map = Map::open(&bytes).unwrap();
    for sub_file in map.sub_files().map(Result::unwrap) {
        for place in sub_file.tiles().unwrap() {
            let corner = sub_file.corner(place).unwrap();
            let zoom = sub_file.interval().base_zoom;
            let inside = corner.latitude - 1e-6;
            assert_eq!(row_of_latitude(inside, zoom), Ok(place.y));
            assert_eq!(rust_tile(inside, corner.longitude + 1e-6, zoom), (place.x, place.y));
        }
    }
}

// ---- names and places

#[test]
fn names_in_languages() {
    let bytes = map_bytes("islands.map");
    let map = Map::open(&bytes).unwrap();
    let sub_file = map.sub_file(2).unwrap();
    let tile = sub_file.collect(10).unwrap();
    let town = tile.point(0).unwrap();
    assert_eq!(town.name.as_deref(), Some("Havnby\ren\u{8}Harbour Town"));
    for (language, name) in [("en", "Harbour Town"), ("EN-gb", "Harbour Town"), ("nb", "Havnby")] {
        assert_eq!(town.name_in(language), Some(name), "{language}");
    }
    assert_eq!(tile.way(32).unwrap().name_in("ja"), Some("ハウンビー港"));
    assert_eq!(tile.point(8).unwrap().name_in("en"), None);
    let name = Name::new("a\rb\rxx\u{8}c\ryy\u{8}d");
    assert_eq!(
        name.others().collect::<Vec<_>>(),
        [(None, "b"), (Some("xx"), "c"), (Some("yy"), "d")]
    );
    // Streamed, they are the same.
    let mut stream = sub_file.stream(10, 21).unwrap();
    let Ok(Step::Point(point)) = stream.next() else { panic!("the first is a point") };
    assert_eq!(point.name_in("en"), Some("Harbour Town"));
    let way = sub_file.placed(sub_file.tile(10).unwrap(), 21).unwrap().nth(35 + 32).unwrap();
    assert_eq!(way.unwrap().name_in("en"), Some("Havnby Ferry Terminal"));
}

/// A feature at its place is the collected one, its offsets added to the tile's corner.
#[test]
fn placed_features_are_the_collected_ones() {
    for name in SHIPPED {
        let bytes = map_bytes(name);
        let map = Map::open(&bytes).unwrap();
        for sub_file in map.sub_files().map(Result::unwrap) {
            for place in sub_file.tiles().unwrap() {
                let corner = sub_file.corner(place).unwrap();
                let tile = sub_file.collect(place.number).unwrap();
                let placed = sub_file.placed(place, 255).unwrap().map(Result::unwrap);
                let mut count = 0;
                for (feature, collected) in placed.zip(tile.features().map(Result::unwrap)) {
                    count += 1;
                    let (name, lines, label) = match &collected {
                        Feature::Point(point) => (&point.name, vec![vec![point.offset]], None),
                        Feature::Way(way) => {
                            let lines = way.blocks.iter().map(|block| block.nodes.clone());
                            (&way.name, lines.collect(), way.label)
                        }
                    };
                    assert_eq!(feature.name, name.as_deref());
                    let nodes: Vec<Vec<_>> =
                        feature.lines.iter().map(|line| line.nodes.clone()).collect();
                    let expected: Vec<Vec<_>> = lines
                        .iter()
                        .map(|nodes| nodes.iter().map(|&node| corner + node).collect())
                        .collect();
                    assert_eq!(nodes, expected);
                    let label = label.map(|label| corner + (lines[0][0] + label));
                    assert_eq!(feature.label, label);
                }
                assert_eq!(count, tile.point_count() + tile.way_count());
            }
        }
    }
}

/// A map is read from a pipe as far as its header says, and one byte more.
#[test]
fn maps_are_read_from_pipes() {
    let whole = map_bytes("islands.map");
    let read = |bytes: &[u8], most: u64| MapFile::from_reader(bytes, most);
    assert_eq!(read(&whole, 1 << 20).unwrap().bytes(), whole);
    assert_eq!(read(&whole[..100], 1 << 20).unwrap().bytes(), &whole[..100]);
    assert_eq!(read(&[], 1 << 20).unwrap().bytes(), &[]);
    assert_eq!(read(&whole, 1000).unwrap_err().kind(), ErrorKind::FileTooLarge);
    // Something without end behind it.
    let endless = whole.chain(std::io::repeat(7));
    let file = MapFile::from_reader(endless, 1 << 30).unwrap();
    assert!(file.bytes().starts_with(&whole) && file.bytes().len() <= 1 << 16);
    // A large map: copies of itself behind it, and a header that says so.
    let mut large = whole.repeat(10);
    let size = large.len() as u64;
    large[common::FILE_SIZE..][..8].copy_from_slice(&size.to_be_bytes());
    assert_eq!(read(&large, 1 << 30).unwrap().bytes(), large);
    let file = MapFile::from_reader(large.chain(std::io::repeat(7)), 1 << 30).unwrap();
    assert_eq!(file.bytes().len() as u64, size + 1);
    // What is no map is not read on.
    let file = MapFile::from_reader(std::io::repeat(0), 1 << 30).unwrap();
    assert_eq!(file.bytes().len(), 1 << 16);
    // Nor is what is no file opened.
    for path in ["/dev/zero", "/dev"] {
        assert_eq!(MapFile::open(path).unwrap_err().kind(), ErrorKind::InvalidInput);
        assert_eq!(MapFile::read(path).unwrap_err().kind(), ErrorKind::InvalidInput);
    }
}

// ---- damage

/// Whatever a map's bytes are, every call ends, and nothing panics.
#[test]
fn damaged_maps_are_read_without_harm() {
    let mut seed = 7u64;
    for name in ["islands.map", "islands-debug.map"] {
        let whole = map_bytes(name);
        for _ in 0..150 {
            let mut bytes = whole.clone();
            for _ in 0..8 {
                seed = seed.wrapping_mul(6364136223846793005).wrapping_add(1442695040888963407);
                let at = (seed >> 33) as usize % bytes.len();
                bytes[at] = (seed >> 20) as u8;
            }
            let Ok(map) = Map::open(&bytes) else { continue };
            for sub_file in map.sub_files().flatten() {
                if sub_file.tile_count().is_ok_and(|count| count <= 100) {
                    for place in sub_file.tiles().unwrap() {
                        read_all(&sub_file, place);
                    }
                }
            }
        }
    }
}

fn read_all(sub_file: &SubFile<'_, '_>, place: mapsforge::TilePlace) {
    let report = check::tile(sub_file, place);
    let findings = check::explain(sub_file, &report);
    assert!(findings.len() >= report.faults.len());
    for finding in &findings {
        assert!(!finding.to_string().is_empty() && !finding.remedy().is_empty());
        assert!(!finding.collected().is_empty() && !finding.streamed().is_empty());
    }
    let Ok(tile) = sub_file.collect(place.number) else {
        assert!(!report.faults.is_empty());
        return;
    };
    assert!(tile.features().step_by(7).all(|feature| feature.is_ok()));
}
