//! The library's functions as they are, with arguments that no map and no earlier call gave.

mod common;

use common::lent::Layout;
use common::{map_bytes, Random, SHIPPED, VERSION};
use mapsforge::raw::{self, FetchLists, FetchWords, Listed};
use mapsforge::{word, Map};

impl Random {
    /// Mostly a place in the map, sometimes anything.
    fn word(&mut self, map: &[u8]) -> u64 {
        match self.next() % 8 {
            0 => self.next(),
            1 => u64::MAX - self.next() % 4,
            2 | 3 => self.next() % 8,
            _ => self.next() % (map.len() as u64 + 8),
        }
    }
}

/// A value with entries around it that nobody may write.
#[repr(C)]
struct Guarded<T> {
    before: [u64; 8],
    inner: T,
    behind: [u64; 8],
}

const GUARD: [u64; 8] = [0x5a5a_5a5a_5a5a_5a5a; 8];

impl<T> Guarded<T> {
    fn new(inner: T) -> Guarded<T> {
        Guarded { before: GUARD, inner, behind: GUARD }
    }
}

impl<T> Drop for Guarded<T> {
    fn drop(&mut self) {
        if !std::thread::panicking() {
            assert!(self.before == GUARD && self.behind == GUARD, "written beside what was lent");
        }
    }
}

/// The grid of sub file 2 of the shipped maps.
const GRID: [i32; 4] = [4094, 2270, 4097, 2272];

/// A map's layout, and the interval of its sub file 2.
fn opened(map: &[u8]) -> (Layout, [u64; 6]) {
    let map = Map::open(map).unwrap();
    let mut interval = [7; 6];
    assert_eq!(raw::interval(map.bytes(), map.layout(), 2, &mut [7; 6], &mut interval), 0);
    (*map.layout(), interval)
}

/// The lists of a map's tags.
fn listed(map: &[u8]) -> (Vec<u64>, Vec<u8>) {
    let map = Map::open(map).unwrap();
    (map.starts().to_vec(), map.letters().to_vec())
}

/// Opening writes so many entries of each list, and none behind or beside them.
#[test]
fn opening_writes_nothing_but_its_lists() {
    for name in SHIPPED {
        let map = map_bytes(name);
        let (known_starts, known_letters) = listed(&map);
        let tags = known_starts.len();
        for [room_of_starts, room_of_letters] in [
            [0, 0],
            [tags, tags],
            [tags + 5, tags + 9],
            [tags - 1, tags],
            [tags, tags - 1],
            [200, 0],
        ] {
            let mut lists = Guarded::new(([7u64; 200], [7u8; 200]));
            let (starts, letters) = &mut lists.inner;
            let (mut words, mut degrees) = (Guarded::new([7; 34]), Guarded::new([7.0; 6]));
            let mut layout = Guarded::new([7; 7]);
            let number = raw::open(
                &map,
                &mut starts[..room_of_starts],
                &mut letters[..room_of_letters],
                &mut words.inner,
                &mut degrees.inner,
                &mut layout.inner,
            );
            if tags <= room_of_starts.min(room_of_letters) {
                assert_eq!(number, 0);
                assert_eq!(
                    (&starts[..tags], &letters[..tags]),
                    (&known_starts[..], &known_letters[..])
                );
                assert!(starts[tags..].iter().all(|&start| start == 7));
                assert!(letters[tags..].iter().all(|&letter| letter == 7));
                continue;
            }
            assert_eq!(
                (number, &words.inner[..6]),
                (15, &[tags as u64, tags as u64, 0, 0, 0, 0][..])
            );
            assert_eq!((*starts, *letters), ([7; 200], [7; 200]));
            assert_eq!(
                (&words.inner[6..], degrees.inner, layout.inner),
                (&[7; 28][..], [7.0; 6], [7; 7])
            );
        }
    }
}

/// What is asked for a sub file's interval: the answer and the interval. No values are written.
fn interval(map: &[u8], layout: &Layout, sub_file: usize) -> (u64, [u64; 6]) {
    let (mut words, mut interval) = (Guarded::new([7; 6]), Guarded::new([7; 6]));
    let number = raw::interval(map, layout, sub_file, &mut words.inner, &mut interval.inner);
    assert_eq!(words.inner, [7; 6]);
    (number, interval.inner)
}

#[test]
fn an_interval_is_there_or_is_missing() {
    const MISSING: [u64; 6] = [0, 7, 7, 7, 7, 7];
    for name in SHIPPED {
        let map = map_bytes(name);
        let (layout, _) = opened(&map);
        for (number, known) in Map::open(&map).unwrap().intervals().iter().enumerate() {
            let [base, min, max] = [known.base_zoom, known.min_zoom, known.max_zoom].map(u64::from);
            let words = [1, base, min, max, known.start, known.size];
            assert_eq!(interval(&map, &layout, number), (0, words));
        }
        for missing in [3, 255, usize::MAX] {
            assert_eq!(interval(&map, &layout, missing), (0, MISSING));
        }
    }
    let mut map = map_bytes("islands.map");
    let (layout, found) = opened(&map);
    assert_eq!(interval(&map[..50], &layout, 2), (1, [7; 6]));
    assert_eq!(interval(&map[..50], &layout, 3), (0, MISSING));
    // The map is not opened again: what is damaged elsewhere in its header says nothing.
    map[VERSION..VERSION + 4].copy_from_slice(&[0, 0, 0, 2]);
    assert_eq!(interval(&map, &layout, 2), (0, found));
}

/// An interval where the layout says, 19 bytes each, if the map has it.
fn row(map: &[u8], start: u64, k: u64) -> Option<[u64; 6]> {
    let at = usize::try_from(start.checked_add(19 * k)?).ok()?;
    let row = map.get(at..at.checked_add(19)?)?;
    let number = |at: usize| u64::from_be_bytes(row[at..at + 8].try_into().unwrap());
    let [base, min, max] = [row[0], row[1], row[2]].map(u64::from);
    Some([1, base, min, max, number(3), number(11)])
}

/// The first of so many rows that has the zoom; None if a row is not in the map.
fn first_row(map: &[u8], start: u64, count: u64, zoom: u8) -> Option<[u64; 2]> {
    for k in 0..count {
        let [_, _, min, max, ..] = row(map, start, k)?;
        if (min..=max).contains(&zoom.into()) {
            return Some([1, k]);
        }
    }
    Some([0, 7])
}

/// Intervals are read where the layout says, whatever it says, and nothing else of it matters.
#[test]
fn any_layout_has_intervals() {
    let map = map_bytes("islands.map");
    let mut random = Random(13);
    let mut seen = [[0; 3]; 2];
    for case in 0..100_000 {
        let mut layout = [(); 7].map(|_| random.word(&map));
        // Where places end.
        if case % 4 == 0 {
            layout[word::LAYOUT_INTERVALS] = u64::MAX - random.next() % 5000;
        }
        let start = layout[word::LAYOUT_INTERVALS];
        let count = layout[word::LAYOUT_INTERVAL_COUNT] % 256;
        let (asked, zoom) = (random.next() % 300, random.next() as u8 % 25);
        let sub_file = if case % 9 == 0 { random.next() } else { asked };
        let expected = match row(&map, start, sub_file.min(255)) {
            _ if sub_file >= count => (0, [0, 7, 7, 7, 7, 7]),
            Some(row) => (0, row),
            None => (1, [7; 6]),
        };
        assert_eq!(interval(&map, &layout, sub_file as usize), expected, "{layout:?} {sub_file}");
        seen[0][if expected.0 == 1 { 2 } else { expected.1[0] as usize }] += 1;

        let mut words = Guarded::new([7; 8]);
        let number = raw::sub_file(&map, &layout, zoom, &mut words.inner);
        let found = first_row(&map, start, count, zoom);
        assert_eq!(words.inner[..6], [7; 6]);
        let expected = found.map_or((1, [7; 2]), |found| (0, found));
        assert_eq!((number, [words.inner[6], words.inner[7]]), expected, "{layout:?} {zoom}");
        seen[1][if number == 1 { 2 } else { words.inner[6] as usize }] += 1;
    }
    // Missing ones, those that are there, and refused ones.
    assert!(seen.as_flattened().iter().all(|&count| count > 500), "{seen:?}");
}

/// A tile's calls with a layout and an interval, the state and the lists of which nobody may write behind a refusal.
struct Asked<'a> {
    map: &'a [u8],
    layout: Layout,
    starts: &'a [u64],
    letters: &'a [u8],
    interval: [u64; 6],
}

impl Asked<'_> {
    /// How many tiles there are, and the number of one of them.
    fn on_grid(&self) -> [[u64; 2]; 2] {
        let (mut count, mut index) = (Guarded::new([7; 8]), Guarded::new([7; 8]));
        assert_eq!(raw::tile_count(&self.interval, GRID, &mut count.inner), 0);
        assert_eq!(raw::tile_index(&self.interval, GRID, 4095, 2271, &mut index.inner), 0);
        [count.inner, index.inner].map(|words| {
            assert_eq!(words[..6], [7; 6]);
            [words[6], words[7]]
        })
    }

    fn entry(&self, tile: usize) -> (u64, [u64; 9]) {
        let mut words = Guarded::new([7; 9]);
        let number =
            raw::index_entry(self.map, &self.layout, &self.interval, GRID, tile, &mut words.inner);
        (number, words.inner)
    }

    fn stream(&self, tile: usize, zoom: u8) -> (u64, [u64; 8]) {
        let (mut state, mut words) = (Guarded::new([7; 8]), Guarded::new([7; 6]));
        let number = raw::stream_open(
            self.map,
            &self.layout,
            &self.interval,
            5,
            GRID,
            tile,
            zoom,
            &mut state.inner,
            &mut words.inner,
        );
        assert!(number == 0 || state.inner == [7; 8]);
        (number, state.inner)
    }

    /// With the list of places, of which so many entries are lent.
    fn collect(&self, tile: usize, room: usize) -> (u64, [u64; 15], [u64; 200]) {
        let mut words = Guarded::new([7; 15]);
        let (mut points, mut ways) = (Guarded::new([7; 256]), Guarded::new([7; 256]));
        let mut places = Guarded::new([7; 200]);
        let number = raw::collect(
            self.map,
            &self.layout,
            self.letters,
            &self.interval,
            GRID,
            tile,
            &mut words.inner,
            &mut points.inner,
            &mut ways.inner,
            &mut places.inner[..room],
        );
        let rows = if number == 0 { words.inner[9] as usize } else { 0 };
        let features = if number == 0 { words.inner[11] + words.inner[12] } else { 0 } as usize;
        assert!(features <= room && places.inner[features..].iter().all(|&place| place == 7));
        assert!(number != 15 || words.inner[0] > room as u64 && words.inner[1..6] == [0; 5]);
        assert!(points.inner[rows..].iter().chain(&ways.inner[rows..]).all(|&row| row == 7));
        assert!(number == 0 || words.inner[6..] == [7; 9]);
        (number, words.inner, places.inner)
    }

    fn fetch(&self, of: Listed<'_>, feature: u64) -> (u64, Box<FetchWords>) {
        let mut lists = Guarded::new(([7u64; 8], [[7.0f64; 20]; 4], [b'#'; 60]));
        let (node_counts, places, buffer) = &mut lists.inner;
        let [latitudes, longitudes, initial_latitudes, initial_longitudes] = places;
        let lent = FetchLists {
            node_counts,
            latitudes,
            longitudes,
            initial_latitudes,
            initial_longitudes,
            buffer,
        };
        let mut got = Box::new(FetchWords {
            words: [7; 37],
            signed_words: [7; 2],
            degrees: [7.0; 2],
            ids: [7; 15],
            tags: [7; 75],
        });
        let Asked { map, layout, starts, letters, .. } = self;
        let number = raw::fetch(map, layout, starts, letters, of, feature, lent, &mut got);
        let untouched = ([7; 8], [[7.0; 20]; 4], [b'#'; 60]);
        if number != 0 {
            let words = got.words[6..].iter().chain(&got.ids).chain(&got.tags);
            assert!(lists.inner == untouched && words.copied().all(|word| word == 7));
            assert_eq!((got.signed_words, got.degrees), ([7; 2], [7.0; 2]));
        }
        (number, got)
    }
}

/// A list of places and counts, with other entries here and there.
fn any_places(random: &mut Random, map: &[u8], known: &Asked<'_>) -> (Vec<u64>, [u64; 2]) {
    let (_, words, places) = known.collect(random.next() as usize % 12, 200);
    let mut places = places.to_vec();
    if random.next() & 3 == 0 {
        places.truncate(random.next() as usize % 200);
    }
    for place in &mut places {
        *place = if random.next() & 7 == 0 { random.word(map) } else { *place };
    }
    let counts = [words[word::COLLECT_POINTS], words[word::COLLECT_WAYS]];
    (places, counts.map(|count| if random.next() & 3 == 0 { random.word(map) } else { count }))
}

/// Lists of any length, with other entries here and there.
fn any_lists(
    random: &mut Random,
    map: &[u8],
    (starts, letters): &(Vec<u64>, Vec<u8>),
) -> (Vec<u64>, Vec<u8>) {
    let (mut starts, mut letters) = (starts.clone(), letters.clone());
    if random.next() & 3 == 0 {
        starts.truncate(random.next() as usize % 110);
        letters.truncate(random.next() as usize % 110);
    }
    for start in &mut starts {
        *start = if random.next() & 15 == 0 { random.word(map) } else { *start };
    }
    for letter in &mut letters {
        let any = [b'b', b'h', b'i', b'f', b's', 0, random.next() as u8];
        *letter = if random.next() & 15 == 0 { any[random.next() as usize % 7] } else { *letter };
    }
    (starts, letters)
}

#[test]
fn any_layout_any_lists_and_any_interval_will_do() {
    let map = map_bytes("islands-debug.map");
    let (known, known_lists) = (opened(&map), listed(&map));
    let mut random = Random(7);
    let mut seen = [0; 21];
    let (layout, interval) = known;
    let (starts, letters) = &known_lists;
    let known_tiles = Asked { map: &map, layout, starts, letters, interval };
    for _ in 0..10_000 {
        let (mut layout, mut interval) = known;
        let (starts, letters) = &any_lists(&mut random, &map, &known_lists);
        // Most words stay the map's, or little would be read.
        for word in layout.iter_mut().chain(&mut interval) {
            if random.next() & 3 == 0 {
                *word = random.word(&map);
            }
        }
        let (tile, feature) = (random.next() as usize % 13, random.next() % 60);
        let asked = Asked { map: &map, layout, starts, letters, interval };
        let there = interval[0] != 0;
        assert_eq!(asked.on_grid(), if there { [[1, 12], [1, 5]] } else { [[0, 7]; 2] });
        let room = random.next() as usize % 201;
        let numbers = [
            asked.entry(tile).0,
            asked.stream(tile, random.next() as u8).0,
            asked.collect(tile, room).0,
        ];
        if !there || tile == 12 {
            assert_eq!(numbers, [8; 3]);
        }
        let (places, [points, ways]) = &any_places(&mut random, &map, &known_tiles);
        let of = Listed { places, points: *points, ways: *ways };
        let fetched = asked.fetch(of, feature).0;
        let is_listed = feature < points.saturating_add(*ways) && feature < places.len() as u64;
        assert_eq!(fetched == 17, !is_listed);
        numbers.iter().chain([&fetched]).for_each(|&number| seen[number as usize] += 1);
    }
    // Results, ends too early, missing tags, sub files and tiles, reversed intervals, lists too short, no such feature,
    // entries and heads that are cut off.
    assert!([0, 1, 7, 8, 13, 15, 17, 19, 20].iter().all(|&number| seen[number] > 0), "{seen:?}");
}

/// A sub file is there by any word but 0, a zoom is the last byte of its word, and base zoom and size say nothing.
#[test]
fn words_that_say_the_same_are_taken_alike() {
    let map = map_bytes("islands-debug.map");
    let (layout, interval) = opened(&map);
    let mut random = Random(9);
    let (starts, letters) = &listed(&map);
    let plain = Asked { map: &map, layout, starts, letters, interval };
    for _ in 0..1_000 {
        let (mut layout, mut interval) = (layout, interval);
        layout[0] = random.next() | 1;
        interval[0] = random.next() | 1;
        interval[1] = random.next();
        interval[2] = interval[2].wrapping_add(random.next() << 8);
        interval[3] = interval[3].wrapping_add(random.next() << 8);
        interval[5] = random.next();
        // No call looks at the places of the tags.
        (layout[word::LAYOUT_POINT_TAGS], layout[word::LAYOUT_WAY_TAGS]) =
            (random.next(), random.next());
        let other = Asked { map: &map, layout, starts, letters, interval };
        let (tile, zoom, feature) =
            (random.next() as usize % 13, random.next() as u8, random.next() % 60);
        assert_eq!(other.on_grid(), plain.on_grid());
        assert_eq!(other.entry(tile), plain.entry(tile));
        assert_eq!(other.stream(tile, zoom), plain.stream(tile, zoom));
        let (_, words, places) = plain.collect(tile, 200);
        assert_eq!(other.collect(tile, 200), plain.collect(tile, 200));
        let [points, ways] = [word::COLLECT_POINTS, word::COLLECT_WAYS].map(|k| words[k]);
        let of = Listed { places: &places, points, ways };
        let [(number, got), (expected, known)] =
            [other.fetch(of, feature), plain.fetch(of, feature)];
        assert_eq!((number, got.words, got.tags), (expected, known.words, known.tags));
    }
}

#[test]
fn any_state_any_letters_and_any_layout_will_do() {
    let map = map_bytes("islands-debug.map");
    let known_lists = listed(&map);
    let mut random = Random(1);
    let mut seen = [0; 21];
    for _ in 0..20_000 {
        let mut state = Guarded::new([0; 8]);
        let mut layout = [0; 7];
        state.inner.fill_with(|| random.word(&map));
        layout.fill_with(|| random.word(&map));
        let before = state.inner;
        let (mut words, mut signed_words) = (Guarded::new([1; 22]), Guarded::new([1; 2]));
        let (mut degrees, mut ids) = (Guarded::new([1.0; 2]), Guarded::new([1; 15]));
        let (_, letters) = any_lists(&mut random, &map, &known_lists);
        let number = raw::stream_next(
            &map,
            &layout,
            &letters,
            &mut state.inner,
            &mut words.inner,
            &mut signed_words.inner,
            &mut degrees.inner,
            &mut ids.inner,
        );
        seen[number as usize] += 1;
        if number != 0 {
            assert_eq!((&words.inner[1..], ids.inner), (&[1; 21][..], [1; 15]));
            assert_eq!((signed_words.inner, degrees.inner), ([1; 2], [1.0; 2]));
            assert_eq!(state.inner, before);
        }

        let mut lists = Guarded::new(([7u64; 9], [7.0; 9], [7.0; 9]));
        let (counts, latitudes, longitudes) = &mut lists.inner;
        let (mut words, mut degrees) = (Guarded::new([1; 19]), Guarded::new([1.0; 2]));
        state.inner = before;
        let number = raw::stream_accept(
            &map,
            &mut state.inner,
            &mut counts[..4],
            &mut latitudes[..8],
            &mut longitudes[..8],
            &mut words.inner,
            &mut degrees.inner,
        );
        seen[number as usize] += 1;
        assert!(counts[4..] == [7; 5] && latitudes[8] == 7.0 && longitudes[8] == 7.0);
        if number != 0 {
            assert_eq!((*counts, *latitudes, *longitudes), ([7; 9], [7.0; 9], [7.0; 9]));
            assert_eq!(state.inner, before);
        }

        state.inner = before;
        let number = raw::stream_decline(&mut state.inner, &mut [0; 6]);
        seen[number as usize] += 1;
        assert!(number == 0 || state.inner == before);
    }
    // All kinds of answers were met: results, ends too early, lists too short, out of turn.
    assert!(seen[0] > 0 && seen[1] > 0 && seen[15] > 0 && seen[16] > 0, "{seen:?}");
}

#[test]
fn fetching_writes_nothing_but_its_lists() {
    let map = map_bytes("islands.map");
    let ((layout, interval), (starts, letters)) = (opened(&map), listed(&map));
    let asked = Asked { map: &map, layout, starts: &starts, letters: &letters, interval };
    let (_, _, places) = asked.collect(10, 176);
    let of = Listed { places: &places, points: 35, ways: 141 };
    for feature in [0, 10, 35, 40, 46, 175, 176, u64::MAX] {
        for room in [0, 1, 3, 100] {
            let mut lists = Guarded::new(([7u64; 100], [[7.0f64; 100]; 4], [b'#'; 400]));
            let (counts, places, buffer) = &mut lists.inner;
            let [latitudes, longitudes, firsts, seconds] = places;
            let mut got = FetchWords::default();
            let number = raw::fetch(
                &map,
                &layout,
                &starts,
                &letters,
                of,
                feature,
                FetchLists {
                    node_counts: &mut counts[..room],
                    latitudes: &mut latitudes[..room],
                    longitudes: &mut longitudes[..room],
                    initial_latitudes: &mut firsts[..room],
                    initial_longitudes: &mut seconds[..room],
                    buffer: &mut buffer[..4 * room],
                },
                &mut got,
            );
            let is_way = number == 0 && got.words[word::FETCH_KIND] == word::WAY;
            let counts_of = |k: usize| if is_way { got.words[k] as usize } else { 0 };
            let (blocks, nodes) = (counts_of(word::FETCH_BLOCKS), counts_of(word::FETCH_NODES));
            assert!(counts[blocks..].iter().all(|&count| count == 7));
            let ends = [nodes, nodes, blocks, blocks];
            for (list, end) in [latitudes, longitudes, firsts, seconds].into_iter().zip(ends) {
                assert!(list[end..].iter().all(|&x| x == 7.0));
            }
            match number {
                0 => assert!(feature < 176),
                15 => {
                    assert!(feature < 176 && got.words[..6].iter().any(|&word| word > room as u64))
                }
                17 => assert!(feature >= 176),
                other => panic!("{other}"),
            }
            if number != 0 {
                assert!(buffer.iter().all(|&byte| byte == b'#'));
            }
        }
    }
}

#[test]
fn columns_of_any_number() {
    let column = |longitude: f64, zoom: u8| {
        let mut column = Guarded::new([9]);
        (raw::column(longitude, zoom, &mut [0; 6], &mut column.inner), column.inner[0])
    };
    // Document 01's figure, and the ends.
    assert_eq!(column(-190.0, 0), (0, 0));
    assert_eq!(column(180.0, 8), (0, 256));
    assert_eq!(column(f64::NAN, 8), (0, 0));
    assert_eq!(column(f64::INFINITY, 8), (0, i64::from(i32::MAX)));
    assert_eq!(column(f64::NEG_INFINITY, 8), (0, i64::from(i32::MIN)));
    assert_eq!(column(44.99999999999998, 3), (0, 4));
    assert_eq!(column(0.0, 63), (0, i64::from(i32::MAX)));
    assert_eq!(column(0.0, 64), (18, 9));
    let mut longitude = [9.0];
    assert_eq!((raw::longitude(1, 64, &mut [0; 6], &mut longitude), longitude), (18, [9.0]));
    assert_eq!((raw::longitude(1, 1, &mut [0; 6], &mut longitude), longitude), (0, [0.0]));
}

#[test]
fn texts_are_replaced_as_rust_replaces_them() {
    let mut random = Random(3);
    let letters =
        [0x61, 0x7f, 0x80, 0xbf, 0xc2, 0xe0, 0xa0, 0xed, 0x9f, 0xef, 0xf0, 0x90, 0xf4, 0x8f, 0xff];
    for _ in 0..20_000 {
        let size = random.next() % 9;
        let text: Vec<u8> =
            (0..size).map(|_| letters[random.next() as usize % letters.len()]).collect();
        let expected = String::from_utf8_lossy(&text).into_owned();
        let (mut buffer, mut words) = ([0; 32], [0; 7]);
        assert_eq!(raw::text(&text, &mut buffer, &mut words), 0);
        assert_eq!(&buffer[..words[6] as usize], expected.as_bytes());
        // A byte too short: how long it has to be, and nothing written.
        if let Some(short) = expected.len().checked_sub(1) {
            let (mut buffer, mut words) = ([b'#'; 32], [7; 7]);
            assert_eq!(raw::text(&text, &mut buffer[..short], &mut words), 15);
            assert_eq!(words, [0, 0, 0, 0, 0, expected.len() as u64, 7]);
            assert_eq!(buffer, [b'#'; 32]);
        }
    }
}

#[test]
fn tags_and_way_data_of_any_place() {
    let map = map_bytes("islands.map");
    let mut random = Random(5);
    for _ in 0..20_000 {
        let at = random.word(&map) as usize;
        let mut words = Guarded::new([1; 10]);
        let starts: Vec<u64> = (0..random.next() % 9).map(|_| random.word(&map)).collect();
        let letters: Vec<u8> =
            (0..random.next() % 9).map(|_| b'a' + random.next() as u8 % 26).collect();
        let [first, count] = [(); 2].map(|_| random.word(&map) as usize);
        let k = (random.next() % 12) as usize;
        let number = raw::tag(&map, &starts, &letters, first, count, k, &mut words.inner);
        assert!(matches!(number, 0 | 1 | 7 | 9 | 11), "{number}");
        // 7 comes without a look at the map, and says which tag.
        let entry = first.checked_add(k);
        let start = entry.filter(|_| k < count).and_then(|entry| starts.get(entry));
        assert_eq!(number == 7, start.is_none());
        assert!(number != 7 || words.inner[0] == k as u64);
        if number == 0 {
            let letter = entry.and_then(|entry| letters.get(entry)).copied().unwrap_or(0);
            let kind =
                b"bhifs".iter().position(|&known| known == letter).map_or(0, |kind| kind + 1);
            assert_eq!(words.inner[word::TAG_KIND], kind as u64);
            assert!(words.inner[word::TAG_PLACE] > *start.unwrap());
        }

        let blocks = random.word(&map);
        let mut measured = Guarded::new([7; 10]);
        let number = raw::measure_way_data(&map, at, blocks, &mut measured.inner);
        assert!(matches!(number, 0 | 1 | 10 | 11 | 12), "{number}");
        let mut words = Guarded::new([7; 10]);
        let mut lists = Guarded::new(([7u64; 5], [7.0; 9], [7.0; 9]));
        let (counts, latitudes, longitudes) = &mut lists.inner;
        let read = raw::read_way_data(
            &map,
            at,
            blocks,
            random.next() & 1 == 0,
            &mut counts[..4],
            &mut latitudes[..8],
            &mut longitudes[..8],
            &mut words.inner,
        );
        assert!(number == 0 || measured.inner == [7; 10]);
        let fits = measured.inner[6] <= 4 && measured.inner[7] <= 8;
        let expected = if number == 0 && !fits { 15 } else { number };
        assert_eq!(read, expected);
        assert!(read == 15 || words.inner == measured.inner);
        assert!(counts[4] == 7 && latitudes[8] == 7.0 && longitudes[8] == 7.0);
        if read != 0 {
            assert_eq!((*counts, *latitudes), ([7; 5], [7.0; 9]));
        }
    }
}
