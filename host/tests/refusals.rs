//! docs/REFUSALS.md: every example on that page is tried, and no refusal is without a row.

mod common;

use common::lent::{self, twice, Layout, Opened, State, Tiles, Told};
use common::repository;
use mapsforge::raw::Listed;
use mapsforge::{word, Refusal};
use std::collections::BTreeSet;

fn text(path: &str) -> String {
    std::fs::read_to_string(repository(path)).unwrap_or_else(|error| panic!("{path}: {error}"))
}

// ---- the page

/// The rows of the table with this head, cell by cell.
fn table(page: &str, head: &str) -> Vec<Vec<String>> {
    tables(page).into_iter().find(|(first, _)| first.join(" | ") == head).expect(head).1
}

type Table = (Vec<String>, Vec<Vec<String>>);

/// All tables, each with its head.
fn tables(page: &str) -> Vec<Table> {
    let mut tables: Vec<Table> = Vec::new();
    let mut inside = false;
    for line in page.lines() {
        let Some(cells) = cells(line) else {
            inside = false;
            continue;
        };
        match tables.last_mut().filter(|_| inside) {
            None => tables.push((cells, Vec::new())),
            Some((head, rows)) => {
                assert_eq!(cells.len(), head.len(), "{line}");
                rows.push(cells);
            }
        }
        inside = true;
    }
    for (_, rows) in &mut tables {
        assert!(rows.remove(0).iter().all(|cell| cell == "---"), "a line is below the head");
    }
    tables
}

fn cells(line: &str) -> Option<Vec<String>> {
    let inner = line.strip_prefix('|')?.strip_suffix('|').expect("the row ends");
    Some(inner.split('|').map(|cell| cell.trim().to_string()).collect())
}

/// A cell of one name in code.
fn name(cell: &str) -> &str {
    let inner = cell.strip_prefix('`').and_then(|cell| cell.strip_suffix('`'));
    inner.unwrap_or_else(|| panic!("{cell:?} is no name"))
}

fn numbers(text: &str) -> Vec<u64> {
    text.split_whitespace().map(|word| word.parse().expect(text)).collect()
}

/// A refusal's number and its values, zeros behind them.
type Answer = (u64, [u64; 6]);

fn answer(number: u64, values: &[u64]) -> Answer {
    let mut all = [0; 6];
    all[..values.len()].copy_from_slice(values);
    (number, all)
}

/// The smallest example of each row, with what it gives.
fn smallest(page: &str) -> Vec<(Example, Answer)> {
    let of_row = |row: &Vec<String>| {
        let (example, values) = row[4].split_once(" gives ").unwrap_or((&row[4], ""));
        (Example::of(example), answer(row[0].parse().expect("a number"), &numbers(values)))
    };
    table(page, HEAD).iter().map(of_row).collect()
}

/// Every example of the page, with what it gives.
fn examples() -> Vec<(Example, Answer)> {
    let page = text("docs/REFUSALS.md");
    let mut all = smallest(&page);
    let other = |(head, _): &Table| head[..2] == ["Example", "Answer"];
    for row in tables(&page).into_iter().filter(other).flat_map(|(_, rows)| rows) {
        let (number, values) = row[1].split_once(": ").unwrap_or((&row[1], ""));
        all.push((
            Example::of(&row[0]),
            answer(number.parse().expect("a number"), &numbers(values)),
        ));
    }
    // None is written where it is not looked for.
    let written = page.split('`').skip(1).step_by(2).filter(|code| code.ends_with(')'));
    let written = written.filter(|code| !code.starts_with("Corrupt("));
    assert_eq!(written.count(), all.len());
    all
}

const HEAD: &str = "No. | Name | Given when | Values | Smallest example | The Rust";
const MAGIC: &[u8] = b"mapsforge binary OSM";

// ---- examples

/// A call, the map's bytes, and what else it takes.
#[derive(Clone)]
struct Example {
    text: String,
    call: String,
    map: Vec<u8>,
    layout: Layout,
    interval: [u64; 6],
    grid: [i32; 4],
    tile: usize,
    /// The places of a tile's features, how many points and ways it has, and the feature that is fetched.
    places: Vec<u64>,
    counts: [u64; 2],
    feature: u64,
    /// A tag's number, and that of all tags.
    tag: [usize; 2],
    /// How many way tags rules are checked for.
    way_tags: u16,
    zoom: u8,
}

impl Example {
    fn of(cell: &str) -> Example {
        let text = name(cell).to_string();
        let (call, rest) = text.split_once('(').expect("a call");
        let rest = rest.strip_suffix(')').expect("its end");
        let (bytes, settings) = rest.split_once(';').unwrap_or((rest, ""));
        let mut example = Example {
            call: call.into(),
            map: bytes.split_whitespace().flat_map(repeated).collect(),
            layout: [0, 0, 0, 0, 0, 0, 1],
            interval: [1, 0, 0, 0, 0, 0],
            grid: [0; 4],
            tile: 0,
            places: vec![0],
            counts: [1, 0],
            feature: 0,
            tag: [0, 1],
            way_tags: 0,
            zoom: 0,
            text: text.clone(),
        };
        let settings = settings.split(',').map(str::trim).filter(|item| !item.is_empty());
        settings.for_each(|item| example.set(item));
        example
    }

    fn set(&mut self, item: &str) {
        let given = item.replace(" of ", " ").replace(" to ", " ");
        let (name, rest) = given.split_once(' ').unwrap_or((&given, ""));
        match (name, rest) {
            ("no", "sub file") => return self.interval = [0; 6],
            ("no", "place") => return self.places.clear(),
            ("debug", "") => return self.layout[0] = 1,
            ("way", "") => return self.counts = [0, 1],
            _ => (),
        }
        match (name, &numbers(rest)[..]) {
            ("start", &[start]) => self.interval[4] = start,
            ("interval", &[low, high]) => self.interval[2..4].copy_from_slice(&[low, high]),
            ("grid", &[a, b, c, d]) => self.grid = [a, b, c, d].map(|side| side as i32),
            ("tile", &[tile]) => self.tile = tile as usize,
            ("place", &[place]) => self.places = vec![place],
            ("points", &[points]) => self.counts[0] = points,
            ("feature", &[feature]) => self.feature = feature,
            ("tag", &[k, count]) => self.tag = [k, count].map(|number| number as usize),
            ("tags", &[count]) => self.way_tags = count as u16,
            ("zoom", &[zoom]) => self.zoom = zoom as u8,
            _ => panic!("{item:?} is not known"),
        }
    }

    /// A tag is listed that starts at byte 0 and has no inline value.
    fn opened(&self) -> Opened<'_> {
        Opened { map: &self.map, layout: self.layout, starts: &[0], letters: &[0] }
    }

    fn tiles(&self) -> Tiles<'_> {
        Tiles { opened: self.opened(), interval: self.interval, grid: self.grid }
    }

    fn listed(&self) -> Listed<'_> {
        let [points, ways] = self.counts;
        Listed { places: &self.places, points, ways }
    }

    /// The answer of a call. The lists that it writes are empty.
    fn ask(&self, call: &str) -> Answer {
        let Example { map, layout, interval, grid, tile, zoom, .. } = self;
        let (tiles, opened, [k, count]) = (self.tiles(), self.opened(), self.tag);
        let told = twice(|lent| match call {
            "open" => lent::open(map, &[0; 6], lent),
            "interval" => lent::interval(map, layout, 0, lent),
            "sub_file" => lent::sub_file(map, layout, *zoom, lent),
            "tag" => lent::tag(&opened, 0, count, k, lent),
            "text" => lent::text(map, 0, lent),
            "tile_count" => lent::tile_count(interval, *grid, lent),
            "tile_index" => lent::tile_index(interval, *grid, 0, 0, lent),
            "window_count" => lent::window_count(*grid, [0; 4], lent),
            "window_tile" => lent::window_tile(*grid, [0; 4], 0, lent),
            "index_entry" => tiles.entry(*tile, lent),
            "column" => lent::column(0.0, *zoom, lent),
            "longitude" => lent::longitude(0, *zoom, lent),
            "stream_open" => tiles.stream(0, *tile, *zoom, lent),
            "stream_next" => lent::next(&opened, &[0; 8], lent),
            "stream_accept" => lent::accept(map, &[0; 8], &[0; 6], lent),
            "stream_decline" => lent::decline(&[0; 8], lent),
            "collect" => tiles.collect(*tile, &[0; 6], lent),
            "fetch" => opened.fetch(self.listed(), self.feature, &[0; 6], lent),
            "measure_way_data" => lent::measure_way_data(map, 0, 1, lent),
            "read_way_data" => lent::read_way_data(map, 1, &[0; 6], lent),
            "check_rules" => lent::check_rules(map, self.way_tags, 0, lent),
            // The first way is accepted.
            "wanted" => tiles.wanted(*tile, *zoom, &[1], lent),
            other => panic!("{other} is not known"),
        });
        answered(&told)
    }

    /// What the calls of a stream answer, with calls out of turn at each place. Each way is accepted, or else declined.
    fn stream(&self) -> Vec<(&'static str, u64)> {
        let map = &self.map;
        let opened = twice(|lent| self.tiles().stream(0, self.tile, self.zoom, lent));
        let mut seen = vec![("stream_open", answered(&opened).0)];
        if opened.number != 0 {
            return seen;
        }
        let mut state = opened.state();
        let mut call = |name: &'static str, told: Told, state: &mut State| {
            seen.push((name, answered(&told).0));
            *state = if told.number == 0 { told.state() } else { *state };
            told
        };
        let next = |state: &State| twice(|lent| lent::next(&self.opened(), state, lent));
        let accept = |state: &State, room: u64| {
            twice(|lent| lent::accept(map, state, &[room, room, room, 0, 0, 0], lent))
        };
        let decline = |state: &State| twice(|lent| lent::decline(state, lent));
        loop {
            call("stream_accept", accept(&state, 0), &mut state);
            call("stream_decline", decline(&state), &mut state);
            let told = call("stream_next", next(&state), &mut state);
            if told.number != 0 || told.word(word::NEXT_KIND) == word::END {
                break;
            }
            if told.word(word::NEXT_KIND) == word::WAY {
                call("stream_next", next(&state), &mut state);
                call("stream_accept", accept(&state, 0), &mut state);
                call("stream_accept", accept(&state, 8), &mut state);
                // Out of turn if the way was accepted.
                call("stream_decline", decline(&state), &mut state);
            }
        }
        seen
    }
}

/// The number, and a refusal's values; a refused call writes nothing but these.
fn answered(told: &Told) -> Answer {
    (told.number, if told.number == 0 { [0; 6] } else { told.refusal() })
}

/// A byte, so many of them, or the magic bytes.
fn repeated(word: &str) -> Vec<u8> {
    if word == "MAGIC" {
        return MAGIC.to_vec();
    }
    let (byte, times) = word.split_once('*').unwrap_or((word, "1"));
    assert_eq!(byte.len(), 2, "{word:?} is no byte");
    vec![u8::from_str_radix(byte, 16).expect(word); times.parse().expect(word)]
}

// ---- tests

#[test]
fn every_refusal_has_a_row() {
    let page = text("docs/REFUSALS.md");
    let rows = table(&page, HEAD);
    let source = text("crates/error/src/lib.rt");
    let of_rules = text("crates/showing/specs/Showing.antt");
    let numbers: Vec<u64> = rows.iter().map(|row| row[0].parse().expect("a number")).collect();
    assert!(numbers.windows(2).all(|pair| pair[0] < pair[1]));
    for (&number, row) in numbers.iter().zip(&rows) {
        let wrapped = format!("{:?}", Refusal::check(number, &[]).unwrap_err());
        let case = name(&row[1]);
        assert_eq!(wrapped.split('(').next(), Some(case));
        // In the library a list that is too short is a case of its own.
        let known =
            if number == 15 { "LentRefusal::Short".into() } else { format!("Refusal::{case}") };
        let arms = ["", "(_)"].map(|value| format!("        {known}{value} => {number},\n"));
        let of_check = [case.into(), format!("({case} id zoom)")]
            .map(|answer| format!("\nrules_refused {answer} = no {number} "));
        assert!(
            arms.iter().any(|arm| source.contains(arm))
                || of_check.iter().any(|line| of_rules.contains(line)),
            "{known} has the number {number}"
        );
        assert!(row.iter().all(|cell| !cell.is_empty()), "{row:?}");
    }
    // No other case of the library has a number.
    let body = source.split("pub enum Refusal {").nth(1).and_then(|rest| rest.split("\n}").next());
    let cases = body.expect("the enum").lines().map(str::trim).filter(|line| !line.is_empty());
    let checks = of_rules.matches("\nrules_refused ").count();
    // Of the refusals of a check, 15 counts already.
    let cases = cases.filter(|line| !line.starts_with("//")).count() + 1 + checks - 1;
    assert_eq!(cases, rows.len());
    let constants = text("include/mapsforge.h").matches("    MAPSFORGE_").count();
    assert_eq!(constants, rows.len());
    let hex: Vec<String> = MAGIC.iter().map(|byte| format!("{byte:02X}")).collect();
    assert!(page.contains(&format!("`MAGIC` are the bytes `{}`", hex.join(" "))));
}

/// Without its last bytes an example is another one, or it would not be the smallest.
#[test]
fn no_front_of_a_smallest_example_is_refused_alike() {
    for (example, (number, _)) in smallest(&text("docs/REFUSALS.md")) {
        for length in 0..example.map.len() {
            let front = Example { map: example.map[..length].to_vec(), ..example.clone() };
            assert_ne!(front.ask(&front.call).0, number, "{} cut to {length}", example.text);
        }
    }
}

#[test]
fn every_example_gives_what_the_page_says() {
    let examples = examples();
    for (example, told) in &examples {
        assert_eq!(example.ask(&example.call), *told, "{}", example.text);
    }
    // What is refused before a tile's features is refused alike by all that reads it.
    for (example, told) in examples.iter().filter(|(example, _)| example.call == "collect") {
        if [8, 13, 14, 19, 20].contains(&told.0) {
            assert_eq!(example.ask("stream_open"), *told, "{} as a stream", example.text);
        }
        if [8, 14, 19].contains(&told.0) {
            assert_eq!(example.ask("index_entry"), *told, "{} as an entry", example.text);
        }
        // It takes no list that could be too short.
        if told.0 != 15 {
            assert_eq!(example.ask("wanted"), *told, "{} as what is wanted", example.text);
        }
    }
}

/// All calls on each example and on each of its fronts.
#[test]
fn each_call_answers_what_the_page_says() {
    let mut said = BTreeSet::new();
    for row in table(&text("docs/REFUSALS.md"), "Call | Refusals") {
        for call in row[0].split(", ").map(name) {
            said.extend(numbers(&row[1]).into_iter().map(|number| (call.to_string(), number)));
        }
    }
    let calls: BTreeSet<String> = said.iter().map(|(call, _)| call.clone()).collect();
    // All but `shares_cell` and `shows`, which refuse nothing.
    assert_eq!(calls.len(), 22);
    let mut seen = BTreeSet::new();
    for (example, _) in examples() {
        for length in 0..=example.map.len() {
            let front = Example { map: example.map[..length].to_vec(), ..example.clone() };
            seen.extend(calls.iter().map(|call| (call.clone(), front.ask(call).0)));
            seen.extend(front.stream().into_iter().map(|(call, number)| (call.into(), number)));
        }
    }
    seen.retain(|(_, number)| *number != 0);
    let only = |a: &BTreeSet<_>, b: &BTreeSet<_>| format!("{:?}", a.difference(b));
    assert_eq!(said, seen, "said alone {}, seen alone {}", only(&said, &seen), only(&seen, &said));
}
