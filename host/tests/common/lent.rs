//! Calls whose arrays and lists are full of odd words, to see which of them an answer writes. Each call is made twice,
//! with other words each time: what is written comes out the same, and what is not keeps what was lent.

use super::repository;
use mapsforge::raw::{self, FetchLists, FetchWords, Listed};
use mapsforge::word;
use std::collections::{BTreeMap, BTreeSet};

/// No bit of the two is the same.
const LENT: [u64; 2] = [0x7777_7777_7777_7777, 0x8888_8888_8888_8888];

/// An entry of an array or a list that was lent.
pub type Entry = (&'static str, usize);

/// A call's number, and each entry before and behind the call, bit for bit.
pub struct Answered {
    number: u64,
    lent: u64,
    entries: BTreeMap<Entry, [u64; 2]>,
}

impl Answered {
    fn of(number: u64, lent: u64) -> Answered {
        Answered { number, lent, entries: BTreeMap::new() }
    }

    fn add(mut self, name: &'static str, lent: u64, after: impl Iterator<Item = u64>) -> Answered {
        let entries = after.enumerate().map(|(k, after)| ((name, k), [lent, after]));
        self.entries.extend(entries);
        self
    }

    fn words(self, name: &'static str, after: &[u64]) -> Answered {
        let lent = self.lent;
        self.add(name, lent, after.iter().copied())
    }

    fn signed(self, name: &'static str, after: &[i64]) -> Answered {
        let lent = self.lent;
        self.add(name, lent, after.iter().map(|&number| number as u64))
    }

    fn floats(self, name: &'static str, after: &[f64]) -> Answered {
        let lent = self.lent;
        self.add(name, lent, after.iter().map(|number| number.to_bits()))
    }

    fn bytes(self, name: &'static str, after: &[u8]) -> Answered {
        let lent = self.lent & 0xff;
        self.add(name, lent, after.iter().copied().map(u64::from))
    }

    fn state(mut self, before: &State, after: &State) -> Answered {
        let both = before.iter().zip(after).enumerate();
        self.entries.extend(both.map(|(k, (&before, &after))| (("state", k), [before, after])));
        self
    }
}

/// What an answer writes, by two calls.
pub struct Told {
    pub number: u64,
    /// Of the first call, behind it.
    entries: BTreeMap<Entry, u64>,
    written: BTreeSet<Entry>,
    kept: BTreeSet<Entry>,
}

/// Makes a call with one odd word in all that it is lent, and again with another.
pub fn twice(mut call: impl FnMut(u64) -> Answered) -> Told {
    let [first, second] = LENT.map(&mut call);
    assert_eq!(first.number, second.number);
    let mut told = Told {
        number: first.number,
        entries: BTreeMap::new(),
        written: BTreeSet::new(),
        kept: BTreeSet::new(),
    };
    assert_eq!(first.entries.len(), second.entries.len());
    for (entry, [before, after]) in first.entries {
        let [other_before, other_after] = second.entries[&entry];
        told.entries.insert(entry, after);
        if before != after || other_before != other_after {
            assert_eq!(after, other_after, "{entry:?} is written, but not alike");
            told.written.insert(entry);
        } else if before != other_before {
            told.kept.insert(entry);
        }
    }
    told
}

impl Told {
    pub fn word(&self, k: usize) -> u64 {
        self.entries[&("words", k)]
    }

    /// A list that was lent, behind the call.
    pub fn list(&self, name: &'static str) -> Vec<u64> {
        (0..).map_while(|k| self.entries.get(&(name, k)).copied()).collect()
    }

    /// All eight words of the state.
    pub fn state(&self) -> State {
        std::array::from_fn(|k| self.entries[&("state", k)])
    }

    /// Just these entries were written, as far as a call can tell: a stream's state may have held the same.
    pub fn wrote(&self, own: &BTreeSet<Entry>) {
        let beside: Vec<_> = self.written.difference(own).collect();
        assert!(beside.is_empty(), "{beside:?} are written");
        let missing: Vec<_> = self.kept.intersection(own).collect();
        assert!(missing.is_empty(), "{missing:?} are not written");
        assert!(own.iter().all(|entry| self.entries.contains_key(entry)), "{own:?}");
    }

    /// The values of a refusal, zeros behind them. It writes nothing else.
    pub fn refusal(&self) -> [u64; word::VALUES] {
        let values = match self.number {
            3 | 7 | 19 | 20 => 1,
            23 | 24 => 2,
            15 => word::VALUES,
            _ => 0,
        };
        self.wrote(&(0..values).map(|k| ("words", k)).collect());
        std::array::from_fn(|k| if k < values { self.word(k) } else { 0 })
    }
}

// ---- what mapsforge.h says

/// What each answer of each call writes, as the header's lines `ANSWER writes ARRAY PLACES; ...` say.
pub struct Writes {
    by_answer: BTreeMap<(String, String), String>,
}

impl Writes {
    pub fn read() -> Writes {
        let header = std::fs::read_to_string(repository("include/mapsforge.h")).unwrap();
        let mut by_answer = BTreeMap::new();
        let mut lines = Vec::new();
        for line in header.lines() {
            if line.starts_with("/*") {
                lines.clear();
            }
            if let Some(line) = line.strip_prefix(" *   ") {
                lines.extend(line.trim_end_matches(" */").split_once(" writes "));
            }
            let Some(behind) = line.strip_prefix("uint64_t mapsforge_") else { continue };
            let (call, _) = behind.split_once('(').unwrap();
            let of_call =
                lines.iter().map(|&(answer, own)| ((call.into(), answer.into()), own.into()));
            by_answer.extend(of_call);
        }
        Writes { by_answer }
    }

    /// All calls, each with its answers.
    pub fn answers(&self) -> BTreeSet<(String, String)> {
        self.by_answer.keys().cloned().collect()
    }

    /// The entries of arrays that an answer writes, in a tile of so many rows.
    pub fn own(&self, call: &str, answer: &str, rows: u64) -> BTreeSet<Entry> {
        let own = self.by_answer.get(&(call.into(), answer.into()));
        let own = own.unwrap_or_else(|| panic!("mapsforge.h does not tell of {call}: {answer}"));
        let rows = format!("to {}", rows.wrapping_sub(1));
        own.split(';').flat_map(|piece| entries(&piece.replace("to words[9] - 1", &rows))).collect()
    }
}

/// The entries of `ARRAY K, K to K`; what is in parentheses is for the reader.
fn entries(piece: &str) -> Vec<Entry> {
    let piece = piece.split('(').next().unwrap().trim();
    let (name, places) = piece.split_once(' ').unwrap_or_else(|| panic!("{piece:?}"));
    let name = ARRAYS.iter().find(|known| **known == name);
    let name = name.unwrap_or_else(|| panic!("{piece:?} is of no array"));
    let number = |text: &str| text.trim().parse::<usize>().expect(text);
    let place = |place: &str| {
        let (first, last) = place.split_once(" to ").unwrap_or((place, place));
        number(first)..=number(last)
    };
    places.split(',').flat_map(place).map(|k| (*name, k)).collect()
}

const ARRAYS: [&str; 13] = [
    "words",
    "degrees",
    "layout",
    "interval",
    "column",
    "longitude",
    "column_row",
    "state",
    "signed_words",
    "ids",
    "points",
    "ways",
    "tags",
];

// ---- the calls

pub type Layout = [u64; word::LAYOUT_WORDS];
pub type Interval = [u64; word::INTERVAL_WORDS];
pub type State = [u64; word::STATE_WORDS];
/// How many entries the lists have, and how many bytes the buffer.
pub type Lengths = [u64; word::VALUES];

/// A map, and what its calls take of its header.
#[derive(Clone, Copy)]
pub struct Opened<'a> {
    pub map: &'a [u8],
    pub layout: Layout,
    pub starts: &'a [u64],
    pub letters: &'a [u8],
}

/// The tiles of a sub file, as the library takes them.
#[derive(Clone, Copy)]
pub struct Tiles<'a> {
    pub opened: Opened<'a>,
    pub interval: Interval,
    pub grid: [i32; 4],
}

/// Lists of these lengths are lent, for starts and for letters.
pub fn open(map: &[u8], lengths: &Lengths, lent: u64) -> Answered {
    let [starts, letters, ..] = lengths.map(|length| length as usize);
    let (mut starts, mut letters) = (vec![lent; starts], vec![lent as u8; letters]);
    let (mut words, mut layout) = ([lent; 34], [lent; 7]);
    let mut degrees = [f64::from_bits(lent); 6];
    let number = raw::open(map, &mut starts, &mut letters, &mut words, &mut degrees, &mut layout);
    let got = Answered::of(number, lent).words("words", &words).words("layout", &layout);
    got.floats("degrees", &degrees).words("starts", &starts).bytes("letters", &letters)
}

pub fn interval(map: &[u8], layout: &Layout, sub_file: usize, lent: u64) -> Answered {
    let (mut words, mut interval) = ([lent; 6], [lent; 6]);
    let number = raw::interval(map, layout, sub_file, &mut words, &mut interval);
    Answered::of(number, lent).words("words", &words).words("interval", &interval)
}

pub fn sub_file(map: &[u8], layout: &Layout, zoom: u8, lent: u64) -> Answered {
    of_words::<8>(lent, |words| raw::sub_file(map, layout, zoom, words))
}

pub fn tag(opened: &Opened<'_>, first: usize, count: usize, k: usize, lent: u64) -> Answered {
    let Opened { map, starts, letters, .. } = opened;
    of_words::<10>(lent, |words| raw::tag(map, starts, letters, first, count, k, words))
}

pub fn text(text: &[u8], room: usize, lent: u64) -> Answered {
    let mut buffer = vec![lent as u8; room];
    let got = of_words::<7>(lent, |words| raw::text(text, &mut buffer, words));
    got.bytes("buffer", &buffer)
}

pub fn check_rules(rules: &[u8], way_tags: u16, room: usize, lent: u64) -> Answered {
    let mut classes = vec![lent as u8; room];
    let got = of_words::<6>(lent, |words| raw::check_rules(rules, way_tags, &mut classes, words));
    got.bytes("classes", &classes)
}

pub fn shows(classes: &[u8], zoom: u8, ids: &[u64], lent: u64) -> Answered {
    of_words::<7>(lent, |words| raw::shows(classes, zoom, ids, words))
}

pub fn tile_count(interval: &Interval, grid: [i32; 4], lent: u64) -> Answered {
    of_words::<8>(lent, |words| raw::tile_count(interval, grid, words))
}

pub fn tile_index(interval: &Interval, grid: [i32; 4], x: i32, y: i32, lent: u64) -> Answered {
    of_words::<8>(lent, |words| raw::tile_index(interval, grid, x, y, words))
}

pub fn window_count(grid: [i32; 4], window: [i64; 4], lent: u64) -> Answered {
    of_words::<7>(lent, |words| raw::window_count(grid, window, words))
}

pub fn window_tile(grid: [i32; 4], window: [i64; 4], k: u64, lent: u64) -> Answered {
    let mut at = [lent as i64; 2];
    let got = of_words::<9>(lent, |words| raw::window_tile(grid, window, k, words, &mut at));
    got.signed("column_row", &at)
}

pub fn column(longitude: f64, zoom: u8, lent: u64) -> Answered {
    let mut column = [lent as i64];
    let got = of_words::<6>(lent, |words| raw::column(longitude, zoom, words, &mut column));
    got.signed("column", &column)
}

pub fn longitude(column: u32, zoom: u8, lent: u64) -> Answered {
    let mut longitude = [f64::from_bits(lent)];
    let got = of_words::<6>(lent, |words| raw::longitude(column, zoom, words, &mut longitude));
    got.floats("longitude", &longitude)
}

impl Tiles<'_> {
    pub fn entry(&self, tile: usize, lent: u64) -> Answered {
        let Tiles { opened: Opened { map, layout, .. }, interval, grid } = self;
        of_words::<9>(lent, |words| raw::index_entry(map, layout, interval, *grid, tile, words))
    }

    pub fn wanted(&self, tile: usize, zoom: u8, decisions: &[u8], lent: u64) -> Answered {
        let Tiles { opened: Opened { map, layout, letters, .. }, interval, grid } = self;
        of_words::<11>(lent, |words| {
            raw::wanted(map, layout, letters, interval, *grid, tile, zoom, decisions, words)
        })
    }

    pub fn stream(&self, sub_file: usize, tile: usize, zoom: u8, lent: u64) -> Answered {
        let Tiles { opened: Opened { map, layout, .. }, interval, grid } = self;
        let mut state = [lent; 8];
        let got = of_words::<6>(lent, |words| {
            raw::stream_open(map, layout, interval, sub_file, *grid, tile, zoom, &mut state, words)
        });
        got.words("state", &state)
    }

    /// A list of places of the first length is lent.
    pub fn collect(&self, tile: usize, lengths: &Lengths, lent: u64) -> Answered {
        let Tiles { opened: Opened { map, layout, letters, .. }, interval, grid } = self;
        let (mut points, mut ways) = ([lent; 256], [lent; 256]);
        let mut places = vec![lent; lengths[0] as usize];
        let got = of_words::<15>(lent, |words| {
            let (points, ways, places) = (&mut points, &mut ways, &mut places);
            raw::collect(map, layout, letters, interval, *grid, tile, words, points, ways, places)
        });
        got.words("points", &points).words("ways", &ways).words("places", &places)
    }
}

impl Opened<'_> {
    pub fn fetch(&self, of: Listed<'_>, feature: u64, lengths: &Lengths, lent: u64) -> Answered {
        let Opened { map, layout, starts, letters } = self;
        let degree = f64::from_bits(lent);
        let mut got = FetchWords {
            words: [lent; 37],
            signed_words: [lent as i64; 2],
            degrees: [degree; 2],
            ids: [lent; 15],
            tags: [lent; 75],
        };
        let [counts, .., buffer] = lengths.map(|length| length as usize);
        let (mut counts, mut buffer) = (vec![lent; counts], vec![lent as u8; buffer]);
        let mut floats: [_; 4] = std::array::from_fn(|k| vec![degree; lengths[k + 1] as usize]);
        let [latitudes, longitudes, initial_latitudes, initial_longitudes] = &mut floats;
        let lists = FetchLists {
            node_counts: &mut counts,
            latitudes,
            longitudes,
            initial_latitudes,
            initial_longitudes,
            buffer: &mut buffer,
        };
        let number = raw::fetch(map, layout, starts, letters, of, feature, lists, &mut got);
        let arrays = Answered::of(number, lent)
            .words("words", &got.words)
            .signed("signed_words", &got.signed_words)
            .floats("degrees", &got.degrees)
            .words("ids", &got.ids)
            .words("tags", &got.tags);
        let names = ["latitudes", "longitudes", "initial_latitudes", "initial_longitudes"];
        let lists = arrays.words("node_counts", &counts);
        let lists =
            names.into_iter().zip(&floats).fold(lists, |got, (name, list)| got.floats(name, list));
        lists.bytes("buffer", &buffer)
    }
}

/// A state that says the same in odd words, where the library takes any.
fn odd(state: &State, lent: u64) -> State {
    let mut odd = *state;
    if state[word::STATE_WAITS] != 0 {
        odd[word::STATE_WAITS] = lent;
        if state[word::WAITING_HEAD_PLAIN] != 0 {
            odd[word::WAITING_HEAD_PLAIN] = lent;
        }
    }
    for k in [word::STATE_WATER, word::STATE_PLAIN] {
        if state[k] != 0 {
            odd[k] = lent;
        }
    }
    odd
}

pub fn next(opened: &Opened<'_>, state: &State, lent: u64) -> Answered {
    let Opened { map, layout, letters, .. } = opened;
    let (mut signed, mut ids) = ([lent as i64; 2], [lent; 15]);
    let (mut degrees, before) = ([f64::from_bits(lent); 2], odd(state, lent));
    let mut after = before;
    let got = of_words::<22>(lent, |words| {
        let (signed, degrees, ids) = (&mut signed, &mut degrees, &mut ids);
        raw::stream_next(map, layout, letters, &mut after, words, signed, degrees, ids)
    });
    let got = got.signed("signed_words", &signed).floats("degrees", &degrees);
    got.words("ids", &ids).state(&before, &after)
}

/// Node counts, latitudes and longitudes of these lengths are lent.
pub fn accept(map: &[u8], state: &State, lengths: &Lengths, lent: u64) -> Answered {
    let (mut degrees, before) = ([f64::from_bits(lent); 2], odd(state, lent));
    let [counts, nodes, others, ..] = lengths.map(|length| length as usize);
    let mut counts = vec![lent; counts];
    let [mut latitudes, mut longitudes] =
        [nodes, others].map(|length| vec![f64::from_bits(lent); length]);
    let mut after = before;
    let got = of_words::<19>(lent, |words| {
        raw::stream_accept(
            map,
            &mut after,
            &mut counts,
            &mut latitudes,
            &mut longitudes,
            words,
            &mut degrees,
        )
    });
    let got = got.floats("degrees", &degrees).state(&before, &after);
    got.of_nodes(&counts, &latitudes, &longitudes)
}

pub fn decline(state: &State, lent: u64) -> Answered {
    let before = odd(state, lent);
    let mut after = before;
    let got = of_words::<6>(lent, |words| raw::stream_decline(&mut after, words));
    got.state(&before, &after)
}

pub fn measure_way_data(map: &[u8], at: usize, blocks: u64, lent: u64) -> Answered {
    of_words::<10>(lent, |words| raw::measure_way_data(map, at, blocks, words))
}

pub fn read_way_data(map: &[u8], blocks: u64, lengths: &Lengths, lent: u64) -> Answered {
    let [counts, nodes, others, ..] = lengths.map(|length| length as usize);
    let mut counts = vec![lent; counts];
    let [mut latitudes, mut longitudes] =
        [nodes, others].map(|length| vec![f64::from_bits(lent); length]);
    let got = of_words::<10>(lent, |words| {
        raw::read_way_data(
            map,
            0,
            blocks,
            false,
            &mut counts,
            &mut latitudes,
            &mut longitudes,
            words,
        )
    });
    got.of_nodes(&counts, &latitudes, &longitudes)
}

impl Answered {
    fn of_nodes(self, counts: &[u64], latitudes: &[f64], longitudes: &[f64]) -> Answered {
        let got = self.words("node_counts", counts).floats("latitudes", latitudes);
        got.floats("longitudes", longitudes)
    }
}

fn of_words<const N: usize>(lent: u64, call: impl FnOnce(&mut [u64; N]) -> u64) -> Answered {
    let mut words = [lent; N];
    let number = call(&mut words);
    Answered::of(number, lent).words("words", &words)
}
