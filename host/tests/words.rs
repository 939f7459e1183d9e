//! What include/mapsforge.h says of words: which of them each answer writes, and what those say that the wrapper does not
//! read.

mod common;

use common::lent::{self, twice, Answered, Entry, Lengths, Told, Writes};
use common::{map_bytes, SHIPPED};
use mapsforge::raw::{self, FetchLists, FetchWords, Listed};
use mapsforge::{word, Map};
use std::collections::BTreeSet;

const SUB_FILE: usize = 2;
const GRID: [i32; 4] = [4094, 2270, 4097, 2272];

/// A map's sub file 2, as the library's calls take it.
struct Tiles {
    bytes: Vec<u8>,
    layout: [u64; word::LAYOUT_WORDS],
    starts: Vec<u64>,
    letters: Vec<u8>,
    interval: [u64; word::INTERVAL_WORDS],
}

type State = [u64; word::STATE_WORDS];
type Next = [u64; word::NEXT_WORDS];
type Body = [u64; word::ACCEPT_WORDS];

impl Tiles {
    fn of(name: &str) -> Tiles {
        let bytes = map_bytes(name);
        let (mut layout, mut interval) = ([7; word::LAYOUT_WORDS], [7; 6]);
        // The maps have 43 tags of points and 58 of ways.
        let (mut starts, mut letters) = (vec![7; 101], vec![7; 101]);
        let (lists, words) = ((&mut starts, &mut letters), &mut [7; 34]);
        assert_eq!(raw::open(&bytes, lists.0, lists.1, words, &mut [7.0; 6], &mut layout), 0);
        assert_eq!(raw::interval(&bytes, &layout, SUB_FILE, &mut [7; 6], &mut interval), 0);
        Tiles { bytes, layout, starts, letters, interval }
    }

    fn opened(&self) -> lent::Opened<'_> {
        let Tiles { bytes, layout, starts, letters, .. } = self;
        lent::Opened { map: bytes, layout: *layout, starts, letters }
    }

    fn lent(&self) -> lent::Tiles<'_> {
        lent::Tiles { opened: self.opened(), interval: self.interval, grid: GRID }
    }

    fn collect(&self, tile: usize) -> ([u64; word::COLLECT_WORDS], [u64; 200]) {
        let (mut words, mut places) = ([7; word::COLLECT_WORDS], [7; 200]);
        let (points, ways) = (&mut [7; 256], &mut [7; 256]);
        let number = raw::collect(
            &self.bytes,
            &self.layout,
            &self.letters,
            &self.interval,
            GRID,
            tile,
            &mut words,
            points,
            ways,
            &mut places,
        );
        assert_eq!(number, 0);
        (words, places)
    }

    /// A stream at the highest zoom, so of the whole tile.
    fn open(&self, tile: usize) -> State {
        let mut state = [7; word::STATE_WORDS];
        let number = raw::stream_open(
            &self.bytes,
            &self.layout,
            &self.interval,
            SUB_FILE,
            GRID,
            tile,
            u8::MAX,
            &mut state,
            &mut [7; 6],
        );
        assert_eq!(number, 0);
        state
    }

    fn next(&self, state: &mut State) -> Next {
        let mut words = [7; word::NEXT_WORDS];
        let number = raw::stream_next(
            &self.bytes,
            &self.layout,
            &self.letters,
            state,
            &mut words,
            &mut [7; 2],
            &mut [7.0; 2],
            &mut [7; 15],
        );
        assert_eq!(number, 0);
        words
    }

    fn accept(&self, state: &mut State) -> Body {
        let mut words = [7; word::ACCEPT_WORDS];
        let (counts, places) = (&mut [7; 100], &mut [[7.0; 1000]; 2]);
        let [latitudes, longitudes] = places;
        let number = raw::stream_accept(
            &self.bytes,
            state,
            counts,
            latitudes,
            longitudes,
            &mut words,
            &mut [7.0; 2],
        );
        assert_eq!(number, 0);
        words
    }

    fn fetch(&self, tile: usize, feature: u64) -> (Vec<u64>, FetchWords) {
        let (mut counts, mut got) = (vec![0; 100], FetchWords::default());
        let lists = FetchLists {
            node_counts: &mut counts,
            latitudes: &mut [7.0; 1000],
            longitudes: &mut [7.0; 1000],
            initial_latitudes: &mut [7.0; 100],
            initial_longitudes: &mut [7.0; 100],
            buffer: &mut [b'#'; 1000],
        };
        let (words, places) = &self.collect(tile);
        let [points, ways] = [word::COLLECT_POINTS, word::COLLECT_WAYS].map(|k| words[k]);
        let of = Listed { places, points, ways };
        let Tiles { bytes, layout, starts, letters, .. } = self;
        let number = raw::fetch(bytes, layout, starts, letters, of, feature, lists, &mut got);
        assert_eq!(number, 0);
        (counts, got)
    }
}

// ---- results

/// A header in the making, and the words that opening gives of it.
struct Made {
    bytes: Vec<u8>,
    words: [u64; word::OPEN_WORDS],
    degrees: [f64; word::OPEN_DEGREES],
    layout: [u64; word::LAYOUT_WORDS],
    /// The listed tags: where each starts, and its letter.
    listed: Vec<(u64, u8)>,
}

impl Made {
    /// The last `size` bytes of a number.
    fn number(&mut self, number: u64, size: usize) {
        self.bytes.extend(&number.to_be_bytes()[8 - size..]);
    }

    fn word(&mut self, word: usize, number: u64, size: usize) {
        self.words[word] = number;
        self.number(number, size);
    }

    /// Two positions, or one, from this one of the degrees on.
    fn degrees(&mut self, first: usize, microdegrees: &[i32]) {
        for (k, &number) in microdegrees.iter().enumerate() {
            self.degrees[first + k] = f64::from(number) / 1e6;
            self.number(number as u64, 4);
        }
    }

    /// Its place, and its size.
    fn text(&mut self, text: &str) -> [u64; 2] {
        let place = self.bytes.len() as u64 + 1;
        self.number(text.len() as u64, 1);
        self.bytes.extend(text.bytes());
        [place, text.len() as u64]
    }

    fn part(&mut self, first: usize, text: &str) {
        let [place, size] = self.text(text);
        self.words[first + word::PART_THERE] = 1;
        self.words[first + word::PART_PLACE] = place;
        self.words[first + word::PART_SIZE] = size;
    }

    fn tags(&mut self, words: [usize; 2], layout: [usize; 2], names: &[&str]) {
        self.number(names.len() as u64, 2);
        let known = [self.bytes.len() as u64, names.len() as u64];
        for k in 0..2 {
            (self.words[words[k]], self.layout[layout[k]]) = (known[k], known[k]);
        }
        for name in names {
            let start = self.bytes.len() as u64;
            // Of these names the letter is the last byte; another one counts as none.
            let letter = name.split_once("=%").map_or(0, |(_, behind)| behind.as_bytes()[0]);
            self.listed.push((start, if b"bhifs".contains(&letter) { letter } else { 0 }));
            self.text(name);
        }
    }

    /// A header with the fields that the flags say, and two intervals.
    fn with(flags: u64) -> Made {
        // The values of a refusal keep what is lent.
        let mut words = [0; word::OPEN_WORDS];
        words[..word::VALUES].fill(7);
        let mut made = Made {
            bytes: b"mapsforge binary OSM".to_vec(),
            words,
            degrees: [0.0; word::OPEN_DEGREES],
            layout: [0; word::LAYOUT_WORDS],
            listed: Vec::new(),
        };
        made.words[word::OPEN_MAGIC_SIZE] = 20;
        made.word(word::OPEN_HEADER_SIZE, 300, 4);
        made.word(word::OPEN_VERSION, 5, 4);
        made.word(word::OPEN_FILE_SIZE, 9_000, 8);
        made.word(word::OPEN_DATE, 1_700_000_000_123, 8);
        assert_eq!([word::OPEN_WEST, word::OPEN_NORTH, word::OPEN_EAST], [1, 2, 3]);
        made.degrees(word::OPEN_SOUTH, &[-1_000_000, -2_000_001, 3_000_000, 4_000_000]);
        made.word(word::OPEN_TILE_SIZE, 257, 2);
        [made.words[word::OPEN_PROJECTION], made.words[word::OPEN_PROJECTION_SIZE]] =
            made.text("Mercator");
        made.word(word::OPEN_FLAGS, flags, 1);
        if flags & 0x40 != 0 {
            made.words[word::OPEN_HAS_START_POSITION] = 1;
            assert_eq!(word::OPEN_START_LONGITUDE, word::OPEN_START_LATITUDE + 1);
            made.degrees(word::OPEN_START_LATITUDE, &[1_500_000, -1_700_000]);
        }
        if flags & 0x20 != 0 {
            made.words[word::OPEN_HAS_START_ZOOM] = 1;
            made.word(word::OPEN_START_ZOOM, 17, 1);
        }
        let parts = [word::OPEN_LANGUAGE, word::OPEN_COMMENT, word::OPEN_CREATED_BY];
        for (k, part) in parts.into_iter().enumerate().filter(|(k, _)| flags & 0x10 >> k != 0) {
            made.part(part, &"text"[k..]);
        }
        made.tags(
            [word::OPEN_POINT_TAGS, word::OPEN_POINT_TAG_COUNT],
            [word::LAYOUT_POINT_TAGS, word::LAYOUT_POINT_TAG_COUNT],
            &["a=b", "c=%h"],
        );
        made.tags(
            [word::OPEN_WAY_TAGS, word::OPEN_WAY_TAG_COUNT],
            [word::LAYOUT_WAY_TAGS, word::LAYOUT_WAY_TAG_COUNT],
            &["e=%s", "g=h", "i=%x%b"],
        );
        made.word(word::OPEN_SUB_FILES, 2, 1);
        made.layout[word::LAYOUT_INTERVALS] = made.bytes.len() as u64;
        made.layout[word::LAYOUT_INTERVAL_COUNT] = 2;
        for interval in INTERVALS {
            for (number, size) in interval.into_iter().zip([1, 1, 1, 8, 8]) {
                made.number(number, size);
            }
        }
        made.words[word::OPEN_END] = made.bytes.len() as u64;
        made
    }
}

/// Base zoom, lowest and highest zoom, start and size.
const INTERVALS: [[u64; 5]; 2] = [[8, 3, 9, 400, 500], [13, 12, 21, 1_000, 600]];

#[test]
fn opening_gives_the_headers_fields() {
    // Each of the five fields that a header may do without is there, or is not.
    for flags in (0..0x80).step_by(4) {
        let made = Made::with(flags);
        let (mut words, mut degrees, mut layout) = ([7; 34], [7.0; 6], [7; 7]);
        let (mut starts, mut letters) = ([7; 6], [7; 7]);
        let lists = (&mut starts, &mut letters);
        let number =
            raw::open(&made.bytes, lists.0, lists.1, &mut words, &mut degrees, &mut layout);
        assert_eq!(number, 0);
        assert_eq!((words, degrees, layout), (made.words, made.degrees, made.layout));
        // Five tags, and entries behind them that nobody writes.
        let (known_starts, known_letters): (Vec<_>, Vec<_>) = made.listed.iter().copied().unzip();
        assert_eq!((&starts[..5], &letters[..5]), (&known_starts[..], &known_letters[..]));
        assert_eq!(letters[..5], *b"\0hs\0\0");
        assert_eq!((starts[5], &letters[5..]), (7, &[7; 2][..]));
        for (sub_file, known) in INTERVALS.into_iter().enumerate() {
            let mut interval = [7; word::INTERVAL_WORDS];
            let number = raw::interval(&made.bytes, &layout, sub_file, &mut [7; 6], &mut interval);
            assert_eq!(number, 0);
            assert_eq!(interval[word::INTERVAL_THERE], 1);
            let fields = [
                word::INTERVAL_BASE_ZOOM,
                word::INTERVAL_MIN_ZOOM,
                word::INTERVAL_MAX_ZOOM,
                word::INTERVAL_START,
                word::INTERVAL_SIZE,
            ];
            assert_eq!(fields.map(|field| interval[field]), known);
        }
    }
}

#[test]
fn shipped_maps_have_their_magic_and_their_debug_flag() {
    for name in SHIPPED {
        let (bytes, mut words, mut layout) = (map_bytes(name), [7; word::OPEN_WORDS], [7; 7]);
        // A list as long as any map needs.
        let mut lists = (vec![7; word::MOST_ENTRIES], vec![7; word::MOST_ENTRIES]);
        let number =
            raw::open(&bytes, &mut lists.0, &mut lists.1, &mut words, &mut [7.0; 6], &mut layout);
        assert_eq!(number, 0);
        assert_eq!(word::MOST_ENTRIES, 2 * usize::from(u16::MAX));
        let (magic, size) = (words[word::OPEN_MAGIC] as usize, words[word::OPEN_MAGIC_SIZE]);
        assert_eq!(&bytes[magic..][..size as usize], b"mapsforge binary OSM");
        assert_eq!(layout[word::LAYOUT_DEBUG], u64::from(name == "islands-debug.map"));
    }
}

#[test]
fn a_tile_count_and_a_kind_may_be_of_nothing() {
    let tiles = Tiles::of("islands.map");
    let mut words = [7; word::TILE_COUNT_WORDS];
    assert_eq!(raw::tile_count(&tiles.interval, GRID, &mut words), 0);
    assert_eq!(words[word::TILE_COUNT_THERE..], [1, 12]);
    assert_eq!(raw::tile_count(&[0; 6], GRID, &mut words), 0);
    assert_eq!(words[word::TILE_COUNT_THERE..], [0, 12]);

    let map = Map::open(&tiles.bytes).unwrap();
    for (k, tag) in map.point_tags().iter().enumerate() {
        let (mut words, count) = ([7; word::TAG_WORDS], map.point_tags().len());
        let lists = (map.starts(), map.letters());
        assert_eq!(raw::tag(&tiles.bytes, lists.0, lists.1, 0, count, k, &mut words), 0);
        assert_eq!(words[word::TAG_KIND] == word::KIND_NONE, tag.kind.is_none());
        // It ends where the next one starts.
        let next = map.starts()[k + 1];
        assert!(k + 1 == count || words[word::TAG_END] == next);
    }
}

/// A stream's state at each step, against what the calls say.
#[test]
fn a_state_has_what_is_to_come() {
    for name in SHIPPED {
        let tiles = Tiles::of(name);
        for tile in 0..12 {
            let (whole, places) = tiles.collect(tile);
            let mut state = tiles.open(tile);
            // The points stand behind the head, from where the first way's offset is counted.
            let offset = whole[word::COLLECT_FIRST_WAY_OFFSET];
            assert_eq!(state[word::IDLE_WAY] - state[word::IDLE_POINT], offset);
            let mut places = places.into_iter();
            // All tiles of the first column are water.
            assert_eq!(state[word::STATE_WATER], u64::from(tile % 4 == 0));
            let mut points = whole[word::COLLECT_POINTS];
            let mut ways = whole[word::COLLECT_WAYS];
            loop {
                assert_eq!(state[word::STATE_WAITS], 0);
                assert_eq!(state[word::STATE_SUB_FILE], SUB_FILE as u64);
                // All numbers of the shipped maps are plain.
                assert_eq!(state[word::STATE_PLAIN], 1);
                assert_eq!([state[word::IDLE_POINTS], state[word::IDLE_WAYS]], [points, ways]);
                // What comes next starts where collecting listed it.
                let start =
                    if points > 0 { state[word::IDLE_POINT] } else { state[word::IDLE_WAY] };
                let listed = places.next();
                assert_eq!(listed, Some(if points + ways > 0 { start } else { 7 }));
                let next = tiles.next(&mut state);
                match next[word::NEXT_KIND] {
                    word::POINT => {
                        points -= 1;
                        // A stream gives no signatures, in a debug map either.
                        let signature = &next[word::NEXT_SIGNATURE..][..word::PART_WORDS];
                        assert_eq!(signature, [0; word::PART_WORDS]);
                    }
                    word::WAY => {
                        ways -= 1;
                        state = waiting(&tiles, state, ways);
                    }
                    kind => {
                        assert_eq!((kind, points, ways), (word::END, 0, 0));
                        assert_eq!(next[word::NEXT_PLAIN], whole[word::COLLECT_PLAIN]);
                        break;
                    }
                }
            }
        }
    }
}

/// Accepts the way that waits, so many before the last, and gives the state behind it.
fn waiting(tiles: &Tiles, state: State, ways: u64) -> State {
    assert_eq!([state[word::STATE_WAITS], state[word::WAITING_WAYS]], [1, ways]);
    let mut declined = state;
    assert_eq!(raw::stream_decline(&mut declined, &mut [7; 6]), 0);
    assert_eq!(declined[word::IDLE_WAY], state[word::WAITING_PAST]);
    let mut accepted = state;
    let body = tiles.accept(&mut accepted);
    // The body is read from its start on, whatever its stored size says.
    let mut other = state;
    other[word::WAITING_PAST] = 0;
    assert_eq!((tiles.accept(&mut other), other), (body, accepted));
    assert!(state[word::WAITING_BODY] < accepted[word::IDLE_WAY]);
    said_of_the_head(tiles, state, body);
    accepted
}

/// Accept goes by the word that says whether the waiting way's head was plain. Any word but 0 says yes.
fn said_of_the_head(tiles: &Tiles, state: State, body: Body) {
    assert_eq!((state[word::WAITING_HEAD_PLAIN], body[word::ACCEPT_PLAIN]), (1, 1));
    for said in [0, 1, 7, u64::MAX] {
        let mut other = state;
        other[word::WAITING_HEAD_PLAIN] = said;
        let mut expected = body;
        expected[word::ACCEPT_PLAIN] = u64::from(said != 0);
        assert_eq!(tiles.accept(&mut other), expected);
        assert_eq!(other[word::STATE_PLAIN], u64::from(said != 0));
        // What was not plain before stays so, with any word for yes too; declining says nothing of the body.
        for before in [0, 9] {
            let mut declined = state;
            (declined[word::STATE_PLAIN], declined[word::WAITING_HEAD_PLAIN]) = (before, said);
            let mut accepted = declined;
            assert_eq!(raw::stream_decline(&mut declined, &mut [7; 6]), 0);
            assert_eq!(declined[word::STATE_PLAIN], u64::from(before != 0));
            tiles.accept(&mut accepted);
            assert_eq!(accepted[word::STATE_PLAIN], u64::from(before != 0 && said != 0));
        }
    }
}

#[test]
fn nodes_are_counted() {
    let tiles = Tiles::of("islands.map");
    for feature in 35..176 {
        let (counts, got) = tiles.fetch(10, feature);
        let blocks = got.words[word::FETCH_BLOCKS] as usize;
        assert_eq!(got.words[word::FETCH_NODES], counts[..blocks].iter().sum());
    }
    // Two nodes in one block, and a byte behind them.
    let mut words = [7; word::WAY_DATA_WORDS];
    assert_eq!(raw::measure_way_data(&[1, 2, 1, 1, 2, 2, 9], 0, 1, &mut words), 0);
    let got = [word::WAY_DATA_BLOCKS, word::WAY_DATA_NODES, word::WAY_DATA_END].map(|k| words[k]);
    assert_eq!(got, [1, 2, 6]);
    assert_eq!(words[word::WAY_DATA_PLAIN], 1);
}

/// Tags that start where no names are: each is empty, and nothing is refused for that.
#[test]
fn names_behind_the_map_are_empty() {
    let tiles = Tiles::of("islands.map");
    // The two points of this tile have no inline values.
    let known = [tiles.fetch(8, 0).1, tiles.fetch(8, 1).1];
    let behind = tiles.bytes.len() as u64 + 1;
    // A list without entries has no starts either.
    for starts in [vec![behind; 101], Vec::new()] {
        let tiles = Tiles { starts, ..Tiles::of("islands.map") };
        for (point, known) in known.iter().enumerate() {
            let got = tiles.fetch(8, point as u64).1;
            assert_eq!((got.words, got.ids, got.degrees), (known.words, known.ids, known.degrees));
            assert!(known.tags[word::STRING_SIZE] > 0);
            assert_eq!(got.tags, [0; 75]);
        }
        // Asked for itself, such a name is refused: there is no text, or no entry.
        let mut words = [7; word::TAG_WORDS];
        let (starts, number) = (&tiles.starts, if tiles.starts.is_empty() { 7 } else { 1 });
        assert_eq!(raw::tag(&tiles.bytes, starts, &tiles.letters, 0, 43, 2, &mut words), number);
        assert_eq!(words[1..], [7; word::TAG_WORDS - 1]);
        assert_eq!(words[word::VALUE], if number == 7 { 2 } else { 7 });
    }
}

/// What the layout's words say of the places of tags does not matter: the lists say where they are.
#[test]
fn no_call_looks_where_the_layout_has_the_tags() {
    let tiles = Tiles::of("islands.map");
    let mut other = Tiles::of("islands.map");
    other.layout[word::LAYOUT_POINT_TAGS] = 0;
    other.layout[word::LAYOUT_WAY_TAGS] = u64::MAX;
    for tile in 0..12 {
        assert_eq!(other.collect(tile), tiles.collect(tile));
    }
    assert_eq!(other.fetch(10, 40).1.tags, tiles.fetch(10, 40).1.tags);
}

/// A map of one tile, right behind its entry: a way with one tag, of which the value is the byte 7F. Behind the way, whose
/// stored size is 7, stands a byte more.
const ONE_WAY: [u8; 17] = [0, 0, 0, 0, 5, 0, 1, 0, 7, 0xff, 0xff, 0x51, 0, 0x7f, 0, 0, 0];

/// The answer of collecting it with these letters, and whether the stored size is the decoded length.
fn one_way(letters: &[u8]) -> (u64, u64) {
    let (layout, interval) = ([0, 0, 0, 0, 1, 0, 0], [1, 0, 0, 0, 0, 99]);
    let mut words = [7; word::COLLECT_WORDS];
    let (points, ways, mut places) = (&mut [7; 256], &mut [7; 256], [7]);
    let number = raw::collect(
        &ONE_WAY,
        &layout,
        letters,
        &interval,
        [0; 4],
        0,
        &mut words,
        points,
        ways,
        &mut places,
    );
    assert_eq!(places, if number == 0 { [8] } else { [7] });
    (number, words[word::COLLECT_EXACT])
}

#[test]
fn values_are_skipped_by_the_listed_letter() {
    assert_eq!(one_way(b"b"), (0, 1));
    // Two bytes are skipped: the flags too, so that the way ends a byte later.
    assert_eq!(one_way(b"h"), (0, 0));
    // Nothing is: 7F is taken for the flags, and the map ends before all that they say.
    assert_eq!(one_way(b"\0"), (1, 7));
    assert_eq!(one_way(b"x"), (1, 7));
    // Nor is a value by a letter behind the end of the list, or by one that is another tag's.
    assert_eq!(one_way(b""), (1, 7));
    assert_eq!(one_way(b"\0b"), (1, 7));
}

// ---- which words are written

/// The calls and answers that were tried, against what the header says of them.
struct Tried {
    writes: Writes,
    answers: BTreeSet<(String, String)>,
}

impl Tried {
    /// An answer that writes its own words of arrays, and these fronts of lists.
    fn of_lists(&mut self, call: &str, answer: &str, told: &Told, fronts: &[(&'static str, u64)]) {
        assert_eq!(told.number, 0, "{call}: {answer}");
        let rows = if call == "collect" { told.word(word::COLLECT_ROWS) } else { 0 };
        let mut own = self.writes.own(call, answer, rows);
        for &(list, length) in fronts {
            own.extend((0..length as usize).map(|k| -> Entry { (list, k) }));
        }
        told.wrote(&own);
        self.answers.insert((call.into(), answer.into()));
    }

    fn of(&mut self, call: &str, answer: &str, asked: impl FnMut(u64) -> Answered) -> Told {
        let told = twice(asked);
        self.of_lists(call, answer, &told, &[]);
        told
    }

    /// A call that needs lists: refused without, then made with some entries more than it needs.
    fn with_lists(
        &mut self,
        call: &str,
        answer: impl Fn(&Told) -> &'static str,
        mut asked: impl FnMut(&Lengths, u64) -> Answered,
    ) -> Told {
        let empty = twice(|lent| asked(&[0; 6], lent));
        let needed = if empty.number == 15 { empty.refusal() } else { [0; 6] };
        let enough = needed.map(|length| length + 3);
        // Each list by one entry too short.
        for k in (0..6).filter(|&k| needed[k] > 0) {
            let mut lengths = enough;
            lengths[k] = needed[k] - 1;
            let short = twice(|lent| asked(&lengths, lent));
            assert_eq!((short.number, short.refusal()), (15, needed));
        }
        let told = twice(|lent| asked(&enough, lent));
        let names = list_names(call);
        let fronts: Vec<_> = names.into_iter().zip(needed).filter(|(_, n)| *n > 0).collect();
        self.of_lists(call, answer(&told), &told, &fronts);
        told
    }
}

/// The lists that a call writes, in the order of refusal 15's values.
fn list_names(call: &str) -> [&'static str; 6] {
    let [mut first, mut second] = ["node_counts", "latitudes"];
    if call == "open" {
        [first, second] = ["starts", "letters"];
    }
    if call == "collect" {
        first = "places";
    }
    [first, second, "longitudes", "initial_latitudes", "initial_longitudes", "buffer"]
}

#[test]
fn each_answer_writes_its_own_words() {
    let mut tried = Tried { writes: Writes::read(), answers: BTreeSet::new() };
    for flags in [0, 0x7c] {
        open(&mut tried, &Made::with(flags).bytes);
    }
    for name in SHIPPED {
        let tiles = Tiles::of(name);
        of_header(&mut tried, &tiles);
        for tile in 0..12 {
            of_tile(&mut tried, &tiles, tile);
            wanted(&mut tried, &tiles, tile);
        }
    }
    windows(&mut tried);
    tried.of("column", "a column", |lent| lent::column(0.5, 13, lent));
    tried.of("longitude", "a longitude", |lent| lent::longitude(4096, 13, lent));
    let text = b"\xff text";
    let told = twice(|lent| lent::text(text, 9, lent));
    tried.of_lists("text", "a text", &told, &[("buffer", 8)]);
    // Two nodes in one block.
    let data = [1, 2, 1, 1, 2, 2];
    tried.of("measure_way_data", "a way", |lent| lent::measure_way_data(&data, 0, 1, lent));
    tried.with_lists(
        "read_way_data",
        |_| "a way",
        |lengths, lent| lent::read_way_data(&data, 1, lengths, lent),
    );
    for (classes, accepted) in [([0; 32], 0), ([63; 32], 1)] {
        let told = tried.of("shows", "a way", |lent| lent::shows(&classes, 255, &[7, 0], lent));
        assert_eq!(told.word(word::SHOWS_ACCEPT), accepted);
    }
    // Each answer that the header tells of was there.
    assert_eq!(tried.answers, tried.writes.answers());
    assert_eq!(tried.answers.len(), 30);
    // Rules that pass write no word, but the front of the table.
    let told = twice(|lent| lent::check_rules(&[0, 0, 7, 0xc0 | 5], 1, 35, lent));
    assert_eq!(told.number, 0);
    told.wrote(&(0..32).map(|k| -> Entry { ("classes", k) }).collect());
}

/// The tiles of some windows, and none behind the last.
fn windows(tried: &mut Tried) {
    for window in
        [[i64::MIN, i64::MIN, i64::MAX, i64::MAX], [16383, 9080, 16384, 9080], [5, 0, 4, 0]]
    {
        let count =
            tried.of("window_count", "a count", |lent| lent::window_count(GRID, window, lent));
        let count = count.word(word::WINDOW_COUNT_TILES);
        for k in 0..count {
            let told =
                tried.of("window_tile", "a tile", |lent| lent::window_tile(GRID, window, k, lent));
            assert_eq!(told.word(word::WINDOW_TILE_THERE), 1);
        }
        for k in [count, u64::MAX] {
            let told =
                tried.of("window_tile", "none", |lent| lent::window_tile(GRID, window, k, lent));
            assert_eq!(told.word(word::WINDOW_TILE_THERE), 0);
        }
    }
}

/// What a tile's stream wants under some decisions, against what that stream gives.
fn wanted(tried: &mut Tried, tiles: &Tiles, tile: usize) {
    for decisions in [&[1; 200][..], &[0, 1, 0, 255], &[]] {
        let asked = tiles.lent();
        let told =
            tried.of("wanted", "a tile", |lent| asked.wanted(tile, u8::MAX, decisions, lent));
        let figures = [
            word::WANTED_POINTS,
            word::WANTED_WAYS,
            word::WANTED_BLOCKS,
            word::WANTED_NODES,
            word::WANTED_TEXT,
        ];
        assert_eq!(figures.map(|k| told.word(k)), given(tiles, tile, decisions));
    }
}

/// The points and the accepted ways of a tile's stream, the most blocks and nodes of one way, and the longest text. All
/// texts of the shipped maps are valid.
fn given(tiles: &Tiles, tile: usize, decisions: &[u8]) -> [u64; 5] {
    let (mut state, mut decisions) = (tiles.open(tile), decisions.iter());
    let [mut points, mut ways, mut blocks, mut nodes, mut text] = [0; 5];
    let longest = |words: &[u64], parts: &[usize], text: u64| {
        parts.iter().map(|part| words[part + word::PART_SIZE]).fold(text, u64::max)
    };
    loop {
        let next = tiles.next(&mut state);
        match next[word::NEXT_KIND] {
            word::POINT => {
                points += 1;
                text = longest(&next, &[word::NEXT_NAME, word::NEXT_HOUSE_NUMBER], text);
            }
            word::WAY if decisions.next().is_some_and(|&byte| byte != 0) => {
                let body = tiles.accept(&mut state);
                ways += 1;
                blocks = body[word::ACCEPT_BLOCKS].max(blocks);
                nodes = body[word::ACCEPT_NODES].max(nodes);
                let parts = [word::ACCEPT_NAME, word::ACCEPT_HOUSE_NUMBER, word::ACCEPT_REFERENCE];
                text = longest(&body, &parts, text);
            }
            word::WAY => assert_eq!(raw::stream_decline(&mut state, &mut [7; 6]), 0),
            _ => return [points, ways, blocks, nodes, text],
        }
    }
}

fn open(tried: &mut Tried, map: &[u8]) {
    tried.with_lists("open", |_| "a map", |lengths, lent| lent::open(map, lengths, lent));
}

/// Opening, intervals, tags, and places in a grid.
fn of_header(tried: &mut Tried, tiles: &Tiles) {
    let Tiles { bytes, layout, interval, .. } = tiles;
    open(tried, bytes);
    for sub_file in 0..3 {
        tried.of("interval", "an interval", |lent| lent::interval(bytes, layout, sub_file, lent));
    }
    tried.of("interval", "a missing one", |lent| lent::interval(bytes, layout, 3, lent));
    tried.of("sub_file", "a sub file", |lent| lent::sub_file(bytes, layout, 14, lent));
    tried.of("sub_file", "none", |lent| lent::sub_file(bytes, layout, 22, lent));
    let [first, count] =
        [word::LAYOUT_POINT_TAG_COUNT, word::LAYOUT_WAY_TAG_COUNT].map(|k| layout[k] as usize);
    for k in 0..count {
        tried.of("tag", "a tag", |lent| lent::tag(&tiles.opened(), first, count, k, lent));
    }
    let missing = [0; word::INTERVAL_WORDS];
    tried.of("tile_count", "a count", |lent| lent::tile_count(interval, GRID, lent));
    tried.of("tile_count", "a missing sub file", |lent| lent::tile_count(&missing, GRID, lent));
    let index = |of: &lent::Interval, x, lent| lent::tile_index(of, GRID, x, 2271, lent);
    tried.of("tile_index", "a number", |lent| index(interval, 4095, lent));
    tried.of("tile_index", "none", |lent| index(interval, 4098, lent));
    tried.of("tile_index", "none", |lent| index(&missing, 4095, lent));
}

/// A tile's entry, its features fetched, and its stream with each way declined and accepted.
fn of_tile(tried: &mut Tried, tiles: &Tiles, tile: usize) {
    let (asked, kind) = (tiles.lent(), |told: &Told| {
        if told.word(word::FETCH_KIND) == word::POINT {
            "a point"
        } else {
            "a way"
        }
    });
    tried.of("index_entry", "an entry", |lent| asked.entry(tile, lent));
    let collect = |lengths: &Lengths, lent| asked.collect(tile, lengths, lent);
    let whole = tried.with_lists("collect", |_| "a tile", collect);
    let [points, ways] = [word::COLLECT_POINTS, word::COLLECT_WAYS].map(|k| whole.word(k));
    let of = Listed { places: &whole.list("places"), points, ways };
    for k in 0..points + ways {
        tried.with_lists("fetch", kind, |lengths, lent| asked.opened.fetch(of, k, lengths, lent));
    }
    let opened = tried.of("stream_open", "a stream", |lent| asked.stream(2, tile, 21, lent));
    let (map, of_map, mut state) = (&tiles.bytes, tiles.opened(), opened.state());
    loop {
        let told = twice(|lent| lent::next(&of_map, &state, lent));
        let answer = ["a point", "a way", "the end"][told.word(word::NEXT_KIND) as usize];
        tried.of_lists("stream_next", answer, &told, &[]);
        state = told.state();
        if answer == "the end" {
            return;
        }
        if answer == "a way" {
            assert_eq!(twice(|lent| lent::next(&of_map, &state, lent)).refusal(), [0; 6]);
            tried.of("stream_decline", "a way", |lent| lent::decline(&state, lent));
            let accepted = tried.with_lists(
                "stream_accept",
                |_| "a way",
                |lengths, lent| lent::accept(map, &state, lengths, lent),
            );
            state = accepted.state();
        }
    }
}

/// A refused call writes its values and nothing else. tests/refusals.rs tries this of each call with each of its refusals;
/// here are some with arrays that hold results.
#[test]
fn refused_calls_leave_all_else_alone() {
    let tiles = Tiles::of("islands.map");
    let Tiles { bytes, interval, .. } = &tiles;
    let (asked, reversed) = (tiles.lent(), lent::Tiles { grid: [5, 0, 4, 0], ..tiles.lent() });
    let opened = lent::Opened { map: &bytes[..23_000], ..tiles.opened() };
    let front = lent::Tiles { opened, ..asked };
    let refused = |number: u64, values: [u64; 6], told: Told| {
        assert_eq!((told.number, told.refusal()), (number, values));
    };
    let none = [0; 6];
    refused(1, none, twice(|lent| lent::open(&bytes[..300], &[101; 6], lent)));
    let listed = [101, 101, 0, 0, 0, 0];
    refused(15, listed, twice(|lent| lent::open(bytes, &[101, 100, 0, 0, 0, 0], lent)));
    refused(15, listed, twice(|lent| lent::open(bytes, &[100, 200, 0, 0, 0, 0], lent)));
    refused(14, none, twice(|lent| lent::tile_count(interval, reversed.grid, lent)));
    refused(14, none, twice(|lent| reversed.entry(0, lent)));
    // Also where the window is reversed too, or there is no such tile.
    refused(14, none, twice(|lent| lent::window_count(reversed.grid, [1, 0, 0, 0], lent)));
    refused(14, none, twice(|lent| lent::window_tile(reversed.grid, [0; 4], 9, lent)));
    refused(8, none, twice(|lent| asked.stream(2, 12, 13, lent)));
    refused(8, none, twice(|lent| asked.collect(12, &[200; 6], lent)));
    for length in [0, 1, 175] {
        let lengths = [length, 0, 0, 0, 0, 0];
        let short = twice(|lent| asked.collect(10, &lengths, lent));
        assert_eq!(short.word(word::NEEDED_PLACES), 176);
        refused(15, [176, 0, 0, 0, 0, 0], short);
    }
    let (_, places) = tiles.collect(10);
    let of = Listed { places: &places, points: 35, ways: 141 };
    // A number at or above the count, as whole numbers, or at or above the list's length: no byte is read.
    let nothing = lent::Opened { map: &[], ..tiles.opened() };
    for opened in [&asked.opened, &nothing] {
        let fetch = |of, k| twice(|lent| opened.fetch(of, k, &[9; 6], lent));
        refused(17, none, fetch(of, 176));
        refused(17, none, fetch(of, u64::MAX));
        refused(17, none, fetch(Listed { ways: 140, ..of }, 175));
        refused(17, none, fetch(Listed { points: 0, ways: 0, ..of }, 0));
        refused(17, none, fetch(Listed { places: &places[..9], ..of }, 9));
        refused(17, none, fetch(Listed { points: u64::MAX, ways: u64::MAX, ..of }, 200));
        refused(17, none, fetch(Listed { places: &[], points: u64::MAX, ways: 1 }, u64::MAX));
    }
    // The zoom table can be read here, and the points too; a fetch of one does not look behind it.
    refused(1, none, twice(|lent| front.collect(10, &[200; 6], lent)));
    assert_eq!(twice(|lent| front.opened.fetch(of, 0, &[99; 6], lent)).number, 0);
    refused(1, none, twice(|lent| front.opened.fetch(of, 175, &[99; 6], lent)));
    refused(15, [0, 0, 0, 0, 0, 8], twice(|lent| lent::text(b"\xff text", 7, lent)));
    let rules = [0, 0, 7, 0xc0, 0, 1, 7, 0xc0];
    let short = twice(|lent| lent::check_rules(&rules, 2, 63, lent));
    assert_eq!(short.word(word::NEEDED_CLASSES), 64);
    refused(15, [64, 0, 0, 0, 0, 0], short);
    refused(22, none, twice(|lent| lent::check_rules(&rules, 1, 99, lent)));
    refused(24, [2, 0, 0, 0, 0, 0], twice(|lent| lent::check_rules(&rules, 3, 99, lent)));
    let twice_named = [rules, rules].concat();
    refused(23, none, twice(|lent| lent::check_rules(&twice_named, 2, 99, lent)));
}
