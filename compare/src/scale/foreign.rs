//! Words and lists of tags for a header that are not the map's own. Whatever they are, the answers are those of a map with
//! such a header. The Rust can be given it where the listed names have the listed letters; else the model answers alone.

use std::ops::Range;

use mapsforge_rs::header::DEBUG_INFO_MASK;
use mapsforge_rs::types::{BoundingBox, MapFile, MapHeader, ZoomInterval};

use super::check::{Call, Check, Checked, ANSWERS};
use super::lent::{Fronts, Lent};
use super::library::{
    self, degrees, Ask, Got, Interval, Next, State, TagLists, Tags, SIGNED, WORD,
};
use super::{asked, general, intervals, opening, streamed};
use crate::differences::tile::{Opened, Table};
use crate::random::Random;
use crate::source::Source;
use crate::tiles::Address;

/// The Rust is given up to so many tags of a table.
const TAGS: u64 = 1 << 10;
/// So many entries of a list are told.
const SHOWN: usize = 40;

/// A map that does not open has no words, and so no sub file.
pub fn unopened(map: &[u8]) -> MapFile<Source<'_>> {
    MapFile { header: header(false, &[0; 6]), reader: Source::new(map) }
}

/// The map with the header that the words say; the sub file is its first. Whether it has the tags that are listed, too:
/// it then has their names, and the Rust can be asked.
fn file<'a>(ask: &Ask<'a>) -> (MapFile<Source<'a>>, bool) {
    let [debug, _, points, _, ways, ..] = ask.layout;
    let header = header(debug != 0, &ask.interval);
    let mut file = MapFile { header, reader: Source::new(ask.map) };
    let opened = ask.opened(&file);
    let names = |table: Table, count: u64| {
        (count <= TAGS).then(|| opened.plain_names(table, count)).flatten()
    };
    let names = names(Table::Points, points).zip(names(Table::Ways, ways));
    let as_named = names.is_some();
    (file.header.poi_tags, file.header.way_tags) = names.unwrap_or_default();
    (file, as_named)
}

/// A header without tags; nothing else of it matters to a tile.
fn header(debug: bool, interval: &Interval) -> MapHeader {
    let intervals: Vec<ZoomInterval> = taken(interval).into_iter().collect();
    MapHeader {
        magic: String::new(),
        header_size: 0,
        file_version: 0,
        file_size: 0,
        creation_date: 0,
        bounding_box: BoundingBox { min_lat: 0.0, min_lon: 0.0, max_lat: 0.0, max_lon: 0.0 },
        tile_size: 0,
        projection: String::new(),
        flags: if debug { DEBUG_INFO_MASK } else { 0 },
        map_start_position: None,
        start_zoom_level: None,
        language_preference: None,
        comment: None,
        created_by: None,
        poi_tags: Vec::new(),
        way_tags: Vec::new(),
        num_zoom_intervals: intervals.len() as u8,
        zoom_interval_configuration: intervals,
    }
}

/// The header file: "any word 0 but 0 for a sub file that is there, and words 1 to 3 modulo 256".
fn taken(interval: &Interval) -> Option<ZoomInterval> {
    let [there, base, lowest, highest, start, size] = *interval;
    let zoom = |word: u64| (word % 256) as u8;
    (there != 0).then(|| ZoomInterval {
        base_zoom_level: zoom(base),
        min_zoom_level: zoom(lowest),
        max_zoom_level: zoom(highest),
        sub_file_start: start,
        sub_file_size: size,
    })
}

/// A tile by words and lists that are the map's own or were so once, some of them changed; and calls of a stream by words
/// that no call wrote.
pub fn compare(check: &mut Check, lent: &mut Lent, own: &Ask, random: &mut Random) -> Checked {
    let lists = random.lists(own);
    let ask = Ask { tags: lists.lend(), ..random.foreign(own) };
    let (mut file, as_named) = file(&ask);
    let ask = Ask { as_named, ..ask };
    let place = |why| told(&ask, why);
    intervals::made_up(check, ask.map, &ask.layout, random)?;
    some_tag(check, &file, &ask, random).map_err(place)?;
    asked::grid(check, &file, &ask, random).map_err(place)?;
    asked::tile(check, lent, &mut file, &ask, random).map_err(place)?;
    let state = random.state(ask.map.len());
    let place = |why| place(format!("state {state:x?}: {why}"));
    made_up(check, lent, &ask, &state, random).map_err(place)
}

/// What is asked, beside what differs. Long lists are not shown.
fn told(ask: &Ask, why: String) -> String {
    let Ask { layout, interval, tags, .. } = ask;
    let starts = &tags.starts[..tags.starts.len().min(SHOWN)];
    let letters = &tags.letters[..tags.letters.len().min(SHOWN)];
    let words = format!("layout {layout:x?}, interval {interval:x?}");
    format!("{words}, starts {starts:x?}, letters {letters:x?}: {why}")
}

/// A tag by the lists, whichever entries are asked for.
fn some_tag(check: &mut Check, file: &MapFile<Source>, ask: &Ask, random: &mut Random) -> Checked {
    let [points, ways] = [ask.layout[2], ask.layout[4]];
    let [first, count] =
        [[0, points], [points, ways], [random.next() >> random.below(64), ways]][random.below(3)];
    let near = (count.min(1 << 16) as usize + 2).min(ask.tags.starts.len() + 2);
    let k = [random.below(near), random.next() as usize][usize::from(random.below(16) == 0)];
    opening::listed_tag(check, Opened::of(file), &ask.tags, [first, count], k)
}

/// Each call of a stream by made-up words for its state. What it answers nothing is compared with, but it writes no
/// words of other answers, and a refused one leaves all eight words as they are, in whatever form, and the lists too.
fn made_up(
    check: &mut Check,
    lent: &mut Lent,
    ask: &Ask,
    before: &State,
    random: &mut Random,
) -> Checked {
    let mut state = *before;
    let opened = library::stream_open(ask, random.next(), random.byte(), &mut state);
    if refused(check, Call::StreamOpen, &opened)? {
        check.words("the state of a refused open", &state, before)?;
    }
    let mut state = *before;
    let next = general::next(check, &ask.read(), &mut state, WORD)?;
    if any_next(check, &next)? {
        check.words("the state of a refused next", &state, before)?;
    }
    accept(check, lent, ask, &mut before.clone(), random)?;
    let mut state = *before;
    let number = library::stream_decline(&mut state);
    check.call(Call::StreamDecline, number);
    check.same("a decline", number, if before[0] == 0 { 16 } else { 0 })?;
    if number != 0 {
        return check.words("the state of a refused decline", &state, before);
    }
    // any word but 0 is taken for yes, and a declined way's body says nothing
    check.same("whether what was read is plain", state[7], u64::from(before[7] != 0))
}

/// Intervals and a tile by the whole map's words and lists, where the map is cut off before its header ends.
pub fn cut_off(check: &mut Check, lent: &mut Lent, ask: &Ask, random: &mut Random) -> Checked {
    intervals::by_layout(check, ask.map, &ask.layout, random)?;
    let ask = Ask { at: Address { sub_file: 0, ..ask.at }, ..*ask };
    let (mut file, as_named) = file(&ask);
    let ask = Ask { as_named, ..ask };
    some_tag(check, &file, &ask, random)?;
    asked::tile(check, lent, &mut file, &ask, random)
}

/// Whether an accept is not refused; a refused one leaves state and lists alone.
fn accept(
    check: &mut Check,
    lent: &mut Lent,
    ask: &Ask,
    state: &mut State,
    random: &mut Random,
) -> Checked<bool> {
    let lengths = random.lengths(&[2, 10, 10, 0, 0, 0]);
    let before = *state;
    let accept = library::stream_accept(ask.map, state, lent.lists(lengths).nodes);
    if !refused(check, Call::StreamAccept, &accept.got)? {
        lent.check_behind(check, lengths)?;
        return Ok(true);
    }
    check.words("the state of a refused accept", state, &before)?;
    check.floats("a refused accept's label", &accept.degrees, &degrees::<2>())?;
    lent.check(check, lengths, &Fronts::default())?;
    Ok(false)
}

/// Whether a call is refused; it then writes its values alone, and else none.
fn refused<const N: usize>(check: &mut Check, call: Call, ours: &Got<N>) -> Checked<bool> {
    check.call(call, ours.number);
    let values = match ours.number {
        3 | 7 | 19 | 20 => 1,
        15 => 6,
        _ => 0,
    };
    let end = if ours.number == 0 { 6 } else { N };
    check.same("a number of the table", ours.number < ANSWERS as u64, true)?;
    kept(check, "words behind a refusal's values", &ours.words[values..end])?;
    Ok(ours.number != 0)
}

/// That words are as they were lent.
fn kept(check: &mut Check, what: &str, words: &[u64]) -> Checked {
    check.words(what, words, &vec![WORD; words.len()])
}

/// Whether a next is refused; a point, a head and the end keep each other's words.
fn any_next(check: &mut Check, next: &Next) -> Checked<bool> {
    if refused(check, Call::StreamNext, &next.got)? {
        return streamed::nothing(check, next).map(|()| true);
    }
    let others: &[Range<usize>] = match next.got.words[6] {
        0 => &[18..21],
        1 => {
            check.same("the elevation of a head", next.signed[1], SIGNED[1])?;
            check.floats("the position of a head", &next.degrees, &degrees::<2>())?;
            &[8..18, 19..21]
        }
        2 => {
            streamed::nothing(check, next)?;
            &[7..19]
        }
        kind => return Err(format!("a next of kind {kind}")),
    };
    check.same("whether the word for plain is one", next.got.words[21] < 2, true)?;
    for others in others {
        kept(check, "words of another answer", &next.got.words[others.clone()])?;
    }
    Ok(false)
}

impl Random {
    /// The tile, or one beside it, by words of which up to three are others.
    fn foreign<'a>(&mut self, own: &Ask<'a>) -> Ask<'a> {
        let at = if self.below(8) == 0 { self.other_place(own.at) } else { own.at };
        let mut ask = Ask { at: Address { sub_file: 0, ..at }, ..*own };
        if self.below(8) == 0 {
            let [debug, points, point_count, ways, way_count, ..] = ask.layout;
            ask.layout[..5].copy_from_slice(&[debug, ways, way_count, points, point_count]);
        }
        for _ in 0..self.below(4) {
            let mut words = ask.layout.iter_mut().chain(&mut ask.interval);
            let word = words.nth(self.below(13)).expect("seven words and six");
            *word = self.other_word(*word, own.map.len());
        }
        ask
    }

    /// The lists as they were filled, or with other letters, other starts, or fewer entries or more.
    fn lists(&mut self, own: &Ask) -> TagLists {
        let Tags { starts, letters } = own.tags;
        let mut lists = TagLists { starts: starts.to_vec(), letters: letters.to_vec() };
        let change = self.below(8);
        if change < 4 {
            self.other_letters(&mut lists.letters);
        }
        if matches!(change, 0 | 4 | 5) {
            self.other_starts(&mut lists.starts, own.map.len());
        }
        if matches!(change, 1 | 5 | 6) {
            let [starts, letters] =
                [lists.starts.len(), lists.letters.len()].map(|length| self.other_length(length));
            lists.starts.resize(starts, self.next());
            lists.letters.resize(letters, b's');
        }
        lists
    }

    /// One letter is another one, or all are the same.
    pub fn other_letters(&mut self, letters: &mut [u8]) {
        let letter = [b'b', b'h', b'i', b'f', b's', 0, 1, self.byte()][self.below(8)];
        match self.below(letters.len() + 1) {
            0 => letters.fill(letter),
            k => letters[k - 1] = letter,
        }
    }

    /// A tag starts elsewhere: where another one does, a byte beside it, or anywhere.
    fn other_starts(&mut self, starts: &mut [u64], length: usize) {
        let tags = starts.len();
        for _ in 0..self.below(4).min(tags) {
            let (k, from) = (self.below(tags), self.below(tags));
            starts[k] = match self.below(3) {
                0 => starts[from],
                1 => starts[k].wrapping_add(self.below(3) as u64).wrapping_sub(1),
                _ => self.other_word(starts[k], length),
            };
        }
    }

    pub fn other_length(&mut self, length: usize) -> usize {
        [0, length, self.below(length + 1), length + self.below(4)][self.below(4)]
    }

    /// Words for a state that no call wrote: any first word and any last, counts and places or anything between.
    fn state(&mut self, length: usize) -> State {
        let mut state = std::array::from_fn(|_| self.other_word(1, length));
        state[0] = [0, 1, 2, state[0]][self.below(4)];
        state
    }

    /// Another word: near, with the same last byte, a place in the map, or any.
    pub fn other_word(&mut self, word: u64, length: usize) -> u64 {
        match self.below(8) {
            0 => 0,
            1 => self.next(),
            2 => u64::MAX - self.below(20) as u64,
            3 => self.below(300) as u64,
            4 => word ^ 1 << self.below(64),
            5 => word.wrapping_add(self.next() << 8),
            6 => word.wrapping_add(self.below(9) as u64).wrapping_sub(4),
            _ => self.below(length + 20) as u64,
        }
    }
}
