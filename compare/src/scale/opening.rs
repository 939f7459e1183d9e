//! Opening a map: every field of its header, its tags and intervals.

use mapsforge_rs::header::DEBUG_INFO_MASK;
use mapsforge_rs::types::{MapFile, MapHeader, ZoomInterval};

use super::check::{caught, Call, Check, Checked, Reason};
use super::library::{self, kept_but, Interval, Layout, Open, TagLists, Tags, BYTE, WORD};
use crate::answer::Answer;
use crate::differences::tile::Opened;
use crate::differences::{self, header_parts, HeaderParts};
use crate::leaves::value_letter;
use crate::maps::open;
use crate::random::Random;
use crate::source::Source;

/// The size of an interval in the header.
pub const INTERVAL: usize = 3 + 8 + 8;

/// The Rust's opened map, or the refusal to open it.
pub type Opening<'a> = Result<MapFile<Source<'a>>, Answer>;

/// What the Rust says; of a header with a text length that it cannot hold, by a header that it can read.
pub fn of<'a>(check: &mut Check, map: &'a [u8]) -> Checked<Opening<'a>> {
    if differences::header(map).is_some() {
        check.settle(Reason::HeaderText);
    }
    let opened = caught(|| open::with_map(map, |file| file.header))?;
    Ok(opened.map(|header| MapFile { header, reader: Source::new(map) }))
}

/// What opening must give in words.
#[derive(Clone)]
pub struct Said {
    number: u64,
    words: [u64; 34],
    degrees: [f64; 6],
    layout: Layout,
    lists: TagLists,
}

impl Said {
    /// The words of an opening; the texts must be the Rust's.
    pub fn of(map: &[u8], opening: &Opening) -> Checked<Self> {
        let header = match opening {
            Ok(file) => &file.header,
            Err(refusal) => return Ok(Said::refused(refusal)),
        };
        let parts = header_parts(map).ok_or("the model does not read a header that opens")?;
        same_texts(map, header, &parts)?;
        Ok(Said {
            number: 0,
            words: words(header, &parts),
            degrees: degrees(header),
            layout: layout(header, &parts),
            lists: lists(header, &parts),
        })
    }

    fn refused(refusal: &[u64]) -> Self {
        let words = kept_but(0, &refusal[1..]);
        let (degrees, layout, lists) = (library::degrees(), [WORD; 7], TagLists::default());
        Said { number: refusal[0], words, degrees, layout, lists }
    }

    /// What is handed on to other calls: of a map that does not open, zeros.
    pub fn layout(&self) -> Layout {
        handed_on(self.number, self.layout)
    }

    /// The lists that opening fills; of a map that does not open, none.
    pub fn tags(&self) -> Tags<'_> {
        self.lists.lend()
    }

    /// Our opening against it, with lists that are long enough and with others.
    pub fn check(&self, check: &mut Check, map: &[u8], random: &mut Random) -> Checked {
        let tags = self.lists.starts.len();
        for lengths in [random.enough_for(tags), random.lengths_for(tags)] {
            let place = |why| format!("opened with lists of {lengths:?}: {why}");
            self.check_with(check, map, lengths).map_err(place)?;
        }
        Ok(())
    }

    /// Wish 3: "Lists shorter than both tag counts together meet 15 at opening, tested last. Here and later, entries
    /// behind those filled keep their values."
    pub fn check_with(&self, check: &mut Check, map: &[u8], lengths: [usize; 2]) -> Checked {
        let (ours, tags) = (library::open(map, lengths), self.lists.starts.len());
        if self.number == 0 && lengths.iter().any(|&length| length < tags) {
            let tags = tags as u64;
            let short = Said::refused(&[15, tags, tags, 0, 0, 0, 0]);
            return short.is(check, &ours);
        }
        self.is(check, &ours)
    }

    fn is(&self, check: &mut Check, ours: &Open) -> Checked {
        check.got(Call::Open, &ours.got, self.number, &self.words)?;
        check.floats("Open's degrees", &ours.degrees, &self.degrees)?;
        check.words("Open's layout", &ours.layout, &self.layout)?;
        let TagLists { starts, letters } = &self.lists;
        let listed = |k: usize| starts.get(k).copied().unwrap_or(WORD);
        let theirs: Vec<u64> = (0..ours.lists.starts.len()).map(listed).collect();
        check.words("Open's starts", &ours.lists.starts, &theirs)?;
        let listed = |k: usize| letters.get(k).copied().unwrap_or(BYTE);
        let theirs: Vec<u8> = (0..ours.lists.letters.len()).map(listed).collect();
        check.same("Open's letters", &ours.lists.letters, &theirs)
    }

    /// The first entry of the points' tags and how many there are, or of the ways'.
    pub fn table(&self, ways: bool) -> [u64; 2] {
        match ways {
            false => [0, self.words[30]],
            true => [self.words[30], self.words[32]],
        }
    }
}

impl Random {
    /// Lists of tags that are long enough, each exactly or by some entries more.
    fn enough_for(&mut self, tags: usize) -> [usize; 2] {
        [(); 2].map(|()| tags + [0, 0, 1, self.below(9)][self.below(4)])
    }

    /// Lists of tags that have no entries, or too few, or are long enough.
    fn lengths_for(&mut self, tags: usize) -> [usize; 2] {
        let [mut starts, mut letters] = self.enough_for(tags);
        let short = [0, tags.saturating_sub(1), self.below(tags + 1)][self.below(3)];
        match self.below(4) {
            0 => return [0, 0],
            1 => starts = short,
            2 => letters = short,
            _ => {}
        }
        [starts, letters]
    }
}

fn handed_on(number: u64, layout: Layout) -> Layout {
    if number == 0 {
        layout
    } else {
        [0; 7]
    }
}

/// The layout and the lists that our library gives, to be handed on.
pub fn ours(map: &[u8]) -> (Layout, TagLists) {
    let ours = library::opened(map);
    (handed_on(ours.got.number, ours.layout), ours.lists)
}

/// Where each tag of points, and then each of ways, starts, and its letter as the Rust finds it.
fn lists(header: &MapHeader, parts: &HeaderParts) -> TagLists {
    let tags = header.poi_tags.iter().chain(&header.way_tags);
    let letters: Vec<u8> = tags.map(|tag| value_letter(tag) as u8).collect();
    let first = parts.starts.len() - letters.len();
    let starts = parts.starts[first..].iter().map(|&start| start as u64).collect();
    TagLists { starts, letters }
}

/// That each text is the Rust's, where its ill-formed parts are replaced.
fn same_texts(map: &[u8], header: &MapHeader, parts: &HeaderParts) -> Checked {
    let optional = [&header.language_preference, &header.comment, &header.created_by];
    let fields = [&header.projection].into_iter().chain(optional.into_iter().flatten());
    let tags = header.poi_tags.iter().chain(&header.way_tags);
    let rust: Vec<&String> = fields.chain(tags).collect();
    if rust.len() != parts.texts.len() {
        return Err("the model has another number of texts than the Rust".into());
    }
    for (rust, place) in rust.iter().zip(&parts.texts) {
        if String::from_utf8_lossy(&map[place.clone()]) != rust.as_str() {
            return Err(format!("a text: the Rust's {rust:?}, the model's at {place:?}"));
        }
    }
    Ok(())
}

/// The place behind the intervals.
pub fn header_end(map: &[u8], header: &MapHeader) -> usize {
    let intervals = header.zoom_interval_configuration.len();
    header_parts(map).map_or(map.len(), |parts| parts.intervals + 1 + intervals * INTERVAL)
}

fn words(header: &MapHeader, parts: &HeaderParts) -> [u64; 34] {
    let mut texts = parts.texts.iter().map(|text| [text.start as u64, text.len() as u64]);
    let mut next = || texts.next().expect("as many texts as the Rust has");
    let intervals = header.zoom_interval_configuration.len() as u64;
    let [poi_tags, way_tags] = parts.tables.map(|place| place as u64);
    let mut words: [u64; 34] = kept_but(6, &[0; 28]);
    words[6] = parts.intervals as u64 + 1 + intervals * INTERVAL as u64;
    words[7..11].copy_from_slice(&[
        header.header_size.into(),
        header.file_version.into(),
        header.file_size,
        header.creation_date,
    ]);
    words[11..13].copy_from_slice(&[header.tile_size.into(), header.flags.into()]);
    words[13..15].copy_from_slice(&[0, 20]);
    words[15..17].copy_from_slice(&next());
    words[17] = header.map_start_position.is_some().into();
    if let Some(zoom) = header.start_zoom_level {
        words[18..20].copy_from_slice(&[1, zoom.into()]);
    }
    let optional = [&header.language_preference, &header.comment, &header.created_by];
    for (k, _) in optional.iter().enumerate().filter(|(_, text)| text.is_some()) {
        let [place, size] = next();
        words[20 + 3 * k..23 + 3 * k].copy_from_slice(&[1, place, size]);
    }
    let counts = [header.poi_tags.len(), header.way_tags.len()].map(|count| count as u64);
    words[29..34].copy_from_slice(&[poi_tags, counts[0], way_tags, counts[1], intervals]);
    words
}

fn degrees(header: &MapHeader) -> [f64; 6] {
    let sides = &header.bounding_box;
    let start = header.map_start_position.unwrap_or_default();
    let [latitude, longitude] = [start.latitude, start.longitude];
    [sides.min_lat, sides.min_lon, sides.max_lat, sides.max_lon, latitude, longitude]
}

fn layout(header: &MapHeader, parts: &HeaderParts) -> Layout {
    let debug = u64::from(header.flags & DEBUG_INFO_MASK != 0);
    let [points, ways] = parts.tables.map(|place| place as u64);
    let lists = [header.poi_tags.len(), header.way_tags.len()].map(|count| count as u64);
    let intervals = header.zoom_interval_configuration.len() as u64;
    [debug, points, lists[0], ways, lists[1], parts.intervals as u64 + 1, intervals]
}

/// Tag `k` of so many from an entry of the lists on, its text and its kind, by any lists.
pub fn listed_tag(
    check: &mut Check,
    opened: Opened,
    tags: &Tags,
    table: [u64; 2],
    k: usize,
) -> Checked {
    let ours = library::tag(opened.map, tags, table, k);
    let [first, count] = table;
    let entry = first.checked_add(k as u64).and_then(|entry| usize::try_from(entry).ok());
    let start = entry.filter(|_| (k as u64) < count).and_then(|entry| tags.starts.get(entry));
    let Some(&start) = start else {
        return check.refused(Call::Tag, &ours, &[7, k as u64]);
    };
    let place = match opened.text_at(start) {
        Ok(place) => place,
        Err(refusal) => return check.refused(Call::Tag, &ours, &refusal),
    };
    let letter = entry.and_then(|entry| tags.letters.get(entry)).copied();
    let own = [place.start, place.end - place.start, place.end, kind_of(letter)];
    check.got(Call::Tag, &ours, 0, &kept_but(6, &own))
}

/// Tag `k` of the points' or the ways', by the lists that opening filled: its text is the Rust's.
pub fn tag(
    check: &mut Check,
    file: &MapFile<Source>,
    said: &Said,
    ways: bool,
    k: usize,
) -> Checked {
    let (opened, tags, table) = (Opened::of(file), said.tags(), said.table(ways));
    listed_tag(check, opened, &tags, table, k)?;
    let names = if ways { &file.header.way_tags } else { &file.header.poi_tags };
    let Some(name) = names.get(k) else { return Ok(()) };
    let ours = library::tag(opened.map, &tags, table, k);
    let text = part(opened.map, ours.words[6], ours.words[7]).map(String::from_utf8_lossy);
    check.same("Tag's text", text.as_deref(), Some(name.as_str()))?;
    check.same("Tag's kind", ours.words[9], kind_of(Some(value_letter(name) as u8)))
}

/// The number of the letter of a tag's inline value.
fn kind_of(letter: Option<u8>) -> u64 {
    let known = b"bhifs".iter().position(|&known| Some(known) == letter);
    known.map_or(0, |k| k as u64 + 1)
}

/// All tags of both tables, and one past the last.
pub fn tags(check: &mut Check, file: &MapFile<Source>, said: &Said) -> Checked {
    for (ways, tags) in [(false, &file.header.poi_tags), (true, &file.header.way_tags)] {
        for k in 0..=tags.len() {
            tag(check, file, said, ways, k)?;
        }
    }
    Ok(())
}

/// The bytes of a part, if they are in the map.
pub fn part(map: &[u8], place: u64, size: u64) -> Option<&[u8]> {
    let (place, size) = (usize::try_from(place).ok()?, usize::try_from(size).ok()?);
    map.get(place..place.checked_add(size)?)
}

/// Whether there is a number, and the number.
pub fn maybe(number: Option<u64>) -> [u64; 8] {
    number.map_or(kept_but(6, &[0]), |number| kept_but(6, &[1, number]))
}

/// The words of an interval that is missing.
pub const MISSING: Interval = [0, WORD, WORD, WORD, WORD, WORD];

/// The interval of a sub file, which is ours once it is the Rust's. The layout is the map's, and of a map that does
/// not open it has no intervals.
pub fn interval(
    check: &mut Check,
    map: &[u8],
    layout: &Layout,
    opening: &Opening,
    sub_file: usize,
) -> Checked<Interval> {
    let ours = library::interval(map, layout, sub_file);
    check.got(Call::Interval, &ours.got, 0, &[WORD; 6])?;
    let intervals = opening.as_ref().map(|file| &file.header.zoom_interval_configuration[..]);
    let words = intervals.unwrap_or(&[]).get(sub_file).map_or(MISSING, interval_words);
    check.words("Interval's interval", &ours.interval, &words)?;
    Ok(ours.interval)
}

/// An interval of the header, in words.
pub fn interval_words(interval: &ZoomInterval) -> Interval {
    let ZoomInterval { base_zoom_level, min_zoom_level, max_zoom_level, .. } = *interval;
    let [base, lowest, highest] = [base_zoom_level, min_zoom_level, max_zoom_level].map(u64::from);
    [1, base, lowest, highest, interval.sub_file_start, interval.sub_file_size]
}

/// `sub_file_for_zoom`.
pub fn sub_file(
    check: &mut Check,
    map: &[u8],
    layout: &Layout,
    opening: &Opening,
    zoom: u8,
) -> Checked {
    let ours = library::sub_file(map, layout, zoom);
    let rust = opening.as_ref().ok().and_then(|file| file.sub_file_for_zoom(zoom));
    check.got(Call::SubFile, &ours, 0, &maybe(rust.map(|k| k as u64)))
}
