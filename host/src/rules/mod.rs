//! Showing rules: which ways show at which zoom.

mod fault;
mod text;

pub use fault::Fault;
pub use text::TextMistake;

use crate::{raw, word, Map, Refusal, SelectedStream, Selection, SubFile, TilePlace, WayHead};

/// A showing rule: the zooms of a way tag from the lowest to the highest, both included, have a class. Class 0 means
/// hidden; what the others mean is the caller's.
///
/// ```
/// use mapsforge::Rule;
///
/// let rule = Rule { tag: 12, lowest: 14, highest: 31, class: 3 };
/// assert_eq!(rule.bits(), Some(0x000c_77c3));
/// assert_eq!(Rule::of_bits(0x000c_77c3), rule);
/// ```
#[derive(Clone, Copy, Debug, PartialEq, Eq, Hash)]
pub struct Rule {
    /// The tag's number in [`Map::way_tags`].
    pub tag: u16,
    /// The lowest zoom, at most 31.
    pub lowest: u8,
    /// The highest zoom, at most 31.
    pub highest: u8,
    /// The class, at most 63.
    pub class: u8,
}

impl Rule {
    /// The rule of 32 bits: the tag's number has 16, the zooms 5 each, the class 6.
    pub fn of_bits(bits: u32) -> Rule {
        Rule {
            tag: (bits >> 16) as u16,
            lowest: (bits >> 11 & 31) as u8,
            highest: (bits >> 6 & 31) as u8,
            class: (bits & 63) as u8,
        }
    }

    /// Its 32 bits; none if a zoom is above 31 or the class above 63.
    pub fn bits(self) -> Option<u32> {
        let fits = self.lowest < word::ZOOMS as u8
            && self.highest < word::ZOOMS as u8
            && self.class < word::CLASSES as u8;
        fits.then(|| {
            u32::from(self.tag) << 16
                | u32::from(self.lowest) << 11
                | u32::from(self.highest) << 6
                | u32::from(self.class)
        })
    }

    fn names(self, zoom: u8) -> bool {
        (self.lowest..=self.highest).contains(&zoom)
    }
}

/// Showing rules as they are given, not checked yet: four bytes for each, or lines that people edit.
///
/// In the text form a line is a rule: the way tag, its zooms, its class. What stands behind a `#` is for the reader.
///
/// ```
/// # use mapsforge::{Map, Refusal, RuleList};
/// # let bytes = std::fs::read(concat!(env!("CARGO_MANIFEST_DIR"), "/../maps/islands.map"))?;
/// # let map = Map::open(&bytes)?;
/// let rules = RuleList::from_text("
///     highway=path   0-13  hidden    # footpaths only when close
///     highway=path  13-31  3
/// ", &map)?;
/// assert_eq!(rules.bytes().len(), 8);
/// // Zoom 13 has two rules, and that is told before the tags that have none.
/// assert_eq!(rules.check(&map).unwrap_err(), Refusal::RulesOverlap(32, 13));
/// let fault = &rules.faults(&map)[0];
/// assert_eq!(fault.told(&map), "way tag 32 highway=path, zoom 13: named twice");
/// assert_eq!(fault.rules().map(|rule| rules.line(rule)).collect::<Vec<_>>(), [Some(2), Some(3)]);
/// # Ok::<(), Box<dyn std::error::Error>>(())
/// ```
#[derive(Clone, Debug, Default, PartialEq, Eq)]
pub struct RuleList {
    bytes: Vec<u8>,
    /// The line of each rule, of rules that were given as text.
    lines: Vec<usize>,
}

impl RuleList {
    /// Rules of four bytes each.
    pub fn from_bytes(bytes: impl Into<Vec<u8>>) -> RuleList {
        RuleList { bytes: bytes.into(), lines: Vec::new() }
    }

    /// Rules as lines that people edit. Tags are those of the map.
    pub fn from_text(text: &str, map: &Map<'_>) -> Result<RuleList, TextMistake> {
        text::parse(text, map)
    }

    /// The rules of a file in either form. Rules that pass name way tag 0, so that their four bytes have a byte 0, and a text has
    /// none: a file with a byte 0 has four bytes for each rule, any other is a text.
    pub fn from_file(content: &[u8], map: &Map<'_>) -> Result<RuleList, TextMistake> {
        if RuleList::is_text(content) {
            RuleList::from_text(&String::from_utf8_lossy(content), map)
        } else {
            Ok(RuleList::from_bytes(content))
        }
    }

    /// Whether the content of a file is rules as text; see [`RuleList::from_file`].
    pub fn is_text(content: &[u8]) -> bool {
        !content.contains(&0)
    }

    /// A table to start from: each way tag shows at every zoom, in class 1.
    pub fn all_shown(map: &Map<'_>) -> RuleList {
        let tags = 0..=u16::MAX;
        tags.take(map.way_tags().len())
            .map(|tag| Rule { tag, lowest: 0, highest: word::ZOOMS as u8 - 1, class: 1 })
            .collect()
    }

    /// The four bytes of each rule, which [`raw::check_rules`] takes.
    pub fn bytes(&self) -> &[u8] {
        &self.bytes
    }

    /// The rules, without bytes behind the last whole one.
    pub fn rules(&self) -> impl ExactSizeIterator<Item = Rule> + '_ {
        let words = self.bytes.chunks_exact(word::RULE_BYTES);
        words.map(|word| {
            Rule::of_bits(word.iter().fold(0, |bits, &byte| bits << 8 | u32::from(byte)))
        })
    }

    /// The line of a rule, counted from 1, of rules that were given as text.
    pub fn line(&self, rule: usize) -> Option<usize> {
        self.lines.get(rule).copied()
    }

    /// The rules as lines that people edit, from which [`RuleList::from_text`] gives the same bytes.
    pub fn to_text(&self, map: &Map<'_>) -> String {
        text::write(self.rules(), map)
    }

    /// Checks the rules for a map.
    pub fn check(&self, map: &Map<'_>) -> Result<Rules, Refusal> {
        Rules::check(&self.bytes, way_tags(map))
    }

    /// All that is wrong with the rules, in the library's order: none if they pass. If rules cannot be read, only that is
    /// told. This only explains: [`RuleList::check`] decides.
    pub fn faults(&self, map: &Map<'_>) -> Vec<Fault> {
        fault::all(self, map)
    }
}

impl FromIterator<Rule> for RuleList {
    /// Rules one behind the other.
    ///
    /// # Panics
    ///
    /// If a zoom is above 31 or a class above 63; see [`Rule::bits`].
    fn from_iter<I: IntoIterator<Item = Rule>>(rules: I) -> RuleList {
        let bytes = rules.into_iter().flat_map(|rule| {
            let bits = rule.bits().unwrap_or_else(|| panic!("{rule:?} does not fit 32 bits"));
            bits.to_be_bytes()
        });
        RuleList::from_bytes(bytes.collect::<Vec<u8>>())
    }
}

/// A map has no more than 65535 tags of ways.
fn way_tags(map: &Map<'_>) -> u16 {
    map.way_tags().len().try_into().expect("a header counts its tags in 16 bits")
}

/// A checked table of showing rules: the class of each way tag of a map at each zoom.
///
/// ```
/// # use mapsforge::{MapFile, RuleList};
/// # let file = MapFile::open(concat!(env!("CARGO_MANIFEST_DIR"), "/../maps/islands.map"))?;
/// # let map = file.map()?;
/// // Everything shows, but for buildings below zoom 16.
/// let mut text = RuleList::all_shown(&map).to_text(&map);
/// text = text.replace("building=yes ", "#");
/// text += "building=yes 0-15 hidden\nbuilding=yes 16-31 2\n";
/// let rules = RuleList::from_text(&text, &map)?.check(&map)?;
///
/// let sub_file = map.sub_file_for_zoom(14)?.expect("a sub file has zoom 14");
/// let place = sub_file.tile_at(4096, 2272)?.expect("the tile is in the grid");
/// let ways = |zoom| sub_file.placed_by_rules(place, zoom, &rules).map(|all| all.count());
/// assert!(ways(15)? < ways(16)?);
/// # Ok::<(), Box<dyn std::error::Error>>(())
/// ```
#[derive(Clone, Debug, PartialEq, Eq)]
pub struct Rules {
    classes: Vec<u8>,
}

impl Rules {
    /// Checks rules of four bytes each, for a map with so many way tags. Refused with 22, then 23, then 24: see
    /// [`Refusal`].
    pub fn check(rules: &[u8], way_tags: u16) -> Result<Rules, Refusal> {
        let mut words = [0; word::VALUES];
        let mut classes = vec![0; word::ZOOMS * usize::from(way_tags)];
        let number = raw::check_rules(rules, way_tags, &mut classes, &mut words);
        Refusal::check(number, &words).map(|()| Rules { classes })
    }

    /// Whether a stream at this zoom accepts the way: exactly if one of its tags has a class other than 0 there. Zooms above 31
    /// count as 31; a way without tags is declined.
    pub fn shows(&self, head: &WayHead<'_, '_>, zoom: u8) -> bool {
        self.shows_tags(&head.tag_ids, zoom)
    }

    /// The same of the way's tags by their numbers.
    pub fn shows_tags(&self, tag_ids: &[usize], zoom: u8) -> bool {
        let shown = |ids: &[u64]| {
            let mut words = [0; word::SHOWS_WORDS];
            raw::shows(&self.classes, zoom, ids, &mut words);
            words[word::SHOWS_ACCEPT] != 0
        };
        let mut ids = [0; word::MAX_TAGS];
        match ids.get_mut(..tag_ids.len()) {
            Some(ids) => {
                ids.iter_mut().zip(tag_ids).for_each(|(id, &tag)| *id = tag as u64);
                shown(ids)
            }
            // No way has so many.
            None => shown(&tag_ids.iter().map(|&tag| tag as u64).collect::<Vec<_>>()),
        }
    }

    /// The class of a way tag at a zoom, those above 31 counting as 31; none of a tag that the map does not have.
    pub fn class(&self, tag: usize, zoom: u8) -> Option<u8> {
        let row = self.classes.chunks_exact(word::ZOOMS).nth(tag)?;
        Some(row[usize::from(zoom).min(word::ZOOMS - 1)])
    }

    /// The table: the class of tag and zoom is entry 32 * tag + zoom. What [`raw::shows`] takes.
    pub fn classes(&self) -> &[u8] {
        &self.classes
    }
}

impl<'m, 'a> SubFile<'m, 'a> {
    /// The features of a tile up to a zoom at their places: all points, and the ways that the rules show at this zoom. The others
    /// are declined, by their stored sizes.
    pub fn placed_by_rules<'r>(
        &self,
        place: TilePlace,
        zoom: u8,
        rules: &'r Rules,
    ) -> Result<SelectedStream<'m, 'a, 'r>, Refusal> {
        self.placed_selected(place, zoom, Selection { mask: None, rules: Some((rules, zoom)) })
    }
}
