//! The tags of a map, and those of a fetched feature.

use std::borrow::Cow;

use super::Opened;
use crate::tiles::feature::{Feature, TagText, Text, Texts};

/// "The letter after the first `=%`".
fn letter(tag: &str) -> Option<u8> {
    let (_, pattern) = tag.split_once("=%")?;
    pattern.bytes().next()
}

/// Whose tags.
#[derive(Clone, Copy)]
pub enum Table {
    Points,
    Ways,
}

/// Wish 3: "the start of each POI tag and then each way tag (the first byte of its length), and its value letter (b, h,
/// i, f, s), or 0 for any other or none, in a second list". Any lists will do.
#[derive(Clone, Copy)]
#[cfg_attr(not(feature = "both"), allow(dead_code))]
pub struct Listed<'a> {
    pub starts: &'a [u64],
    pub letters: &'a [u8],
    /// How many tags points have, and ways.
    pub counts: [u64; 2],
}

impl Listed<'_> {
    /// Where a tag stands in the lists, which may end before it.
    pub fn entry(&self, table: Table, id: u64) -> Option<usize> {
        let first = match table {
            Table::Points => 0,
            Table::Ways => self.counts[0],
        };
        usize::try_from(first.checked_add(id)?).ok()
    }

    pub fn letter(&self, table: Table, id: u64) -> Option<u8> {
        self.letters.get(self.entry(table, id)?).copied()
    }

    pub fn start(&self, table: Table, id: u64) -> Option<u64> {
        self.starts.get(self.entry(table, id)?).copied()
    }
}

impl<'a> Opened<'a> {
    fn names(self, table: Table) -> &'a [String] {
        match table {
            Table::Points => &self.header.poi_tags,
            Table::Ways => &self.header.way_tags,
        }
    }

    pub fn tag_count(self, table: Table) -> u64 {
        let names = || self.names(table).len() as u64;
        self.listed.map_or_else(names, |listed| listed.counts[table as usize])
    }

    /// The letter by which the value of a tag is skipped.
    pub fn letter(self, table: Table, id: u64) -> Option<u8> {
        match self.listed {
            Some(listed) => listed.letter(table, id),
            None => letter(&self.names(table)[id as usize]),
        }
    }

    /// The name of a tag: by the lists the text at its start, or an empty one.
    pub fn name(self, table: Table, id: u64) -> Cow<'a, str> {
        let Some(listed) = self.listed else { return (&self.names(table)[id as usize]).into() };
        let start = listed.start(table, id);
        let place = start.and_then(|start| self.text_at(start).ok()).unwrap_or(0..0);
        String::from_utf8_lossy(&self.map[place.start as usize..place.end as usize])
    }

    /// So many names of listed tags, if the letter of each is the listed one: then the Rust can be given them.
    #[cfg(feature = "both")]
    pub fn plain_names(self, table: Table, count: u64) -> Option<Vec<String>> {
        let known = |letter: Option<u8>| letter.filter(|letter| b"bhifs".contains(letter));
        let name = |id: u64| {
            let name = self.name(table, id);
            (known(letter(&name)) == known(self.letter(table, id))).then(|| name.into_owned())
        };
        (0..count).map(name).collect()
    }
}

/// "Behind the tags of a collected feature's ids come those keyed `name`, `addr:housenumber` and `ref`,
/// for the texts it has."
pub fn texts(feature: &Feature, opened: Opened) -> Texts {
    let (table, ids, texts) = match feature {
        Feature::Point(point) => {
            (Table::Points, &point.ids, [&point.name, &point.house_number, &None])
        }
        Feature::Way(way) => {
            (Table::Ways, &way.ids, [&way.name, &way.house_number, &way.reference])
        }
    };
    let of_id = |&id: &u64| of_tag(&opened.name(table, id));
    let [name, house_number, reference] = texts;
    let others =
        [keyed("name", name), keyed("addr:housenumber", house_number), keyed("ref", reference)];
    Texts { of_ids: ids.iter().map(of_id).collect(), others }
}

fn of_tag(text: &str) -> TagText {
    let (key, value) = split(text);
    TagText { text: text.into(), tag: tag(key, value) }
}

fn keyed(key: &str, text: &Option<Text>) -> Option<TagText> {
    let text = text.as_ref()?;
    Some(TagText { text: text.clone(), tag: tag(key, replaced(text)) })
}

fn tag(key: &str, value: &str) -> [u64; 4] {
    [key.len() as u64, value.len() as u64, hash(key), hash(value)]
}

/// "A tag splits at its first `=`; without one its value is empty."
fn split(tag: &str) -> (&str, &str) {
    tag.split_once('=').unwrap_or((tag, ""))
}

fn replaced(text: &Text) -> &str {
    std::str::from_utf8(text).expect("a collected text is replaced")
}

/// "for character i of n, counting from 0, add its code point, then multiply by 31 to the power
/// n − i + 1, all modulo 2^64."
fn hash(text: &str) -> u64 {
    let count = text.chars().count();
    let power = |i: usize| 31_u64.wrapping_pow((count - i + 1) as u32);
    let numbered = text.chars().enumerate();
    numbered.fold(0, |hash: u64, (i, character)| {
        hash.wrapping_add(u64::from(character)).wrapping_mul(power(i))
    })
}
