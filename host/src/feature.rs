//! Fetched features.

use crate::raw::{self, FetchLists, FetchWords, Listed};
use crate::{word, Lengths, Map, Name, Offset, Part, Refusal};

/// A tag of a feature, with the hashes that the format's readers look it up by.
#[derive(Clone, Debug, PartialEq, Eq)]
pub struct Tag {
    /// What stands before the first `=`.
    pub key: String,
    /// What stands behind it; `%` and a letter where the feature stores a value of its own.
    pub value: String,
    /// The key's hash.
    pub key_hash: u64,
    /// The value's hash.
    pub value_hash: u64,
}

/// A point of a collected tile.
#[derive(Clone, Debug, PartialEq)]
pub struct Point<'a> {
    /// The signature, in a debug map.
    pub signature: Option<Part<'a>>,
    /// The offset from the tile's north-western corner.
    pub offset: Offset,
    /// The layer, from -5 to 10.
    pub layer: i8,
    /// The tags' numbers in [`crate::Map::point_tags`].
    pub tag_ids: Vec<usize>,
    /// The tags of these numbers, then those made of the texts: `name` and `addr:housenumber`.
    pub tags: Vec<Tag>,
    /// The name.
    pub name: Option<String>,
    /// The house number.
    pub house_number: Option<String>,
    /// The elevation in metres.
    pub elevation: Option<i32>,
    /// Whether all its numbers are stored plainly; see [`Tile::plain`](crate::Tile::plain).
    pub plain: bool,
}

impl Point<'_> {
    /// The name in a language; see [`Name::name_in`].
    pub fn name_in(&self, language: &str) -> Option<&str> {
        self.name.as_deref().map(|name| Name::new(name).name_in(language))
    }
}

/// A part of a way: of an area, its outline or a hole.
#[derive(Clone, Debug, PartialEq)]
pub struct Block {
    /// The first node's offset, or zeros where there is no node.
    pub initial: Offset,
    /// The nodes, as offsets from the tile's north-western corner.
    pub nodes: Vec<Offset>,
}

impl Block {
    /// Whether the last node is the first one again; see [`closed`].
    pub fn closed(&self) -> bool {
        closed(&self.nodes)
    }
}

/// Whether a block's last node is its first one again. Nodes are sums of rounded steps, so that the two may differ by
/// less than the microdegree in which positions are stored.
pub fn closed(nodes: &[Offset]) -> bool {
    let [first, .., last] = nodes else {
        return false;
    };
    let near = |a: f64, b: f64| (a - b).abs() < 0.000_000_5;
    nodes.len() > 2 && near(first.latitude, last.latitude) && near(first.longitude, last.longitude)
}

/// A way of a collected tile.
#[derive(Clone, Debug, PartialEq)]
pub struct Way<'a> {
    /// The signature, in a debug map.
    pub signature: Option<Part<'a>>,
    /// Which of the tile's 4 by 4 cells the way touches, row by row, the highest bit first.
    pub bitmap: u16,
    /// The layer, from -5 to 10.
    pub layer: i8,
    /// The tags' numbers in [`crate::Map::way_tags`].
    pub tag_ids: Vec<usize>,
    /// The tags of these numbers, then those made of the texts: `name`, `addr:housenumber` and `ref`.
    pub tags: Vec<Tag>,
    /// The name.
    pub name: Option<String>,
    /// The house number.
    pub house_number: Option<String>,
    /// The reference.
    pub reference: Option<String>,
    /// Where to put a label, as an offset from the first node.
    pub label: Option<Offset>,
    /// The blocks of nodes.
    pub blocks: Vec<Block>,
    /// Whether the nodes are stored as differences of differences.
    pub double_delta: bool,
    /// Whether all its numbers are stored plainly; see [`Tile::plain`](crate::Tile::plain).
    pub plain: bool,
    /// The same of its head alone, as a stream tells it: the way's size, its tag ids and the lengths of its `%s` values.
    pub head_plain: bool,
}

impl Way<'_> {
    /// The name in a language; see [`Name::name_in`].
    pub fn name_in(&self, language: &str) -> Option<&str> {
        self.name.as_deref().map(|name| Name::new(name).name_in(language))
    }
}

/// A point or a way.
#[derive(Clone, Debug, PartialEq)]
pub enum Feature<'a> {
    /// A point.
    Point(Point<'a>),
    /// A way.
    Way(Way<'a>),
}

/// The lists and the buffer that fetching writes to. They grow where the library says that they are too short.
#[derive(Clone, Debug, Default)]
pub struct Buffers {
    node_counts: Vec<u64>,
    latitudes: Vec<f64>,
    longitudes: Vec<f64>,
    initial_latitudes: Vec<f64>,
    initial_longitudes: Vec<f64>,
    buffer: Vec<u8>,
}

impl Buffers {
    /// Empty ones.
    pub fn new() -> Buffers {
        Buffers::default()
    }

    fn grow(&mut self, needed: Lengths) {
        let [counts, latitudes, longitudes, firsts, seconds] = needed.lists;
        grow(&mut self.node_counts, counts);
        grow(&mut self.latitudes, latitudes);
        grow(&mut self.longitudes, longitudes);
        grow(&mut self.initial_latitudes, firsts);
        grow(&mut self.initial_longitudes, seconds);
        grow(&mut self.buffer, needed.buffer);
    }

    fn lists(&mut self) -> FetchLists<'_> {
        FetchLists {
            node_counts: &mut self.node_counts,
            latitudes: &mut self.latitudes,
            longitudes: &mut self.longitudes,
            initial_latitudes: &mut self.initial_latitudes,
            initial_longitudes: &mut self.initial_longitudes,
            buffer: &mut self.buffer,
        }
    }

    pub(crate) fn fetch<'a>(
        &mut self,
        map: &Map<'a>,
        listed: Listed<'_>,
        feature: u64,
    ) -> Result<Feature<'a>, Refusal> {
        let mut got = FetchWords::default();
        // Once to learn the lengths, if they have to grow, and once more.
        loop {
            let number = raw::fetch(
                map.bytes(),
                map.layout(),
                map.starts(),
                map.letters(),
                listed,
                feature,
                self.lists(),
                &mut got,
            );
            match Refusal::check(number, &got.words) {
                Ok(()) => return Ok(self.feature(map.bytes(), &got)),
                Err(Refusal::TooShort(needed)) => self.grow(needed),
                Err(refusal) => return Err(refusal),
            }
        }
    }

    fn feature<'a>(&self, map: &'a [u8], got: &FetchWords) -> Feature<'a> {
        let words = &got.words;
        let signature = Part::from_words(map, &words[word::FETCH_SIGNATURE..]);
        let layer = got.signed_words[word::LAYER] as i8;
        let plain = words[word::FETCH_PLAIN] != 0;
        let count = words[word::FETCH_TAG_COUNT] as usize;
        let tag_ids = got.ids.iter().take(count).map(|&id| id as usize).collect();
        let mut texts = Texts { bytes: &self.buffer, at: 0 };
        let mut tags: Vec<Tag> =
            got.tags.chunks(word::STRING_WORDS).take(count).map(|words| texts.tag(words)).collect();
        let mut own = |has: usize, text: usize, key: &str| {
            (words[has] != 0).then(|| texts.text(&words[text..], key, &mut tags))
        };
        let name = own(word::FETCH_HAS_NAME, word::FETCH_NAME, "name");
        let house_number =
            own(word::FETCH_HAS_HOUSE_NUMBER, word::FETCH_HOUSE_NUMBER, "addr:housenumber");
        let reference = own(word::FETCH_HAS_REFERENCE, word::FETCH_REFERENCE, "ref");
        if words[word::FETCH_KIND] == word::POINT {
            let elevation = got.signed_words[word::ELEVATION] as i32;
            let elevation = (words[word::FETCH_HAS_ELEVATION] != 0).then_some(elevation);
            let offset = Offset::of(got.degrees);
            return Feature::Point(Point {
                signature,
                offset,
                layer,
                tag_ids,
                tags,
                name,
                house_number,
                elevation,
                plain,
            });
        }
        Feature::Way(Way {
            signature,
            bitmap: words[word::FETCH_BITMAP] as u16,
            layer,
            tag_ids,
            tags,
            name,
            house_number,
            reference,
            label: (words[word::FETCH_HAS_LABEL] != 0).then(|| Offset::of(got.degrees)),
            blocks: self.blocks(words[word::FETCH_BLOCKS] as usize),
            double_delta: words[word::FETCH_DOUBLE_DELTA] != 0,
            plain,
            head_plain: words[word::FETCH_HEAD_PLAIN] != 0,
        })
    }

    fn blocks(&self, count: usize) -> Vec<Block> {
        let initial = self.initial_latitudes.iter().zip(&self.initial_longitudes);
        let nodes = split_nodes(&self.node_counts[..count], &self.latitudes, &self.longitudes);
        initial
            .zip(nodes)
            .map(|((&latitude, &longitude), nodes)| Block {
                initial: Offset { latitude, longitude },
                nodes,
            })
            .collect()
    }
}

/// Makes a list as long as it has to be; never shorter.
pub(crate) fn grow<T: Clone + Default>(list: &mut Vec<T>, needed: u64) {
    let needed = needed as usize;
    if list.len() < needed {
        list.resize(needed, T::default());
    }
}

/// The nodes of each block, out of the lists that have all of them.
pub(crate) fn split_nodes(
    node_counts: &[u64],
    latitudes: &[f64],
    longitudes: &[f64],
) -> Vec<Vec<Offset>> {
    let mut nodes = latitudes
        .iter()
        .zip(longitudes)
        .map(|(&latitude, &longitude)| Offset { latitude, longitude });
    node_counts.iter().map(|&count| nodes.by_ref().take(count as usize).collect()).collect()
}

/// A tag with the hashes that its words have.
fn hashed(words: &[u64], key: &str, value: &str) -> Tag {
    Tag {
        key: key.into(),
        value: value.into(),
        key_hash: words[word::STRING_KEY_HASH],
        value_hash: words[word::STRING_VALUE_HASH],
    }
}

/// The texts of a fetched feature, one behind the other.
struct Texts<'b> {
    bytes: &'b [u8],
    at: usize,
}

impl Texts<'_> {
    /// The next so many bytes; the library has made them UTF-8.
    fn take(&mut self, size: u64) -> String {
        let end = (self.at + size as usize).min(self.bytes.len());
        let text = String::from_utf8_lossy(&self.bytes[self.at..end]).into_owned();
        self.at = end;
        text
    }

    /// The next tag, of which the words at the front tell.
    fn tag(&mut self, words: &[u64]) -> Tag {
        let text = self.take(words[word::STRING_SIZE]);
        let (key, rest) = text.split_at(words[word::STRING_KEY_SIZE] as usize);
        let value = &rest[rest.len() - words[word::STRING_VALUE_SIZE] as usize..];
        hashed(words, key, value)
    }

    /// The next text, of which the words at the front tell. It makes a tag too.
    fn text(&mut self, words: &[u64], key: &str, tags: &mut Vec<Tag>) -> String {
        let text = self.take(words[word::STRING_SIZE]);
        tags.push(hashed(words, key, &text));
        text
    }
}
