//! Tiles, points and ways as a reader gives them, and their words. The Rust's own and those of
//! document 01's model are brought into these forms.

use crate::answer::{digest, signed, Answer, Fold};

/// Latitude and longitude, in degrees.
pub type Position = [f64; 2];

/// A text as it is delivered.
pub type Text = Vec<u8>;

/// A point. A streamed one has no signature.
#[derive(Clone, PartialEq)]
pub struct Point {
    pub position: Position,
    /// The layer + 5.
    pub layer: u64,
    pub ids: Vec<u64>,
    pub name: Option<Text>,
    pub house_number: Option<Text>,
    pub elevation: Option<i32>,
    /// As it is stored, or as the Rust gives it: replaced and trimmed.
    pub signature: Option<Text>,
    /// Whether all its numbers are plain, which the Rust does not say.
    pub plain: Option<bool>,
}

impl Point {
    pub fn collected(&self) -> Answer {
        [
            &[1][..],
            &bits(&self.position),
            &[self.layer],
            &counted(&self.ids),
            &optional(&self.name, text),
            &optional(&self.house_number, text),
            &optional(&self.elevation, |&metres| signed(i64::from(metres)).to_vec()),
            &[u64::from(self.signature.is_some())],
        ]
        .concat()
    }
}

/// A way. A streamed one has no delta form, initial positions or signature.
#[derive(Clone, PartialEq)]
pub struct Way {
    pub bitmap: u16,
    /// The layer + 5.
    pub layer: u64,
    pub ids: Vec<u64>,
    pub name: Option<Text>,
    pub house_number: Option<Text>,
    pub reference: Option<Text>,
    pub label: Option<Position>,
    pub double: bool,
    pub blocks: Vec<Block>,
    /// As a point's.
    pub signature: Option<Text>,
    pub plain: Option<bool>,
    /// The same of its head alone.
    pub head_plain: Option<bool>,
}

/// A way's head, as a stream delivers it.
pub struct Head {
    pub bitmap: u16,
    pub ids: Vec<u64>,
    /// The layer + 5, which the Rust does not say before a way is accepted.
    pub layer: Option<u64>,
    /// Whether all its numbers are plain, which the Rust does not say.
    #[cfg_attr(not(feature = "both"), allow(dead_code))]
    pub plain: Option<bool>,
}

/// A coordinate block.
#[derive(Clone, Default, PartialEq)]
pub struct Block {
    pub initial: Position,
    pub nodes: Vec<Position>,
}

impl Way {
    pub fn collected(&self) -> Answer {
        self.with_blocks(&self.block_words())
    }

    /// The words of the collected way, with the nodes in one digest.
    fn fetched(&self) -> Answer {
        let nodes: usize = self.blocks.iter().map(|block| block.nodes.len()).sum();
        self.with_blocks(&[nodes as u64, folded(&self.block_words())])
    }

    fn with_blocks(&self, blocks: &[u64]) -> Answer {
        let form = [u64::from(self.double), self.blocks.len() as u64];
        [&[2], self.fields().as_slice(), &form, blocks, &[u64::from(self.signature.is_some())]]
            .concat()
    }

    fn fields(&self) -> Answer {
        [
            &[u64::from(self.bitmap), self.layer][..],
            &counted(&self.ids),
            &optional(&self.name, text),
            &optional(&self.house_number, text),
            &optional(&self.reference, text),
            &optional(&self.label, |label| bits(label).to_vec()),
        ]
        .concat()
    }

    fn block_words(&self) -> Answer {
        let mut words = Answer::new();
        for block in &self.blocks {
            words.push(block.nodes.len() as u64);
            words.extend(bits(&block.initial));
            words.extend(block.nodes.iter().flat_map(bits));
        }
        words
    }
}

/// A collected tile.
pub struct Tile {
    /// As it is stored, or as the Rust gives it: replaced and trimmed.
    pub signature: Option<Text>,
    /// Of each row the points and the ways.
    pub table: Vec<[u64; 2]>,
    pub first_way: u64,
    pub points: Vec<Point>,
    pub ways: Vec<Way>,
    /// Whether every stored size is the decoded length, which the Rust does not say.
    pub exact: bool,
    /// How many numbers of the tile are not plain, which the Rust does not say.
    #[cfg_attr(not(feature = "both"), allow(dead_code))]
    pub padded: Option<u64>,
}

/// A feature of a collected tile.
#[derive(Clone, Copy)]
pub enum Feature<'a> {
    Point(&'a Point),
    Way(&'a Way),
}

impl Tile {
    pub fn answer(&self) -> Answer {
        let mut fold = Fold::new();
        fold.word(u64::from(self.signature.is_some()));
        fold.words(self.table.as_flattened());
        self.points.iter().for_each(|point| fold.words(&point.collected()));
        self.ways.iter().for_each(|way| fold.words(&way.collected()));
        let counts = [self.table.len(), self.points.len(), self.ways.len()];
        let [rows, points, ways] = counts.map(|count| count as u64);
        vec![0, rows, self.first_way, points, ways, fold.value()]
    }

    /// All features, the points and then the ways.
    pub fn features(&self) -> impl Iterator<Item = Feature<'_>> {
        self.points.iter().map(Feature::Point).chain(self.ways.iter().map(Feature::Way))
    }

    /// Feature `k`, the points from 0 and the ways behind them; none at or above their count.
    pub fn feature(&self, k: usize) -> Option<Feature<'_>> {
        let way = || Some(Feature::Way(self.ways.get(k.checked_sub(self.points.len())?)?));
        self.points.get(k).map(Feature::Point).or_else(way)
    }
}

/// A text of a fetched feature, and the tag that is made of it: the lengths of key and value, their codes.
pub struct TagText {
    pub text: Text,
    pub tag: [u64; 4],
}

/// The strings of a feature's tags, then name, house number and reference.
pub struct Texts {
    pub of_ids: Vec<TagText>,
    pub others: [Option<TagText>; 3],
}

impl Texts {
    /// Those that are there, one behind the other.
    pub fn all(&self) -> impl Iterator<Item = &TagText> {
        self.of_ids.iter().chain(self.others.iter().flatten())
    }
}

/// A collected tile, and the texts of its features.
pub struct Collected {
    pub tile: Tile,
    pub texts: Vec<Texts>,
    /// The places of the signatures of the tile and of its features, which the Rust does not say.
    #[cfg_attr(not(feature = "both"), allow(dead_code))]
    pub signatures: Vec<u64>,
    /// Where each feature starts, points and then ways, which the Rust does not say either.
    #[cfg_attr(not(feature = "both"), allow(dead_code))]
    pub places: Vec<u64>,
}

/// A feature as it is fetched.
pub struct Fetched<'a> {
    pub feature: Feature<'a>,
    pub texts: &'a Texts,
}

impl Collected {
    /// The words of feature `k`, or 17.
    pub fn answer(&self, k: usize) -> Answer {
        self.get(k).map_or(vec![17], |feature| feature.answer())
    }

    pub fn get(&self, k: usize) -> Option<Fetched<'_>> {
        Some(Fetched { feature: self.tile.feature(k)?, texts: &self.texts[k] })
    }
}

impl Fetched<'_> {
    /// The words of the feature, with its tags and their texts in one digest.
    pub fn answer(&self) -> Answer {
        let words = match self.feature {
            Feature::Point(point) => point.collected(),
            Feature::Way(way) => way.fetched(),
        };
        let tag = |TagText { text: string, tag }: &TagText| [text(string).as_slice(), tag].concat();
        let tags: Answer = self.texts.all().flat_map(tag).collect();
        [&[0], words.as_slice(), &[folded(&tags)]].concat()
    }
}

fn bits(position: &Position) -> [u64; 2] {
    position.map(f64::to_bits)
}

fn counted(ids: &[u64]) -> Answer {
    [&[ids.len() as u64], ids].concat()
}

fn text(text: &Text) -> Answer {
    vec![text.len() as u64, digest(text)]
}

/// 0 for none, else 1 and the words of the value.
fn optional<T>(value: &Option<T>, words: impl Fn(&T) -> Answer) -> Answer {
    value.as_ref().map_or(vec![0], |value| [&[1], words(value).as_slice()].concat())
}

fn folded(words: &[u64]) -> u64 {
    let mut fold = Fold::new();
    fold.words(words);
    fold.value()
}
