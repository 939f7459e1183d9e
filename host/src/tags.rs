//! The names of tags in the header.

use crate::{raw, word, Part, Refusal};
use std::fmt;
use std::str::FromStr;

/// What a feature stores for a tag whose name ends in `%` and a letter.
#[derive(Clone, Copy, Debug, PartialEq, Eq)]
pub enum InlineKind {
    /// `%b`, one byte.
    Byte,
    /// `%h`, two bytes.
    Short,
    /// `%i`, four bytes.
    Int,
    /// `%f`, four bytes.
    Float,
    /// `%s`, a length and that many bytes.
    Text,
}

impl InlineKind {
    fn of(kind: u64) -> Option<InlineKind> {
        match kind {
            word::KIND_BYTE => Some(InlineKind::Byte),
            word::KIND_SHORT => Some(InlineKind::Short),
            word::KIND_INT => Some(InlineKind::Int),
            word::KIND_FLOAT => Some(InlineKind::Float),
            word::KIND_TEXT => Some(InlineKind::Text),
            _ => None,
        }
    }
}

/// A tag's name as the header has it, like `highway=primary` or `maxspeed=%b`.
#[derive(Clone, Copy, Debug)]
pub struct TagName<'a> {
    /// The name as stored.
    pub text: Part<'a>,
    /// What a feature with this tag stores for it.
    pub kind: Option<InlineKind>,
}

impl<'a> TagName<'a> {
    /// The key's and the value's bytes: the name split at its first `=`.
    pub fn key_value(&self) -> (&'a [u8], &'a [u8]) {
        let bytes = self.text.bytes();
        match bytes.iter().position(|&byte| byte == b'=') {
            Some(at) => (&bytes[..at], &bytes[at + 1..]),
            None => (bytes, &[]),
        }
    }

    /// Whether it is this tag.
    pub fn is(&self, key: &str, value: &str) -> bool {
        self.key_value() == (key.as_bytes(), value.as_bytes())
    }
}

/// A tag to look for: a key with any value, or with one.
///
/// ```
/// use mapsforge::TagFilter;
///
/// let any: TagFilter = "highway".parse()?;
/// let one: TagFilter = "amenity=ferry_terminal".parse()?;
/// assert!(any.matches(b"highway", b"primary") && !one.matches(b"amenity", b"bench"));
/// assert_eq!(one.to_string(), "amenity=ferry_terminal");
/// assert!("=yes".parse::<TagFilter>().is_err());
/// # Ok::<(), mapsforge::NoKey>(())
/// ```
#[derive(Clone, Debug, PartialEq, Eq, Hash)]
pub struct TagFilter {
    key: String,
    value: Option<String>,
}

/// A text that names no key.
#[derive(Clone, Copy, Debug, PartialEq, Eq)]
pub struct NoKey;

impl FromStr for TagFilter {
    type Err = NoKey;

    fn from_str(text: &str) -> Result<TagFilter, NoKey> {
        let (key, value) = match text.split_once('=') {
            Some((key, value)) => (key, Some(value.to_string())),
            None => (text, None),
        };
        if key.is_empty() {
            return Err(NoKey);
        }
        Ok(TagFilter { key: key.into(), value })
    }
}

impl TagFilter {
    /// Whether a tag of this key and value is meant.
    pub fn matches(&self, key: &[u8], value: &[u8]) -> bool {
        let wanted = self.value.as_ref();
        self.key.as_bytes() == key && wanted.is_none_or(|wanted| wanted.as_bytes() == value)
    }

    /// Whether one of the tags is meant.
    pub fn is_among<'a>(&self, mut tags: impl Iterator<Item = TagName<'a>>) -> bool {
        tags.any(|tag| {
            let (key, value) = tag.key_value();
            self.matches(key, value)
        })
    }
}

impl fmt::Display for TagFilter {
    fn fmt(&self, f: &mut fmt::Formatter<'_>) -> fmt::Result {
        match &self.value {
            Some(value) => write!(f, "{}={value}", self.key),
            None => write!(f, "{}", self.key),
        }
    }
}

impl fmt::Display for NoKey {
    fn fmt(&self, f: &mut fmt::Formatter<'_>) -> fmt::Result {
        write!(f, "a tag is KEY or KEY=VALUE")
    }
}

impl std::error::Error for NoKey {}

/// The lists that opening fills and other calls take: for each tag of points, and behind them for each tag of ways, where
/// it starts in the map, and its letter. They are of one map; [`crate::Map`] keeps them beside its bytes.
#[derive(Clone, Debug, Default)]
pub(crate) struct TagLists {
    pub(crate) starts: Vec<u64>,
    pub(crate) letters: Vec<u8>,
}

impl TagLists {
    /// Lists of these lengths.
    pub(crate) fn of(starts: u64, letters: u64) -> TagLists {
        TagLists { starts: vec![0; starts as usize], letters: vec![0; letters as usize] }
    }
}

/// The tag names of points, or of ways; a feature has their numbers.
#[derive(Clone, Debug, Default)]
pub struct TagNames<'a> {
    names: Vec<TagName<'a>>,
}

impl<'a> TagNames<'a> {
    /// Reads so many names, from this entry of the lists on.
    pub(crate) fn read(
        map: &'a [u8],
        lists: &TagLists,
        first: usize,
        count: usize,
    ) -> Result<TagNames<'a>, Refusal> {
        let name = |k: usize| {
            let mut words = [0; word::TAG_WORDS];
            let number = raw::tag(map, &lists.starts, &lists.letters, first, count, k, &mut words);
            Refusal::check(number, &words)?;
            let text = Part::new(map, words[word::TAG_PLACE], words[word::TAG_SIZE]);
            Ok(TagName { text, kind: InlineKind::of(words[word::TAG_KIND]) })
        };
        Ok(TagNames { names: (0..count).map(name).collect::<Result<_, _>>()? })
    }

    /// How many there are.
    pub fn len(&self) -> usize {
        self.names.len()
    }

    /// Whether there is none.
    pub fn is_empty(&self) -> bool {
        self.names.is_empty()
    }

    /// The name of a number.
    pub fn get(&self, id: usize) -> Option<TagName<'a>> {
        self.names.get(id).copied()
    }

    /// All of them, in the order of their numbers.
    pub fn iter(&self) -> impl ExactSizeIterator<Item = TagName<'a>> + '_ {
        self.names.iter().copied()
    }
}
