//! Bytes, numbers and texts of a tile, one behind the other.

use std::ops::Range;

use super::super::{self as differences, TEXT_LIMIT};
use super::Opened;
use crate::answer::Answer;
use crate::tiles::feature::{Position, Text};

/// What is read, or the refusal.
pub type Read<T> = Result<T, Answer>;

/// How texts are delivered, and which reader of the Rust they are compared with.
#[derive(Clone, Copy, PartialEq)]
pub enum View {
    Collected,
    Streamed,
}

/// Where the Rust first parts from document 01.
#[derive(Clone, Copy)]
pub struct Parting {
    pub cause: Cause,
    pub place: u128,
    /// Whether no byte from that place on was read before.
    pub untouched: bool,
}

/// What the Rust does not do as document 01 has it.
#[derive(Clone, Copy, Debug, PartialEq, Eq, PartialOrd, Ord)]
pub enum Cause {
    /// A number of more than nine bytes.
    Number,
    /// A coordinate above 2^53.
    Coordinate,
    /// A collected text whose length the Rust cannot hold.
    TextLength,
    /// Counts whose sum has more than 64 bits.
    Sum,
    Grid,
    /// An index entry past all places.
    Entry,
    /// The next index entry is cut off.
    NextEntry,
    /// A reversed interval.
    Interval,
    /// A tile that is marked empty.
    Empty,
}

/// "2^64 − 1 stands for any larger position".
pub fn cut(place: u128) -> u64 {
    u64::try_from(place).unwrap_or(u64::MAX)
}

/// Where the map ends too early, the number that is told there, with "the position where the missing read
/// began"; any other refusal as it is.
pub fn cut_off(refusal: Answer, number: u64, place: u128) -> Answer {
    if refusal != [1] {
        return refusal;
    }
    vec![number, cut(place)]
}

/// A place in a map. Places are whole numbers and never wrap.
pub struct Reader<'a> {
    pub opened: Opened<'a>,
    pub parting: Option<Parting>,
    /// Where the tile's entry stands, with the next one once that is looked for; and where its bytes start, if it has
    /// some.
    pub entries: Option<Range<u128>>,
    pub tile_start: Option<u128>,
    /// The places of the signatures and of the texts that were read, in their order.
    pub signatures: Vec<u64>,
    pub texts: Vec<u64>,
    /// The longest of these texts as stored, and how many are no UTF-8.
    pub longest: u64,
    pub ill_formed: u64,
    /// Where the features of a collected tile start.
    pub places: Vec<u64>,
    /// The places of the ways' stored sizes.
    pub sizes: Vec<Range<usize>>,
    /// The places of the numbers that were read, if they are wanted.
    pub trace: Option<Vec<Range<usize>>>,
    /// How many of the numbers that were read are not plain.
    pub padded: u64,
    view: View,
    at: u128,
    furthest: u128,
}

impl<'a> Reader<'a> {
    pub fn new(opened: Opened<'a>, view: View) -> Self {
        Reader {
            opened,
            parting: None,
            entries: None,
            tile_start: None,
            signatures: Vec::new(),
            texts: Vec::new(),
            longest: 0,
            ill_formed: 0,
            places: Vec::new(),
            sizes: Vec::new(),
            trace: None,
            padded: 0,
            view,
            at: 0,
            furthest: 0,
        }
    }

    /// Whether all numbers were plain that were read since so many were not.
    pub fn plain_since(&self, padded: u64) -> bool {
        self.padded == padded
    }

    /// The place behind the furthest byte that was read.
    #[cfg(feature = "both")]
    pub fn furthest(&self) -> usize {
        self.furthest as usize
    }

    /// Notes a parting here, if it is the first one.
    pub fn note(&mut self, cause: Cause) {
        let (place, untouched) = (self.at, self.furthest <= self.at);
        self.parting.get_or_insert(Parting { cause, place, untouched });
    }

    /// The refusal behind a parting.
    pub fn parted(&mut self, cause: Cause, refusal: Answer) -> Answer {
        self.note(cause);
        refusal
    }

    pub fn at(&self) -> u128 {
        self.at
    }

    /// "Seeking always succeeds, also past the end".
    pub fn seek(&mut self, place: u128) {
        self.at = place;
    }

    /// "a read that needs bytes past the end is refusal 1; a read of 0 bytes succeeds."
    pub fn bytes(&mut self, size: u64) -> Read<&'a [u8]> {
        let bytes = usize::try_from(size).ok().and_then(|size| self.left().get(..size));
        let bytes = bytes.ok_or(vec![1])?;
        self.pass(bytes.len());
        Ok(bytes)
    }

    /// The first byte from here on that the map does not have. A number that the map ends in has all the
    /// bytes before it.
    pub fn missing_byte(&self) -> u128 {
        self.at + self.left().len() as u128
    }

    pub fn byte(&mut self) -> Read<u8> {
        Ok(self.bytes(1)?[0])
    }

    pub fn unsigned(&mut self) -> Read<u64> {
        let groups = self.groups()?;
        self.padded += u64::from(!differences::is_plain_unsigned(groups));
        Ok(differences::unsigned(groups))
    }

    /// "Signed: the last byte's 40 is the sign, its 3F the data, so 40 is 0."
    pub fn signed(&mut self) -> Read<i64> {
        let groups = self.groups()?;
        self.padded += u64::from(!differences::is_plain_signed(groups));
        // nine groups less the sign are 62 bits
        let magnitude = differences::magnitude(groups).expect("a whole number") as i64;
        let negative = groups.last().is_some_and(|last| last & 0x40 != 0);
        Ok(if negative { -magnitude } else { magnitude })
    }

    /// "µ° become degrees by one division by 1000000; a magnitude above 2^53 is refused".
    pub fn position(&mut self) -> Read<Position> {
        Ok([self.degrees()?, self.degrees()?])
    }

    /// "Text: a length, at most 2^20, then its bytes."
    pub fn text(&mut self) -> Read<Text> {
        if self.view == View::Collected && differences::text(self.left()).is_some() {
            self.note(Cause::TextLength);
        }
        let length = self.unsigned()?;
        if length > TEXT_LIMIT {
            return Err(vec![9]);
        }
        self.texts.push(self.at as u64);
        let stored = self.bytes(length)?;
        self.longest = self.longest.max(length);
        self.ill_formed += u64::from(std::str::from_utf8(stored).is_err());
        Ok(match self.view {
            View::Collected => String::from_utf8_lossy(stored).into_owned().into_bytes(),
            View::Streamed => std::str::from_utf8(stored).unwrap_or("").into(),
        })
    }

    fn degrees(&mut self) -> Read<f64> {
        match differences::coordinate(self.left()) {
            Some(refusal) if refusal == [12] => Err(self.parted(Cause::Coordinate, refusal)),
            _ => Ok(self.signed()? as f64 / 1_000_000.0),
        }
    }

    /// The bytes of a number. "ninth byte has its top bit; no tenth is read".
    fn groups(&mut self) -> Read<&'a [u8]> {
        let left = self.left();
        if let Some(refusal) = differences::number_too_long(left) {
            return Err(self.parted(Cause::Number, refusal));
        }
        let groups = differences::number(left).ok_or(vec![1])?;
        if let Some(trace) = &mut self.trace {
            let start = self.at as usize;
            trace.push(start..start + groups.len());
        }
        self.pass(groups.len());
        Ok(groups)
    }

    fn pass(&mut self, size: usize) {
        self.at += size as u128;
        if size > 0 {
            self.furthest = self.furthest.max(self.at);
        }
    }

    /// The bytes from here on; none past the map's end.
    fn left(&self) -> &'a [u8] {
        let at = usize::try_from(self.at).ok();
        at.and_then(|at| self.opened.map.get(at..)).unwrap_or(&[])
    }
}
