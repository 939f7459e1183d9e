//! Random inputs, the same in every run.

use super::numbers::unsigned;
use super::Records;
use crate::random::{repeat, Random};

const SEED: u64 = 0x9E37_79B9_7F4A_7C15;

pub fn add(records: &mut Records) {
    let mut random = Random::new(SEED);
    for &operation in b"abcde" {
        repeat(20, || records.add(operation, &random.bytes_up_to(10)));
    }
    for &operation in b"usm" {
        repeat(90, || records.add(operation, &random.groups()));
        repeat(20, || records.add(operation, &random.bytes_up_to(24)));
    }
    for longest in [24, 24, 24, 24, 24, 24, 24, 300] {
        repeat(20, || records.add(b't', &random.stored_text(longest)));
        repeat(12, || records.add_all(b"hgk", &random.text_up_to(longest)));
        repeat(15, || records.add(b'v', &random.inline_value(longest)));
    }
    repeat(60, || records.add(b't', &random.bytes_up_to(24)));
}

/// Pieces of texts: parts of tags, whole characters of each length, and ill-formed parts.
const PIECES: &[&[u8]] = &[
    b"=",
    b"=%",
    b"%",
    b"b",
    b"h",
    b"i",
    b"f",
    b"s",
    b"a",
    b"z",
    b" ",
    b"name",
    b"\0",
    b"\x7F",
    b"\xC2\x80",
    b"\xC3\xA9",
    b"\xDF\xBF",
    b"\xE0\xA0\x80",
    b"\xE2\x82\xAC",
    b"\xED\x9F\xBF",
    b"\xEE\x80\x80",
    b"\xEF\xBF\xBD",
    b"\xF0\x90\x80\x80",
    b"\xF0\x9F\x9A\xA2",
    b"\xF4\x8F\xBF\xBF",
    b"\x80",
    b"\xBF",
    b"\xC0",
    b"\xC3",
    b"\xE2",
    b"\xE2\x82",
    b"\xE0\x80",
    b"\xED\xA0\x80",
    b"\xF0",
    b"\xF0\x9F",
    b"\xF0\x9F\x9A",
    b"\xF0\x80",
    b"\xF4\x90",
    b"\xF5",
    b"\xFF",
];

impl Random {
    /// A number of 1 to 10 bytes, sometimes cut off, and what follows it.
    fn groups(&mut self) -> Vec<u8> {
        let length = self.below(10);
        let mut bytes: Vec<u8> = (0..length).map(|_| self.byte() | 0x80).collect();
        if self.below(8) > 0 {
            bytes.push(self.byte() & 0x7F);
            bytes.extend(self.bytes_up_to(3));
        }
        bytes
    }

    /// Pieces of texts, one behind the other, at times with a random byte between them.
    fn text_up_to(&mut self, longest: usize) -> Vec<u8> {
        let length = self.below(longest + 1);
        let mut text = Vec::new();
        while text.len() < length {
            match self.below(PIECES.len() + 4) {
                piece if piece < PIECES.len() => text.extend(PIECES[piece]),
                _ => text.push(self.byte()),
            }
        }
        text.truncate(length);
        text
    }

    /// A text behind its length, with up to two bytes too few or too many.
    fn stored_text(&mut self, longest: usize) -> Vec<u8> {
        let text = self.text_up_to(longest);
        self.around_end([unsigned(text.len() as u64), text].concat())
    }

    /// A letter, one of the five as a rule, and bytes that suit the letter s.
    fn inline_value(&mut self, longest: usize) -> Vec<u8> {
        let letter = match self.below(8) {
            0 => self.byte(),
            1 => b'b',
            2 => b'h',
            3 => b'i',
            4 => b'f',
            _ => b's',
        };
        let bytes = self.bytes_up_to(longest);
        let map = self.around_end([unsigned(bytes.len() as u64), bytes].concat());
        [&[letter], map.as_slice()].concat()
    }

    fn around_end(&mut self, mut map: Vec<u8>) -> Vec<u8> {
        match self.below(4) {
            0 => map.truncate(map.len().saturating_sub(1 + self.below(2))),
            1 => map.extend(self.bytes_up_to(2)),
            _ => {}
        }
        map
    }
}
