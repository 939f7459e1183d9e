//! Texts: their lengths at each limit, and UTF-8 at the ends of every row of its table.

use super::numbers::{unsigned, unsigned_in};
use super::Records;
use crate::leaves::FILLED_TEXT;

/// The longest text that is read.
const LIMIT: u64 = 1 << 20;

/// A row of the Unicode standard's table 3-7: the ends of the first byte, the ends of the second
/// and the length. The bytes behind those two are 80 to BF.
struct Row {
    first: [u8; 2],
    second: [u8; 2],
    length: usize,
}

const ROWS: [Row; 8] = [
    row([0xC2, 0xDF], [0x80, 0xBF], 2),
    row([0xE0, 0xE0], [0xA0, 0xBF], 3),
    row([0xE1, 0xEC], [0x80, 0xBF], 3),
    row([0xED, 0xED], [0x80, 0x9F], 3),
    row([0xEE, 0xEF], [0x80, 0xBF], 3),
    row([0xF0, 0xF0], [0x90, 0xBF], 4),
    row([0xF1, 0xF3], [0x80, 0xBF], 4),
    row([0xF4, 0xF4], [0x80, 0x8F], 4),
];

const fn row(first: [u8; 2], second: [u8; 2], length: usize) -> Row {
    Row { first, second, length }
}

pub fn add(records: &mut Records) {
    short_lengths(records);
    padded_lengths(records);
    wide_lengths(records);
    longest(records);
    for row in &ROWS {
        row_ends(records, row);
        truncations(records, row);
    }
    first_bytes(records);
    for text in MIXTURES {
        both(records, text);
    }
}

/// A text behind its length.
fn stored(text: &[u8]) -> Vec<u8> {
    [&unsigned(text.len() as u64), text].concat()
}

/// The same bytes as a stored text and as a text to hash.
fn both(records: &mut Records, text: &[u8]) {
    records.add(b't', &stored(text));
    records.add(b'h', text);
}

/// Texts that end with the map, one byte past it and one byte before it.
fn short_lengths(records: &mut Records) {
    for length in [0, 1, 2, 3, 10, 63, 64, 127, 128, 129, 255, 256, 300] {
        let map = stored(&vec![b'a'; length]);
        records.add(b't', &map);
        records.add(b't', &map[..map.len() - 1]);
        records.add(b't', &[map.as_slice(), b"b"].concat());
    }
}

/// Lengths in more bytes than they need; from the sixth byte on the Rust cannot hold them.
fn padded_lengths(records: &mut Records) {
    for text in [&b""[..], b"abc", b"a\xFFb"] {
        for length in 1..=10 {
            let map = [&unsigned_in(text.len() as u64, length), text].concat();
            records.add(b't', &map);
            records.add(b't', &map[..map.len() - 1]);
            records.add(b't', &[map.as_slice(), b"b"].concat());
        }
    }
}

/// Lengths above the limit, among them those that are small in their low 32 bits, and unfinished ones.
fn wide_lengths(records: &mut Records) {
    for power in 20..=62 {
        for low in [0, 3] {
            let length = unsigned((1 << power) + low);
            records.add(b't', &[&length, &b"abcdefghij"[..]].concat());
        }
    }
    for length in 0..=10 {
        records.add(b't', &vec![0x80; length]);
        records.add(b't', &vec![0xFF; length]);
    }
    for last in [0x0F, 0x10, 0x1F, 0x20, 0x7F] {
        records.add(b't', &[0x80, 0x80, 0x80, 0x80, last]);
        records.add(b't', &[0x81, 0x80, 0x80, 0x80, last, b'a']);
    }
}

/// Texts around the longest, the map being exact, one byte short and one byte longer.
fn longest(records: &mut Records) {
    for length in [LIMIT - 1, LIMIT, LIMIT + 1] {
        for bytes in [3, 5, 6, 9] {
            around_end(records, &unsigned_in(length, bytes), length as u32);
        }
    }
    for broken in [&b"\xFF"[..], b"\xE2\x82", b"\xC3\xA9"] {
        let prefix = [&unsigned(LIMIT), broken].concat();
        filled(records, &prefix, LIMIT as u32 - broken.len() as u32);
    }
    filled(records, &[0x80, 0x80, 0x80, 0x80, 0x10], 16);
}

fn around_end(records: &mut Records, prefix: &[u8], fill: u32) {
    for fill in [fill - 1, fill, fill + 1] {
        filled(records, prefix, fill);
    }
}

fn filled(records: &mut Records, prefix: &[u8], fill: u32) {
    records.add(FILLED_TEXT, &[&fill.to_be_bytes(), prefix].concat());
}

/// Each byte of a sequence at its ends and one past them, in every combination.
fn row_ends(records: &mut Records, row: &Row) {
    for sequence in sequences(row) {
        records.add(b't', &stored(&sequence));
        if std::str::from_utf8(&sequence).is_ok() {
            records.add(b'h', &sequence);
        }
    }
}

fn sequences(row: &Row) -> Vec<Vec<u8>> {
    let mut all: Vec<Vec<u8>> = row.first.iter().map(|&first| vec![first]).collect();
    all.dedup();
    for place in 1..row.length {
        let ends = if place == 1 { row.second } else { [0x80, 0xBF] };
        let bytes = [ends[0] - 1, ends[0], ends[1], ends[1] + 1];
        all =
            all.iter().flat_map(|front| bytes.map(|byte| [&front[..], &[byte]].concat())).collect();
    }
    all
}

/// Each truncation of a row's first and last sequence: at the end, before an ASCII letter, before a
/// whole character and before another truncation.
fn truncations(records: &mut Records, row: &Row) {
    for end in [0, 1] {
        let mut sequence = vec![0x80 + 0x3F * end as u8; row.length];
        sequence[0] = row.first[end];
        sequence[1] = row.second[end];
        for length in 1..row.length {
            let part = &sequence[..length];
            for behind in [&b""[..], b"A", b"\xC3\xA9", part] {
                records.add(b't', &stored(&[part, behind].concat()));
                records.add(b't', &stored(&[b"a", part, behind, b"b"].concat()));
            }
        }
    }
}

/// Each first byte at a row's end and one past it, with the continuations that would suit it.
fn first_bytes(records: &mut Records) {
    let bytes = [
        0x00, 0x7F, 0x80, 0xBF, 0xC0, 0xC1, 0xC2, 0xDF, 0xE0, 0xE1, 0xEC, 0xED, 0xEE, 0xEF, 0xF0,
        0xF1, 0xF3, 0xF4, 0xF5, 0xF7, 0xF8, 0xFB, 0xFC, 0xFD, 0xFE, 0xFF,
    ];
    for first in bytes {
        for behind in [&b""[..], b"\x80", b"\xBF\xBF", b"\x90\x90\x90", b"\x80\x80\x80\x80"] {
            records.add(b't', &stored(&[&[first], behind].concat()));
        }
    }
}

/// Surrogates, overlong forms, code points above 10FFFF, the worked figures, and mixtures.
const MIXTURES: &[&[u8]] = &[
    b"",
    b"a",
    b"ab",
    b"abc",
    b"\x61\xFF\x62",
    b"\xE2\x82\x41",
    b"\xF0\x80",
    b"\xF0\x80\x80\x41",
    b"\xED\xA0\x80\xED\xB0\x80",
    b"\xED\xBF\xBF",
    b"\xC0\x80",
    b"\xE0\x80\x80",
    b"\xE0\x9F\xBF",
    b"\xF0\x80\x80\x80",
    b"\xF0\x8F\xBF\xBF",
    b"\xF4\x8F\xBF\xBF",
    b"\xF4\x90\x80\x80",
    b"\xF5\x80\x80\x80",
    b"\xF7\xBF\xBF\xBF",
    b"\xEF\xBF\xBD",
    b"\xEF\xBF\xBE\xEF\xBF\xBF",
    b"\xEF\xBB\xBFx",
    b"\x41\xC0\xAF\x41\xF4\x80\x80\x41",
    b"\x61\xF1\x80\x80\xE1\x80\xC2\x62\x80\x63\x80\xBF\x64",
    b"\xC0\xAF\xE0\x80\xBF\xF0\x81\x82\x41",
    b"\xED\xA0\x80\xED\xBF\xBF\xED\xAF\x41",
    b"\xF4\x91\x92\x93\xFF\x41\x80\xBF\x42",
    b"\xE1\x80\xE2\xF0\x91\x92\xF1\xBF\x41",
    b"\xF0\x9F\x9A\xA2 F\xC3\xA4hre",
    b"\xF0\x9F\x9A F\xC3\xA4hre\xE2\x82",
    b"\x80\x80\x80",
    b"\xFF\xFE\xFD",
];
