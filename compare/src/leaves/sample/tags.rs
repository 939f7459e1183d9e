//! Tags: where they split, which letter they show, and the inline values that letters skip.

use super::numbers::{unsigned, unsigned_in};
use super::Records;

/// The operations on a tag: its hash, its split and its letter.
const TAG: &[u8] = b"hgk";

pub fn add(records: &mut Records) {
    for tag in TAGS {
        records.add_all(TAG, tag);
    }
    for &letter in LETTERS {
        records.add(b'k', &[b'a', b'=', b'%', letter]);
        around_end(records, letter);
    }
    for (letter, size) in [(b'b', 1), (b'h', 2), (b'i', 4), (b'f', 4)] {
        fixed_values(records, letter, size);
    }
    text_values(records);
    wide_values(records);
}

pub const TAGS: &[&[u8]] = &[
    b"",
    b"a",
    b"=",
    b"==",
    b"===",
    b"a=",
    b"=b",
    b"a=b",
    b"a==b",
    b"a=b=c",
    b"a=b=",
    b"=a=b",
    b"%",
    b"=%",
    b"a=%",
    b"a%=b",
    b"%=",
    b"a=%b",
    b"a=%h",
    b"a=%i",
    b"a=%f",
    b"a=%s",
    b"a=%S",
    b"a=%x",
    b"a=%%",
    b"a=%%b",
    b"a=%=",
    b"a=%=%b",
    b"a==%b",
    b"a=%b=%s",
    b"a=%x=%s",
    b"a=%s=%",
    b"a=b=%i",
    b"a=b%s",
    b"a= %b",
    b"=%b",
    b"=%bcd",
    b"a=%be",
    b"maxspeed=%i",
    b"name=%s",
    b"highway=bus_stop",
    b"addr:housenumber=12",
    b"natural=k\xC3\xBCste",
    b"\xFF=%b",
    b"\xE2\x82=%h",
    b"\xE2\x82=%",
    b"\xF0\x9F\x9A=%i=%b",
    b"\xC3\xA9=%s",
    b"a\xFF=b",
    b"a=\xFF",
    b"a=\xFF=b",
    b"\xC3=\xC3",
    b"\xE2=\x82=\xAC",
    b"a=%\xFF",
    b"a=%\xFFb",
    b"a=%\xE2\x82",
    b"a=%\xE2\x82b",
    b"a=%\xC3\xA9",
    b"a=%\x80",
    b"a=\xFF%b",
    b"a=\xC3%b",
    b"=\xE2\x82%b=%f",
    b"a=%\0",
    b"\0=%b",
];

/// The letters that skip something, their neighbours, and bytes that no letter can be.
const LETTERS: &[u8] = b"bhifsacegjrtBHIFS%=\0\x7F\x80\xC3\xFF";

/// A letter at the end of the map and before bytes: most of them need none.
fn around_end(records: &mut Records, letter: u8) {
    for map in [&b""[..], b"\0", b"\x03abcd"] {
        records.add(b'v', &value(letter, map));
    }
}

/// A value that ends with the map, one byte past it and two bytes before it.
fn fixed_values(records: &mut Records, letter: u8, size: usize) {
    for length in 0..=size + 2 {
        records.add(b'v', &value(letter, &vec![0x55; length]));
        records.add(b'v', &value(letter, &vec![0xFF; length]));
    }
}

/// The letter s: a length in few or many bytes, then exact, short and longer maps.
fn text_values(records: &mut Records) {
    for size in [0, 1, 3, 4, 5, 7, 8, 9, 127, 128, 300] {
        let plain = unsigned(size as u64).len();
        for length in [plain, plain + 1, 9, 10] {
            let map = [unsigned_in(size as u64, length), vec![0xEE; size]].concat();
            records.add(b'v', &value(b's', &map));
            records.add(b'v', &value(b's', &map[..map.len() - 1]));
            records.add(b'v', &value(b's', &[map.as_slice(), b"x"].concat()));
        }
    }
}

/// The letter s: lengths that no map here can hold, and unfinished ones.
fn wide_values(records: &mut Records) {
    for power in [20, 21, 31, 32, 33, 53, 61, 62] {
        for size in [(1 << power) - 1, 1 << power, (1 << power) + 1] {
            records.add(b'v', &value(b's', &unsigned(size)));
            records.add(b'v', &value(b's', &[unsigned(size), vec![0x61; 6]].concat()));
        }
    }
    for fill in [0x80, 0xFF] {
        for length in 1..=11 {
            records.add(b'v', &value(b's', &vec![fill; length]));
            records.add(b'v', &value(b's', &[vec![fill; length], vec![0x7F]].concat()));
        }
    }
}

fn value(letter: u8, map: &[u8]) -> Vec<u8> {
    [&[letter], map].concat()
}
