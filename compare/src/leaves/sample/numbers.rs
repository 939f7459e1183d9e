//! Numbers of fixed width and numbers of 7-bit groups, at their limits.

use super::Records;

/// The operations on numbers of 7-bit groups: unsigned, signed, microdegrees.
const GROUPS: &[u8] = b"usm";

/// Each operation on a number of fixed width, with that width.
const WIDTHS: [(u8, usize); 5] = [(b'a', 1), (b'b', 2), (b'c', 4), (b'd', 4), (b'e', 8)];

pub fn add(records: &mut Records) {
    for (operation, width) in WIDTHS {
        lengths_around(records, operation, width);
        extremes(records, operation, width);
    }
    last_groups(records);
    unfinished(records);
    around_powers(records);
    padded(records);
    named(records);
}

/// Every length short of the width, the width, and a byte more.
fn lengths_around(records: &mut Records, operation: u8, width: usize) {
    for fill in [0x00, 0x01, 0x7F, 0x80, 0xFF] {
        for length in 0..=width + 1 {
            records.add(operation, &vec![fill; length]);
        }
    }
}

/// The largest and smallest values, signed and unsigned, and one in which every byte differs.
fn extremes(records: &mut Records, operation: u8, width: usize) {
    let ends = [(0x7F, 0xFF), (0x80, 0x00), (0xFF, 0x00), (0x00, 0xFF), (0x80, 0x01)];
    for (first, rest) in ends {
        let mut bytes = vec![rest; width];
        bytes[0] = first;
        records.add(operation, &bytes);
        bytes.reverse();
        records.add(operation, &bytes);
    }
    let mixed = 0x0123_4567_89AB_CDEF_u64.to_be_bytes();
    records.add(operation, &mixed[..width]);
    records.add(operation, &mixed[8 - width..]);
    records.add(operation, &mixed);
}

/// Numbers of 1 to 10 bytes with the last byte at each of its limits, and one before another byte.
fn last_groups(records: &mut Records) {
    for length in 1..=10 {
        for body in [0x80, 0xFF] {
            let mut bytes = vec![body; length];
            for last in [0x00, 0x01, 0x3F, 0x40, 0x41, 0x7F] {
                bytes[length - 1] = last;
                records.add_all(GROUPS, &bytes);
            }
            bytes.push(0xAA);
            records.add_all(GROUPS, &bytes);
        }
    }
}

/// Numbers whose last byte is missing, and those that go on past the ninth byte.
fn unfinished(records: &mut Records) {
    for fill in [0x80, 0x81, 0xFF] {
        for length in 0..=12 {
            records.add_all(GROUPS, &vec![fill; length]);
        }
    }
}

/// The values around each power of two, in the fewest bytes; coordinates only around 2^53.
fn around_powers(records: &mut Records) {
    for power in 0..=62 {
        let coordinate = power % 8 == 0 || (51..=55).contains(&power);
        let operations: &[u8] = if coordinate { b"sm" } else { b"s" };
        for value in [(1 << power) - 1, 1 << power, (1 << power) + 1] {
            records.add(b'u', &unsigned(value));
            if value < 1 << 62 {
                records.add_all(operations, &signed(false, value));
                records.add_all(operations, &signed(true, value));
            }
        }
    }
}

/// Values in more bytes than they need, up to one byte too many.
fn padded(records: &mut Records) {
    let limit = 1 << 53;
    for value in [0, 1, 64, limit - 1, limit, limit + 1] {
        for length in unsigned(value).len()..=10 {
            records.add(b'u', &unsigned_in(value, length));
        }
        for length in signed(false, value).len()..=10 {
            records.add_all(b"sm", &signed_in(false, value, length));
            records.add_all(b"sm", &signed_in(true, value, length));
        }
    }
}

/// Document 01's own examples, and coordinates at the ends of the globe.
fn named(records: &mut Records) {
    let examples: [&[u8]; 6] = [
        &[0x80, 0x01],
        &[0x81, 0x80, 0x40],
        &[0xC0, 0x00],
        &[0xC0, 0x40],
        &[0x81, 0x80, 0x80, 0x80, 0x80, 0x80, 0x80, 0x10],
        &[0x81, 0x80, 0x80, 0x80, 0x80, 0x80, 0x80, 0x50],
    ];
    for example in examples {
        records.add_all(GROUPS, example);
    }
    for value in [90_000_000, 180_000_000, 360_000_000] {
        for value in [value - 1, value, value + 1] {
            records.add(b'm', &signed(false, value));
            records.add(b'm', &signed(true, value));
        }
    }
}

/// An unsigned number in the fewest bytes.
pub fn unsigned(value: u64) -> Vec<u8> {
    let fits = |&length: &usize| u128::from(value) < 1 << (7 * length);
    unsigned_in(value, (1..=10).find(fits).expect("ten bytes hold 64 bits"))
}

/// A signed number in the fewest bytes; a last byte holds six bits of it.
pub fn signed(negative: bool, magnitude: u64) -> Vec<u8> {
    let fits = |&length: &usize| u128::from(magnitude) < 1 << (7 * length - 1);
    let length = (1..=10).find(fits).expect("ten bytes hold 64 bits");
    signed_in(negative, magnitude, length)
}

/// An unsigned number in a given count of bytes: groups of 7 bits, lowest first.
pub fn unsigned_in(value: u64, length: usize) -> Vec<u8> {
    let group = |i: usize| (u128::from(value) >> (7 * i)) as u8 & 0x7F;
    let mut bytes: Vec<u8> = (0..length).map(|i| group(i) | 0x80).collect();
    bytes[length - 1] &= 0x7F;
    bytes
}

pub fn signed_in(negative: bool, magnitude: u64, length: usize) -> Vec<u8> {
    let mut bytes = unsigned_in(magnitude, length);
    bytes[length - 1] |= if negative { 0x40 } else { 0 };
    bytes
}
