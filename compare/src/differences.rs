//! Where the port parts from the Rust on purpose. Each guard looks at the bytes alone, or at the
//! numbers of the call; where it speaks up, the Rust is not run and the port's answer stands. Two are
//! more than a guard: of a header, the Rust is shown one that it can read, and of a tile there is a
//! model, since the port may go on reading where the Rust has parted.

mod header;
pub mod tile;

use mapsforge_rs::grid::Grid;

use crate::answer::Answer;

pub use header::{header, Header};
#[cfg(feature = "both")]
pub use header::{header_parts, HeaderParts};

/// The most bytes that a number has.
const NUMBER_BYTES: usize = 9;
/// The largest magnitude of a coordinate, in microdegrees.
const COORDINATE_LIMIT: u64 = 1 << 53;
/// The longest text.
const TEXT_LIMIT: u64 = 1 << 20;
/// The most bytes of a length that `read_vbe_u` shifts by less than 32 bits.
const KEPT_BYTES: usize = 5;
/// The size of an index entry.
const ENTRY_BYTES: u128 = 5;
/// The highest zoom by which 1 can be shifted in 64 bits.
const ZOOM_LIMIT: u8 = 63;

/// "At most 9 bytes (added, 11)." and row 11: "ninth byte has its top bit; no tenth is read".
pub fn number_too_long(map: &[u8]) -> Option<Answer> {
    let nine = map.get(..NUMBER_BYTES)?;
    nine.iter().all(|byte| byte & 0x80 != 0).then(|| vec![11])
}

/// "a magnitude above 2^53 is refused (12, added)", behind row 11.
pub fn coordinate(map: &[u8]) -> Option<Answer> {
    number_too_long(map).or_else(|| (magnitude(map)? > COORDINATE_LIMIT).then(|| vec![12]))
}

/// How the port reads a text whose length `read_vbe_u` cannot hold.
pub enum Text {
    Refused(Answer),
    Stored { start: usize, size: usize },
}

/// "`read_vbe_u` keeps 32 bits, so length 80 80 80 80 10 becomes 0; here it is 9."
/// A sixth byte, even one of padding or before the map's end, is shifted past those 32 bits.
pub fn text(map: &[u8]) -> Option<Text> {
    if let Some(refusal) = number_too_long(map) {
        return Some(Text::Refused(refusal));
    }
    let Some(bytes) = number(map) else {
        return (map.len() > KEPT_BYTES).then(|| Text::Refused(vec![1]));
    };
    let length = unsigned(bytes);
    let kept = bytes.len() <= KEPT_BYTES && length <= u64::from(u32::MAX);
    (!kept).then(|| wide_text(map, bytes.len(), length))
}

/// "Text: a length, at most 2^20, then its bytes."
fn wide_text(map: &[u8], start: usize, length: u64) -> Text {
    let left = (map.len() - start) as u64;
    if length > TEXT_LIMIT {
        Text::Refused(vec![9])
    } else if length > left {
        Text::Refused(vec![1])
    } else {
        let size = length as usize;
        Text::Stored { start, size }
    }
}

/// Row 14: "grid reversed, or over 2^32 − 1 tiles". The caller has looked for the sub file first.
pub fn grid(grid: &Grid) -> Option<Answer> {
    grid.tiles().is_none().then(|| vec![14])
}

/// "`tile_index_of` here is the whole number, also above 2^31 − 1." The Rust reckons in i32, and the
/// number of columns alone may be too large for it. The grid is a good one.
pub fn tile_index(grid: &Grid, x: i32, y: i32) -> Option<Answer> {
    let (columns, rows) = (grid.x_min..=grid.x_max, grid.y_min..=grid.y_max);
    if !columns.contains(&x) || !rows.contains(&y) {
        return None;
    }
    let distance = |from: i32, to: i32| i64::from(to) - i64::from(from);
    let columns = distance(grid.x_min, grid.x_max) + 1;
    // neither the rows above nor their product with the columns is larger than the index
    let index = distance(grid.y_min, y) * columns + distance(grid.x_min, x);
    let held = |number: i64| i32::try_from(number).is_ok();
    (!held(columns) || !held(index)).then(|| vec![0, 1, index as u64])
}

/// "Sums past 64 bits [...] are read as far as the map goes": the place of an index entry, whose tile is
/// in the grid. Nothing is there, which counts as the Rust's `Source`. The sum of an entry's offset and
/// the sub file's start needs no guard: the entry is behind the start, so where it can be read the start
/// is inside the map.
pub fn entry(start: u64, signature: u64, tile: u64) -> Option<Answer> {
    u64::try_from(entry_place(start, signature, tile)).is_err().then(|| vec![1])
}

/// Where an index entry stands; places never wrap.
fn entry_place(start: u64, signature: u64, tile: u64) -> u128 {
    u128::from(start) + u128::from(signature) + u128::from(tile) * ENTRY_BYTES
}

/// Row 18: "zoom above 63 in column or longitude arithmetic".
pub fn zoom(zoom: u8) -> Option<Answer> {
    (zoom > ZOOM_LIMIT).then(|| vec![18])
}

/// The bytes of the number that the map starts with, if it ends in the map.
fn number(map: &[u8]) -> Option<&[u8]> {
    let last = map.iter().position(|byte| byte & 0x80 == 0)?;
    Some(&map[..=last])
}

/// "groups of 7 bits, lowest first"; at most nine of them, so 63 bits.
pub fn unsigned(number: &[u8]) -> u64 {
    let groups = number.iter().rev();
    groups.fold(0, |value, byte| value << 7 | u64::from(byte & 0x7F))
}

/// "Signed: the last byte's 40 is the sign, its 3F the data".
fn magnitude(map: &[u8]) -> Option<u64> {
    let number = number(map)?;
    let sign = 0x40 << (7 * (number.len() - 1));
    Some(unsigned(number) & !sign)
}

/// Wish 6: "whether the encoding was plain: no shorter one gives the same value". The value is written anew, in the fewest
/// bytes, and these are compared.
pub fn is_plain_unsigned(number: &[u8]) -> bool {
    let mut left = Some(unsigned(number));
    let written = std::iter::from_fn(|| {
        let value = left?;
        left = (value > 0x7F).then_some(value >> 7);
        Some(group(value, left))
    });
    written.eq(number.iter().copied())
}

/// The same of a signed number, whose last byte holds six bits and the sign; "and minus zero (40) is not plain".
pub fn is_plain_signed(number: &[u8]) -> bool {
    let magnitude = magnitude(number).expect("a whole number");
    let negative = magnitude > 0 && number.last().is_some_and(|last| last & 0x40 != 0);
    let mut left = Some(magnitude);
    let written = std::iter::from_fn(|| {
        let value = left?;
        left = (value > 0x3F).then_some(value >> 7);
        let sign = if left.is_none() && negative { 0x40 } else { 0 };
        Some(group(value, left) | sign)
    });
    written.eq(number.iter().copied())
}

/// The lowest group of a value; its top bit says that more is left.
fn group(value: u64, left: Option<u64>) -> u8 {
    value as u8 & 0x7F | if left.is_some() { 0x80 } else { 0 }
}
