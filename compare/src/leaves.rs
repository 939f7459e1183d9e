//! The leaves: numbers, texts, tags and inline values, each by an operation of one letter.

pub mod exhaustive;
pub mod sample;

use std::panic;
use std::process;

use mapsforge_rs::io::ByteRead;
use mapsforge_rs::{tag, utils, Result};

use crate::answer::{answered, digest, refused, signed, Answer};
use crate::differences;
use crate::source::Source;

/// The operations, in the order of the runs.
pub const OPERATIONS: &[u8; 13] = b"abcdeusmthgkv";

/// The operation `t` over a prefix that is followed by a stated number of these bytes.
pub const FILLED_TEXT: u8 = b'T';
const FILL: u8 = 0x61;

/// The answer of one operation on one input. A panic that no guard foresaw ends the run by its input.
pub fn answer(operation: u8, input: &[u8]) -> Answer {
    panic::catch_unwind(|| leaf(operation, input)).unwrap_or_else(|_| {
        let letter = char::from(operation);
        eprintln!("the Rust panicked at operation {letter} on {input:02x?}");
        process::exit(1)
    })
}

fn leaf(operation: u8, input: &[u8]) -> Answer {
    match operation {
        b'a' => fixed(input, |map| Ok(u64::from(map.read_u8()?))),
        b'b' => fixed(input, |map| Ok(u64::from(map.read_u16_be()?))),
        b'c' => with_next(input, |map| Ok(signed(i64::from(map.read_i32_be()?)))),
        b'd' => fixed(input, |map| Ok(u64::from(map.read_u32_be()?))),
        b'e' => fixed(input, |map| map.read_u64_be()),
        b'u' => unsigned_number(input),
        b's' => signed_number(input),
        b'm' => microdegrees(input),
        b't' => text(input),
        FILLED_TEXT => text(&filled(input)),
        b'h' => hash(&replaced(input)),
        b'g' => split_tag(&replaced(input)),
        b'k' => vec![0, value_letter(&replaced(input))],
        b'v' => inline_value(input[0], &input[1..]),
        _ => panic!("no such operation"),
    }
}

/// What a read at place 0 gives, and the next place.
fn with_next<const N: usize>(map: &[u8], read: impl Fn(&mut Source) -> Result<[u64; N]>) -> Answer {
    let mut source = Source::new(map);
    let values = read(&mut source);
    answered(values.map(|values| [&values[..], &[source.at()]].concat()))
}

fn fixed(map: &[u8], read: impl Fn(&mut Source) -> Result<u64>) -> Answer {
    with_next(map, |source| Ok([read(source)?]))
}

fn unsigned_number(map: &[u8]) -> Answer {
    differences::number_too_long(map)
        .unwrap_or_else(|| fixed(map, |map| Ok(utils::read_vbe_u_int(map)? as u64)))
}

fn signed_number(map: &[u8]) -> Answer {
    differences::number_too_long(map)
        .unwrap_or_else(|| with_next(map, |map| Ok(signed(utils::read_vbe_s_int(map)? as i64))))
}

fn microdegrees(map: &[u8]) -> Answer {
    differences::coordinate(map)
        .unwrap_or_else(|| fixed(map, |map| Ok(utils::read_microdegrees(map)?.to_bits())))
}

/// A text as the two readers of the Rust see it.
struct Text {
    start: u64,
    size: u64,
    valid: bool,
    replaced: String,
}

impl Text {
    fn values(&self) -> Answer {
        vec![
            self.start,
            self.size,
            u64::from(self.valid),
            self.replaced.len() as u64,
            digest(self.replaced.as_bytes()),
            self.start + self.size,
        ]
    }
}

fn text(map: &[u8]) -> Answer {
    match differences::text(map) {
        Some(differences::Text::Refused(refusal)) => refusal,
        Some(differences::Text::Stored { start, size }) => {
            answered(Ok(stored_text(map, start, size).values()))
        }
        None => answered(read_text(map).map(|text| text.values())),
    }
}

/// The collected text is replaced, the streamed one is empty unless it is valid.
fn read_text(map: &[u8]) -> Result<Text> {
    let (mut collecting, mut streaming) = (Source::new(map), Source::new(map));
    let mut stored = Vec::new();
    let collected = utils::read_vbe_u(&mut collecting);
    let streamed = utils::read_vbe_u_buf(&mut streaming, &mut stored).map(str::len);
    let (replaced, shown) = both(collected, streamed)?;
    assert_eq!(collecting.at(), streaming.at(), "the two readers part");
    let valid = shown == stored.len();
    assert!(!valid || replaced.as_bytes() == stored, "the two texts part");
    let size = stored.len() as u64;
    let start = streaming.at() - size;
    Ok(Text { start, size, valid, replaced })
}

/// One answer speaks for the two readers, so they must refuse the same maps the same way.
fn both<A, B>(collected: Result<A>, streamed: Result<B>) -> Result<(A, B)> {
    match (collected, streamed) {
        (Ok(a), Ok(b)) => Ok((a, b)),
        (Err(a), Err(b)) if refused(&a) == refused(&b) => Err(a),
        _ => panic!("one of the two readers refuses"),
    }
}

/// A text that only the port can find, converted as the Rust converts its own.
fn stored_text(map: &[u8], start: usize, size: usize) -> Text {
    let stored = &map[start..start + size];
    Text {
        start: start as u64,
        size: size as u64,
        valid: std::str::from_utf8(stored).is_ok(),
        replaced: replaced(stored),
    }
}

/// The count of bytes to put behind the prefix is the input's first four bytes.
fn filled(input: &[u8]) -> Vec<u8> {
    let (count, prefix) = input.split_at(4);
    let count = u32::from_be_bytes(count.try_into().expect("four bytes"));
    let mut map = prefix.to_vec();
    map.resize(prefix.len() + count as usize, FILL);
    map
}

fn replaced(bytes: &[u8]) -> String {
    String::from_utf8_lossy(bytes).into_owned()
}

fn hash(text: &str) -> Answer {
    vec![0, utils::hash_tag_parameter(text) as u64]
}

fn split_tag(text: &str) -> Answer {
    let tag = tag::parse_tag(text);
    let lengths = [tag.key.len() as u64, tag.value.len() as u64];
    vec![0, lengths[0], lengths[1], tag.key_code as u64, tag.value_code as u64]
}

/// The letter of a tag's inline value; 0 for none and for every letter that skips nothing.
pub fn value_letter(text: &str) -> u64 {
    let letter = tag::inline_value_kind(text);
    u64::from(letter.filter(|letter| b"bhifs".contains(letter)).unwrap_or(0))
}

fn inline_value(letter: u8, map: &[u8]) -> Answer {
    let guarded = (letter == b's').then(|| differences::number_too_long(map));
    guarded.flatten().unwrap_or_else(|| {
        let mut source = Source::new(map);
        let skipped = tag::skip_inline_value(&mut source, letter);
        let next = source.at();
        answered(skipped.and_then(|()| {
            let start = value_start(letter, map)?;
            Ok(vec![start, next - start, next])
        }))
    })
}

/// The value of the letter s lies behind its length, every other one where it is read.
fn value_start(letter: u8, map: &[u8]) -> Result<u64> {
    let mut source = Source::new(map);
    if letter == b's' {
        utils::read_vbe_u_int(&mut source)?;
    }
    Ok(source.at())
}
