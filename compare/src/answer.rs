//! Answers as lists of numbers, and the fold that makes one number of many.

use mapsforge_rs::error::MapforgeError;

/// A success is 0 and its values; a refusal is its number in document 01's table and its values.
pub type Answer = Vec<u64>;

/// The answer of a call of the Rust.
pub fn answered(result: mapsforge_rs::Result<Answer>) -> Answer {
    match result {
        Ok(values) => [&[0], values.as_slice()].concat(),
        Err(error) => refused(&error),
    }
}

/// Document 01's table, rows 1 to 10; the other rows are not the Rust's.
pub fn refused(error: &MapforgeError) -> Answer {
    match error {
        MapforgeError::Source => vec![1],
        MapforgeError::InvalidMagic => vec![2],
        MapforgeError::UnsupportedVersion(version) => vec![3, u64::from(*version)],
        MapforgeError::InvalidBoundingBox => vec![4],
        MapforgeError::InvalidHeaderSize(0) => vec![5],
        MapforgeError::InvalidIndexSignature => vec![6],
        MapforgeError::InvalidTagId(id) => vec![7, *id as u64],
        MapforgeError::InvalidTileIndex => vec![8],
        MapforgeError::Corrupt("string too long") => vec![9],
        MapforgeError::Corrupt("too many way nodes") => vec![10],
        other => panic!("document 01 has no number for: {other}"),
    }
}

/// The number by which a refusal is compared with the Rust's. A map that ends in an index entry (19) or in a
/// tile's head (20) is one that ends too early there.
pub fn rust_number(number: u64) -> u64 {
    match number {
        19 | 20 => 1,
        other => other,
    }
}

/// The same of an answer: the Rust's `Source` has no place.
pub fn as_the_rust(answer: &[u64]) -> Answer {
    match answer {
        [19 | 20, _] => vec![rust_number(answer[0])],
        _ => answer.to_vec(),
    }
}

/// The sign of a number, 1 if it is negative, and its magnitude.
pub fn signed(value: i64) -> [u64; 2] {
    [u64::from(value < 0), value.unsigned_abs()]
}

/// The digest of a sequence of numbers or bytes.
pub struct Fold(u64);

impl Fold {
    pub fn new() -> Self {
        Fold(14695981039346656037)
    }

    pub fn word(&mut self, word: u64) {
        self.0 = self.0.wrapping_mul(1099511628211).wrapping_add(word);
    }

    pub fn bytes(&mut self, bytes: &[u8]) {
        bytes.iter().for_each(|&byte| self.word(u64::from(byte)));
    }

    pub fn words(&mut self, words: &[u64]) {
        words.iter().for_each(|&word| self.word(word));
    }

    /// An answer behind the count of its words, so that no two sequences of answers look alike.
    pub fn answer(&mut self, answer: &[u64]) {
        self.word(answer.len() as u64);
        self.words(answer);
    }

    pub fn value(&self) -> u64 {
        self.0
    }
}

pub fn digest(bytes: &[u8]) -> u64 {
    let mut fold = Fold::new();
    fold.bytes(bytes);
    fold.value()
}
