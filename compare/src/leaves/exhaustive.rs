//! Every input of one and two bytes for each operation, and every text of three bytes.

use std::io::{self, BufWriter, Write};

use mapsforge_rs::utils;

use super::{answer, value_letter, OPERATIONS};
use crate::answer::Fold;
use crate::source::Source;

pub fn print() -> io::Result<()> {
    let mut out = BufWriter::new(io::stdout().lock());
    write(&mut out)?;
    out.flush()
}

/// A digest for each operation and first byte, then one for each first byte of a text of three.
pub fn write(out: &mut impl Write) -> io::Result<()> {
    for &operation in OPERATIONS {
        for first in 0..=255 {
            let digest = short_inputs(operation, first);
            writeln!(out, "{} {first} {digest}", char::from(operation))?;
        }
    }
    let mut stored = Vec::new();
    for first in 0..=255 {
        let digest = texts_of_three(first, &mut stored);
        writeln!(out, "3 {first} {digest}")?;
    }
    Ok(())
}

fn short_inputs(operation: u8, first: u8) -> u64 {
    let mut fold = Fold::new();
    fold.answer(&answer(operation, &[first]));
    for second in 0..=255 {
        fold.answer(&answer(operation, &[first, second]));
    }
    fold.value()
}

fn texts_of_three(first: u8, stored: &mut Vec<u8>) -> u64 {
    let mut fold = Fold::new();
    for second in 0..=255 {
        for third in 0..=255 {
            fold_text(&mut fold, [first, second, third], stored);
        }
    }
    fold.value()
}

/// Read as a map, behind its length, so that the Rust's own readers of texts judge and replace it.
fn fold_text(fold: &mut Fold, text: [u8; 3], stored: &mut Vec<u8>) {
    let map = [3, text[0], text[1], text[2]];
    let streamed = utils::read_vbe_u_buf(&mut Source::new(&map), stored).expect("it is whole");
    fold.word(u64::from(!streamed.is_empty()));
    let replaced = utils::read_vbe_u(&mut Source::new(&map)).expect("it is whole");
    fold.word(replaced.len() as u64);
    fold.bytes(replaced.as_bytes());
    fold.word(utils::hash_tag_parameter(&replaced) as u64);
    fold.word(value_letter(&replaced));
}
