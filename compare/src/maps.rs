//! Whole maps: opening them, their tags and zooms, index and grid, and columns. Each operation has a
//! letter; most of them are about the map of the last `M`.

pub mod calls;
mod column;
pub mod file;
pub mod grids;
pub mod index;
pub mod open;
pub mod sample;
pub mod writer;

pub use calls::Form;

use std::panic::{self, AssertUnwindSafe};
use std::process;

use mapsforge_rs::io::ByteRead;
use mapsforge_rs::types::MapFile;

use crate::answer::{digest, Answer, Fold};
use crate::leaves::value_letter;
use crate::source::Source;

/// How many of the first bytes the operation `D` damages.
const DAMAGED_BYTES: usize = 1500;
/// What each of them is combined with, by exclusive or.
const DAMAGES: [u8; 3] = [1, 128, 255];
/// The answer about a map that does not open. Document 01 has no such number.
const NOT_OPEN: u64 = 99;

/// A run of operations, one after the other.
#[derive(Default)]
pub struct Run {
    /// The map of the last `M`.
    map: Vec<u8>,
}

impl Run {
    /// A panic that no guard foresaw ends the run by its input.
    fn caught_answer(&mut self, operation: u8, input: &[u8]) -> Answer {
        let answer = panic::catch_unwind(AssertUnwindSafe(|| self.answer(operation, input)));
        answer.unwrap_or_else(|_| {
            let letter = char::from(operation);
            eprintln!("the Rust panicked at operation {letter} on {input:02x?}");
            eprintln!("the map is {:02x?}", self.map);
            process::exit(1)
        })
    }

    pub fn answer(&mut self, operation: u8, input: &[u8]) -> Answer {
        let mut parts = Source::new(input);
        match operation {
            b'M' => {
                self.map = input.to_vec();
                open::answer(input)
            }
            b'C' => self.all_cuts(),
            b'D' => self.all_damages(),
            b'c' => open::answer(&self.map[..place(&mut parts)]),
            b'd' => self.damaged(place(&mut parts), given(parts.read_u8())),
            b'l' => column::of_longitude(&mut parts),
            b'x' => column::longitude(&mut parts),
            _ => self.of_opened(operation, &mut parts),
        }
    }

    fn of_opened(&self, operation: u8, input: &mut Source) -> Answer {
        let answer = |mut map: MapFile<Source>| match operation {
            b'z' => maybe(map.sub_file_for_zoom(given(input.read_u8())).map(|k| k as u64)),
            b'p' => tag(&map.header.poi_tags, given(input.read_u16_be())),
            b'w' => tag(&map.header.way_tags, given(input.read_u16_be())),
            b'n' => index::tile_count(&map, input),
            b'i' => index::tile_index(&map, input),
            b'e' => index::entry(&mut map, input),
            _ => panic!("no such operation"),
        };
        open::with_map(&self.map, answer).unwrap_or_else(|_| vec![NOT_OPEN])
    }

    fn all_cuts(&self) -> Answer {
        let mut fold = Fold::new();
        for length in 0..self.map.len() {
            fold.answer(&open::answer(&self.map[..length]));
        }
        vec![0, fold.value()]
    }

    fn all_damages(&mut self) -> Answer {
        let mut fold = Fold::new();
        for place in 0..self.map.len().min(DAMAGED_BYTES) {
            for damage in DAMAGES {
                fold.answer(&self.damaged(place, self.map[place] ^ damage));
            }
        }
        vec![0, fold.value()]
    }

    /// Opens the map with one byte replaced. It is put back, which is cheaper than a copy of the map.
    fn damaged(&mut self, place: usize, byte: u8) -> Answer {
        let good = std::mem::replace(&mut self.map[place], byte);
        let answer = open::answer(&self.map);
        self.map[place] = good;
        answer
    }
}

/// A part of an operation's input.
pub fn given<T>(part: mapsforge_rs::Result<T>) -> T {
    part.expect("the input is as long as its operation needs")
}

/// A place in the map, in four bytes.
fn place(input: &mut Source) -> usize {
    given(input.read_u32_be()) as usize
}

/// 0 for none, else 1 and the value.
fn maybe(value: Option<u64>) -> Answer {
    value.map_or(vec![0, 0], |value| vec![0, 1, value])
}

fn tag(tags: &[String], k: u16) -> Answer {
    let Some(tag) = tags.get(usize::from(k)) else { return vec![7, u64::from(k)] };
    vec![0, tag.len() as u64, digest(tag.as_bytes()), value_letter(tag)]
}
