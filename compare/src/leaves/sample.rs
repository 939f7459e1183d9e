//! A sample of inputs, the boundaries first and then random ones, with their answers.

mod numbers;
mod random;
mod tags;
mod texts;

#[cfg(feature = "both")]
pub use numbers::signed_in;
pub use numbers::{signed, unsigned, unsigned_in};
pub use tags::TAGS;

use std::collections::HashSet;
use std::io;
use std::path::Path;

use super::{answer, exhaustive, OPERATIONS};
use crate::records::{self, Record};

/// Writes the records to `stdin` and a line for each of them to `stdout`.
pub fn write(folder: &Path) -> io::Result<()> {
    let mut records = sample();
    let mut answers = records.answers().into_bytes();
    exhaustive::write(&mut answers)?;
    ask_for_all(&mut records);
    records::write(folder, &records.list, &answers)
}

/// Asks for the digests of `leaves-exhaustive`: `1` and an operation, then `3`.
fn ask_for_all(records: &mut Records) {
    OPERATIONS.iter().for_each(|&operation| records.add(b'1', &[operation]));
    records.add(b'3', &[]);
}

fn sample() -> Records {
    let mut records = Records::default();
    numbers::add(&mut records);
    texts::add(&mut records);
    tags::add(&mut records);
    random::add(&mut records);
    records
}

/// Operations with their inputs, each pair once, in the order in which they came.
#[derive(Default)]
struct Records {
    list: Vec<Record>,
    seen: HashSet<Record>,
}

impl Records {
    fn add(&mut self, operation: u8, input: &[u8]) {
        let record = (operation, input.to_vec());
        if self.seen.insert(record.clone()) {
            self.list.push(record);
        }
    }

    fn add_all(&mut self, operations: &[u8], input: &[u8]) {
        operations.iter().for_each(|&operation| self.add(operation, input));
    }

    fn answers(&self) -> String {
        let line =
            |(operation, input): &Record| records::line(*operation, &answer(*operation, input));
        self.list.iter().map(line).collect()
    }
}
