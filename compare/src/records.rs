//! The two files of a run: records of operation and input, and a line of answer for each of them.

use std::fs;
use std::io;
use std::path::Path;

use crate::answer::Answer;

/// An operation and its input.
pub type Record = (u8, Vec<u8>);

/// For each record the operation, the input's length in four bytes and the input.
pub fn bytes(records: &[Record]) -> Vec<u8> {
    let mut bytes = Vec::new();
    for (operation, input) in records {
        bytes.push(*operation);
        bytes.extend((input.len() as u32).to_be_bytes());
        bytes.extend(input);
    }
    bytes
}

/// The operation and the answer's words, each behind a space.
pub fn line(operation: u8, answer: &Answer) -> String {
    let words: String = answer.iter().map(|word| format!(" {word}")).collect();
    format!("{}{words}\n", char::from(operation))
}

/// Writes the records to `stdin` and the lines to `stdout`.
pub fn write(folder: &Path, records: &[Record], lines: &[u8]) -> io::Result<()> {
    fs::create_dir_all(folder)?;
    fs::write(folder.join("stdin"), bytes(records))?;
    fs::write(folder.join("stdout"), lines)
}
