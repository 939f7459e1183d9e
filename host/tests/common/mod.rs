//! What the tests share.
#![allow(dead_code)]

pub mod json;
pub mod lent;
pub mod xml;

use std::io::{Read, Write};
use std::path::{Path, PathBuf};
use std::process::{Command, Output, Stdio};
use std::time::{Duration, Instant};

pub const SHIPPED: [&str; 3] = ["islands.map", "islands-debug.map", "short-size.map"];

/// A file of the repository.
pub fn repository(path: &str) -> PathBuf {
    PathBuf::from(env!("CARGO_MANIFEST_DIR")).join("..").join(path)
}

/// The path of a shipped map.
pub fn map_path(name: &str) -> PathBuf {
    repository("maps").join(name)
}

/// Its bytes.
pub fn map_bytes(name: &str) -> Vec<u8> {
    std::fs::read(map_path(name)).expect("the map is shipped")
}

/// A map written to the tests' own folder.
pub fn written(name: &str, bytes: &[u8]) -> PathBuf {
    let path = PathBuf::from(env!("CARGO_TARGET_TMPDIR")).join(name);
    std::fs::write(&path, bytes).expect("the tests' folder can be written to");
    path
}

/// A small generator of numbers, the same on each run.
pub struct Random(pub u64);

impl Random {
    pub fn next(&mut self) -> u64 {
        self.0 = self.0.wrapping_mul(6364136223846793005).wrapping_add(1442695040888963407);
        let mixed = self.0 ^ (self.0 >> 29);
        mixed.wrapping_mul(0xbf58476d1ce4e5b9) ^ (mixed >> 32)
    }
}

/// Compilers, each with its language: the oldest C and C++ that the headers are for, and a later C++.
pub const C: [&str; 2] = ["cc", "-std=c99"];
pub const CPP: [[&str; 2]; 2] = [["c++", "-std=c++11"], ["c++", "-std=c++20"]];

/// The command of a compiler that finds the headers and lets no warning pass.
pub fn compiler([compiler, language]: [&str; 2]) -> Command {
    let mut command = Command::new(compiler);
    command.args([language, "-Wall", "-Wextra", "-Werror", "-pedantic", "-I"]);
    command.arg(repository("include"));
    command
}

/// Runs it; what it says fails the test.
pub fn compile(mut command: Command) {
    let done = command.output().unwrap_or_else(|error| panic!("{command:?}: {error}"));
    assert!(done.status.success(), "{command:?}\n{}", String::from_utf8_lossy(&done.stderr));
}

/// The library.
pub fn library() -> PathBuf {
    let folder = match std::env::var_os("MAPSFORGE_LIB") {
        Some(folder) => PathBuf::from(folder),
        None => repository("target/staticlib"),
    };
    folder.join("libmapsforge.a").canonicalize().expect("the library is there")
}

/// A program of the library and a source file of the repository, in the tests' own folder.
pub fn program(source: &str, language: [&str; 2]) -> PathBuf {
    let stem = Path::new(source).file_stem().expect("the file has a name").to_string_lossy();
    let program = PathBuf::from(env!("CARGO_TARGET_TMPDIR")).join(format!("{stem}{}", language[1]));
    let mut command = compiler(language);
    command.args(["-O2", "-pthread"]).arg(repository(source)).arg(library());
    command.arg("-lm").arg("-o").arg(&program);
    compile(command);
    program
}

/// Places of islands.map's header.
pub const HEADER_SIZE: usize = 20;
pub const VERSION: usize = 24;
pub const FILE_SIZE: usize = 28;
pub const BOX: usize = 44;
pub const FLAGS: usize = 71;

/// The place of a sub file's interval: base zoom, lowest zoom, highest zoom, start (8 bytes), size (8 bytes).
pub fn interval_place(bytes: &[u8], sub_file: usize) -> usize {
    let map = mapsforge::Map::open(bytes).expect("the map opens");
    let count = map.intervals().len();
    map.header().end as usize - 19 * (count - sub_file)
}

/// The map with a box of these microdegrees: south, west, north, east.
pub fn with_box(mut bytes: Vec<u8>, degrees: [i32; 4]) -> Vec<u8> {
    for (k, number) in degrees.into_iter().enumerate() {
        bytes[BOX + 4 * k..][..4].copy_from_slice(&number.to_be_bytes());
    }
    bytes
}

/// The header of the shipped map with one sub file of base zoom 13: so many tiles in a row, of these offsets behind the
/// index, and what stands there.
pub fn one_row(offsets: &[u64], content: &[u8]) -> Vec<u8> {
    let whole = map_bytes("islands.map");
    let end = mapsforge::Map::open(&whole).unwrap().header().end as usize;
    // A column has 43945.3125 microdegrees.
    let east = 43_946 * (offsets.len() as i32 - 1) + 9;
    let mut bytes = with_box(whole[..end].to_vec(), [0, 0, 0, east]);
    bytes.truncate(end - 38);
    let place = end - 3 * 19;
    bytes[place - 1] = 1;
    let (start, index) = (bytes.len() as u64, 5 * offsets.len() as u64);
    bytes[place..][..3].copy_from_slice(&[13, 13, 21]);
    bytes[place + 3..][..8].copy_from_slice(&start.to_be_bytes());
    bytes[place + 11..][..8].copy_from_slice(&(index + content.len() as u64).to_be_bytes());
    for offset in offsets {
        bytes.extend_from_slice(&(index + offset).to_be_bytes()[3..]);
    }
    bytes.extend_from_slice(content);
    let size = bytes.len() as u64;
    bytes[FILE_SIZE..][..8].copy_from_slice(&size.to_be_bytes());
    bytes
}

/// The command `mapsforge`.
pub fn command() -> Command {
    Command::new(env!("CARGO_BIN_EXE_mapsforge"))
}

pub fn run(words: &[&str]) -> Output {
    command().args(words).output().expect("the command runs")
}

/// Standard output of a run that should end with this status and complain of nothing.
pub fn answer(words: &[&str], status: i32) -> String {
    let output = run(words);
    assert_eq!(String::from_utf8_lossy(&output.stderr), "", "{words:?}");
    assert_eq!(output.status.code(), Some(status), "{words:?}");
    String::from_utf8(output.stdout).expect("the answer is UTF-8")
}

/// The one sentence of a run that fails with this status.
pub fn complaint(words: &[&str], status: i32) -> String {
    let output = run(words);
    assert_eq!(output.status.code(), Some(status), "{words:?}");
    let text = String::from_utf8(output.stderr).expect("the complaint is UTF-8");
    assert!(text.starts_with("mapsforge: ") && text.ends_with('\n'), "{text:?}");
    assert_eq!(text.lines().count(), 1, "{text:?}");
    text
}

/// The path of a shipped map as a word.
pub fn shipped(name: &str) -> String {
    text(&map_path(name))
}

pub fn text(path: &Path) -> String {
    path.to_str().expect("the path is UTF-8").to_string()
}

/// A program that may be absent, by the names that it goes by. Where it is, the test says that it was skipped.
pub fn tool(names: &[&str], test: &str) -> Option<String> {
    let there = |name: &&&str| {
        let asked = Command::new(name).arg("--version").output();
        asked.is_ok_and(|output| output.status.success())
    };
    let found = names.iter().find(there).map(|name| name.to_string());
    if found.is_none() {
        skipped(test, &format!("there is no {}", names.join(" or ")));
    }
    found
}

/// Says that a test was skipped, past the capture of the test's own output, so that a run always shows it.
pub fn skipped(test: &str, why: &str) {
    let _ = writeln!(std::io::stderr(), "{test} was skipped: {why}");
}

/// A shipped map without its end, in a file of the test's own, since tests run at once.
pub fn cut(test: &str, name: &str, length: usize) -> String {
    text(&written(&format!("{test}-{length}-{name}"), &map_bytes(name)[..length]))
}

/// An unsigned number of a map, and the place behind it.
pub fn stored(bytes: &[u8], at: usize) -> (usize, usize) {
    let end = (at..).find(|&k| bytes[k] & 0x80 == 0).unwrap() + 1;
    (bytes[at..end].iter().rev().fold(0, |value, byte| value << 7 | usize::from(byte & 0x7f)), end)
}

/// Where a tile's first-way offset stands: behind a pair of counts for each zoom.
pub fn offset_place(sub_file: &mapsforge::SubFile<'_, '_>, tile: usize) -> usize {
    let (map, interval) = (sub_file.map(), sub_file.interval());
    let signature = if map.header().debug() { 32 } else { 0 };
    let start = sub_file.entry(tile).unwrap().place as usize + signature;
    let numbers = 2 * (interval.max_zoom - interval.min_zoom + 1);
    (0..numbers).fold(start, |at, _| stored(map.bytes(), at).1)
}

/// A map with a text replaced by another of the same size wherever it stands.
pub fn replaced(mut bytes: Vec<u8>, text: &[u8], by: &[u8]) -> Vec<u8> {
    assert_eq!(text.len(), by.len(), "the sizes are equal");
    let mut found = 0;
    for at in 0..bytes.len() - text.len() {
        if bytes[at..].starts_with(text) {
            bytes[at..][..text.len()].copy_from_slice(by);
            found += 1;
        }
    }
    assert!(found > 0, "the text is there");
    bytes
}

/// Runs a program that is ended if it takes too long.
pub fn limited(command: &mut Command, limit: Duration) -> Output {
    let mut child = command
        .stdin(Stdio::null())
        .stdout(Stdio::piped())
        .stderr(Stdio::piped())
        .spawn()
        .expect("the program starts");
    // Read while it runs, so that it does not wait for a reader.
    let reader = |mut from: Box<dyn Read + Send>| {
        std::thread::spawn(move || {
            let mut read = Vec::new();
            let _ = from.read_to_end(&mut read);
            read
        })
    };
    let stdout = reader(Box::new(child.stdout.take().expect("it is piped")));
    let stderr = reader(Box::new(child.stderr.take().expect("it is piped")));
    let start = Instant::now();
    let status = loop {
        if let Some(status) = child.try_wait().expect("it can be asked") {
            break status;
        }
        if start.elapsed() > limit {
            let _ = child.kill();
            panic!("{command:?} took longer than {limit:?}");
        }
        std::thread::sleep(Duration::from_millis(5));
    };
    let joined = |thread: std::thread::JoinHandle<Vec<u8>>| thread.join().expect("it is read");
    Output { status, stdout: joined(stdout), stderr: joined(stderr) }
}

/// Runs the command, and closes its output when the first byte has come.
pub fn closed_early(words: &[&str]) -> Output {
    let mut child = command()
        .args(words)
        .stdout(Stdio::piped())
        .stderr(Stdio::piped())
        .spawn()
        .expect("the command runs");
    let mut first = [0];
    child.stdout.take().expect("it is piped").read_exact(&mut first).expect("it answers");
    child.wait_with_output().expect("it ends")
}
