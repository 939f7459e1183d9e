//! The library measured against the Rust map reader, on the same bytes in one process.
//!
//! `bench [MAP...]` prints tables of times, `bench --instructions [MAP...]` a table of instructions. Some maps it makes itself:
//! `crafted/many-tags` and the others of `crafted.rs` may be named too.
//! `bench --check` compares our instructions on the shipped maps with those that are kept, and
//! `bench --keep` keeps them. For a profiler, `bench count SIDE WORK MAP [TIMES]` does a work once or so many times, and
//! `bench count SIDE way-data` reads way data once.

#[path = "../../compare/src/answer.rs"]
#[allow(dead_code)]
mod answer;
mod counted;
mod crafted;
mod guard;
mod map;
mod ours;
mod rust;
#[path = "../../compare/src/source.rs"]
#[allow(dead_code)]
mod source;
mod tally;
mod times;
mod way_data;
mod work;

use std::env;
use std::process::ExitCode;

use map::Map;

const SHIPPED: &str = concat!(env!("CARGO_MANIFEST_DIR"), "/../maps/islands.map");

fn main() -> ExitCode {
    let words: Vec<String> = env::args().skip(1).collect();
    match words.iter().map(String::as_str).collect::<Vec<_>>()[..] {
        ["count", side, counted::WAY_DATA] => counted::way_data(side),
        ["count", side, work, file] => counted::alone(side, work, file, 1),
        ["count", side, work, file, times] => {
            counted::alone(side, work, file, times.parse().expect("a number of times"))
        }
        ["--instructions", ref files @ ..] => counted::table(&or_shipped(files)),
        ["--check"] => return guard::check(),
        ["--keep"] => guard::keep(),
        ref files => tables(&or_shipped(files)),
    }
    ExitCode::SUCCESS
}

/// The named maps, or the shipped one.
fn or_shipped<'a>(files: &[&'a str]) -> Vec<&'a str> {
    if files.is_empty() {
        vec![SHIPPED]
    } else {
        files.to_vec()
    }
}

fn tables(files: &[&str]) {
    let maps: Vec<Map> = files.iter().map(|file| Map::read(file)).collect();
    times::contents(&maps);
    println!();
    times::table(&maps);
    println!();
    times::crafted();
    println!();
    way_data::table();
}
