//! Instructions, counted by callgrind: a process for each side, work and map, which does the work once.

use std::env;
use std::fs;
use std::hint::black_box;
use std::path::{Path, PathBuf};
use std::process::Command;

use crate::crafted;
use crate::map::Map;
use crate::ours::Ours;
use crate::rust::Rust;
use crate::tally::Tally;
use crate::way_data;
use crate::work::{Side, Work, OURS_ALONE, WORKS};

const SIDES: [&str; 2] = ["ours", "rust"];
pub const WAY_DATA: &str = "way-data";

pub fn table(files: &[&str]) {
    println!("| map | work | ours | Rust | ours / Rust |");
    println!("|---|---|---:|---:|---:|");
    for file in files {
        let map = Map::read(file);
        for work in WORKS {
            print_line(&map.name, work.name(), work.word(), Some(file));
        }
        for work in OURS_ALONE.into_iter().filter(|_| map.left_out()[0] > 0) {
            let ours = instructions(SIDES[0], work.word(), Some(file));
            println!("| {} | {} | {ours} | | |", map.name, work.name());
        }
    }
    for (file, works) in crafted::both() {
        let name = Map::read(file).name;
        works.iter().for_each(|work| print_line(&name, work.name(), work.word(), Some(file)));
    }
    print_line("(none)", way_data::COUNTED.name, WAY_DATA, None);
}

fn print_line(map: &str, name: &str, work: &str, file: Option<&str>) {
    let [ours, rust] = SIDES.map(|side| instructions(side, work, file));
    println!("| {map} | {name} | {ours} | {rust} | {:.2} |", ours as f64 / rust as f64);
}

/// Our side alone: each work on a map.
pub fn ours(file: &str) -> Vec<(&'static str, u64)> {
    ours_of(&WORKS, file)
}

/// Empty tiles, on a copy of the map in which every tile is marked empty.
pub fn ours_empty(file: &str) -> Vec<(&'static str, u64)> {
    let program = env::current_exe().expect("this program's path");
    let made = profiles(&program).join("all-empty.map");
    fs::write(&made, Map::read(file).all_empty())
        .expect("a map can be written beside callgrind's files");
    ours_of(&OURS_ALONE, &made.to_string_lossy())
}

pub fn ours_way_data() -> u64 {
    instructions(SIDES[0], WAY_DATA, None)
}

fn ours_of(works: &[Work], file: &str) -> Vec<(&'static str, u64)> {
    let figure = |work: &Work| (work.word(), instructions(SIDES[0], work.word(), Some(file)));
    works.iter().map(figure).collect()
}

/// The maps that are made here.
pub fn ours_crafted() -> Vec<(String, u64)> {
    let of_map = |(file, works): (&'static str, [Work; 2])| {
        let figures = ours_of(&works, file);
        figures.into_iter().map(move |(work, ours)| (format!("{file} {work}"), ours))
    };
    crafted::both().chain([(crafted::OURS, crafted::WORKS)]).flat_map(of_map).collect()
}

/// What callgrind collects inside of `bench_counted`. Its file stays, for callgrind_annotate.
fn instructions(side: &str, work: &str, file: Option<&str>) -> u64 {
    let program = env::current_exe().expect("this program's path");
    let stem = file.and_then(|file| Path::new(file).file_stem()).unwrap_or("no-map".as_ref());
    let out = profiles(&program).join(format!("{}.{work}.{side}", stem.to_string_lossy()));
    let done = Command::new("valgrind")
        .args(["--tool=callgrind", "--toggle-collect=bench_counted"])
        .arg(format!("--callgrind-out-file={}", out.display()))
        .arg(program)
        .args(["count", side, work])
        .args(file)
        .output()
        .expect("valgrind starts");
    let said = String::from_utf8_lossy(&done.stderr);
    assert!(done.status.success(), "under callgrind: {said}");
    total(&fs::read_to_string(&out).expect("callgrind's file"))
}

/// The folder of callgrind's files, beside the program.
fn profiles(program: &Path) -> PathBuf {
    let folder = program.with_file_name("callgrind");
    fs::create_dir_all(&folder).expect("a folder for callgrind's files");
    folder
}

fn total(profile: &str) -> u64 {
    let totals = profile.lines().find_map(|line| line.strip_prefix("totals: "));
    totals.expect("a line of totals").trim().parse().expect("a number")
}

/// Does a work, with all that it needs made before.
pub fn alone(side: &str, work: &str, file: &str, times: u32) {
    let map = Map::read(file);
    let mut works = WORKS.into_iter().chain(OURS_ALONE);
    let work = works.find(|known| known.word() == work).expect("a known work");
    let mut side: Box<dyn Side> =
        if is_ours(side) { Box::new(Ours::new(&map)) } else { Box::new(Rust::new(&map)) };
    let mut tally = Tally::counts();
    for _ in 0..times {
        bench_counted(&mut || side.run(work, &mut tally));
    }
    black_box(tally);
}

pub fn way_data(side: &str) {
    way_data::alone(is_ours(side), bench_counted);
}

fn is_ours(side: &str) -> bool {
    assert!(SIDES.contains(&side), "no such side: {side}");
    side == SIDES[0]
}

/// Callgrind counts from its entry to its exit, by its name.
#[no_mangle]
#[inline(never)]
fn bench_counted(run: &mut dyn FnMut()) {
    run();
    // else the call were a jump, and no exit were seen
    black_box(());
}
