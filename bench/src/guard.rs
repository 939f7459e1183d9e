//! A guard against getting slower unnoticed: our instructions on the shipped maps, against those that are kept.

use std::collections::BTreeMap;
use std::fs;
use std::process::ExitCode;

use crate::{counted, crafted};

const MAPS: &str = concat!(env!("CARGO_MANIFEST_DIR"), "/../maps");
const SHIPPED: [&str; 3] = ["islands", "islands-debug", "short-size"];
const KEPT: &str = concat!(env!("CARGO_MANIFEST_DIR"), "/instructions.txt");
/// The part of a figure by which it may differ.
const MOST: f64 = 0.03;

const HEAD: &str = "\
# Instructions of our side, as callgrind counts them: each work done once on each shipped map (maps/), empty tiles once on a copy of
# islands.map in which every tile is marked empty, some works on maps that bench makes (crafted/), and way data read once.
# bench/run --check compares them within 3 %; bench/run --keep writes them anew.
";

/// Tells of each work whose figure is another one than before.
pub fn check() -> ExitCode {
    let (kept, counted) = (kept(), counted());
    let mut differ = 0;
    for (work, ours) in &counted {
        let (ours, before) = (*ours, kept.get(work).copied());
        if before.is_none_or(|before| is_other(ours, before)) {
            let before = before.map_or("none".to_string(), |before| before.to_string());
            println!("{work}: {ours} instructions, bench/instructions.txt has {before}");
            differ += 1;
        }
    }
    let is_known = |work: &String| counted.iter().any(|(known, _)| known == work);
    for work in kept.keys().filter(|work| !is_known(work)) {
        println!("{work}: not counted, but in bench/instructions.txt");
        differ += 1;
    }
    println!("instructions of {} works, {differ} differ by more than 3 %", counted.len());
    if differ + grown(&counted) == 0 {
        ExitCode::SUCCESS
    } else {
        ExitCode::FAILURE
    }
}

/// Tells of each work that takes more than its share where there are ten times as many features.
fn grown(counted: &[(String, u64)]) -> usize {
    let of = |work: String| counted.iter().find(|(known, _)| *known == work).map(|(_, ours)| *ours);
    let mut grown = 0;
    for work in crafted::FETCHED {
        let figures = crafted::FEW_AND_MANY.map(|map| of(format!("{map} {}", work.word())));
        let [Some(few), Some(many)] = figures else { panic!("{} is counted", work.word()) };
        println!("{}: {few} instructions for 1000 features, {many} for 10000", work.word());
        grown += usize::from(many > crafted::MOST_GROWTH * few);
    }
    grown
}

fn is_other(ours: u64, before: u64) -> bool {
    ours.abs_diff(before) as f64 > MOST * before as f64
}

pub fn keep() {
    let lines = counted().into_iter().map(|(work, ours)| format!("{work} {ours}\n"));
    let text = lines.fold(HEAD.to_string(), |text, line| text + &line);
    fs::write(KEPT, text).expect("bench/instructions.txt can be written");
}

/// Each map with a work, and how many instructions it took; way data stand alone.
fn counted() -> Vec<(String, u64)> {
    let of_maps = SHIPPED.into_iter().flat_map(|map| {
        let figures = counted::ours(&format!("{MAPS}/{map}.map"));
        figures.into_iter().map(move |(work, ours)| (format!("{map} {work}"), ours))
    });
    let empty = counted::ours_empty(&format!("{MAPS}/{}.map", SHIPPED[0]));
    let empty = empty.into_iter().map(|(work, ours)| (work.to_string(), ours));
    let way_data = (counted::WAY_DATA.to_string(), counted::ours_way_data());
    of_maps.chain(empty).chain(counted::ours_crafted()).chain([way_data]).collect()
}

/// The kept figures by their works.
fn kept() -> BTreeMap<String, u64> {
    let text = fs::read_to_string(KEPT).expect("bench/instructions.txt can be read");
    let lines = text.lines().filter(|line| !line.starts_with('#'));
    let figure = |line: &str| {
        let (work, number) = line.rsplit_once(' ')?;
        Some((work.to_string(), number.parse().ok()?))
    };
    lines.map(|line| figure(line).unwrap_or_else(|| panic!("{line:?} is no figure"))).collect()
}
