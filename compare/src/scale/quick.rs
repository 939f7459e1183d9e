//! Our library's next against the general next where quick readers may go wrong: every pair of bytes, every length and
//! every letter of some points and ways, and cases by chance, of maps and made up, most of them spoiled.

mod case;
mod chance;
mod places;
mod sweeps;

use std::time::Instant;

use super::bases::Base;
use super::check::Check;
use super::{Options, ENOUGH};
use case::Case;

const CASES: u64 = 20_000_000;
const QUICK_CASES: u64 = 500_000;

/// All cases; whether none differs and every class of answers came.
pub fn compare(bases: &[Base], options: &Options) -> bool {
    let start = Instant::now();
    let mut check = Check::default();
    // a single case is asked for to be looked at again
    let once = options.only.is_some();
    let differing = if once { 0 } else { sweep(&mut check) };
    let differing = differing + by_chance(&mut check, bases, options);
    println!();
    check.general.print();
    let missing = check.general.missing();
    let came = once || missing.is_empty();
    if !came {
        println!("NONE came of {missing:?}");
    }
    println!("values compared: {}", check.values);
    println!("differ: {differing}");
    println!("time: {:.1} s", start.elapsed().as_secs_f64());
    differing == 0 && came
}

/// Answers how many features differ with other bytes, lengths or letters.
fn sweep(check: &mut Check) -> u64 {
    let (start, mut features, mut differing) = (Instant::now(), 0, 0);
    for case in sweeps::features() {
        features += 1;
        let Err(differs) = sweeps::all(check, case) else { continue };
        print_smallest("swept", &differs);
        differing += 1;
    }
    let time = start.elapsed().as_secs_f64();
    println!("swept: {features} features, {differing} differ; {time:.1} s");
    differing
}

/// Answers how many cases differ.
fn by_chance(check: &mut Check, bases: &[Base], options: &Options) -> u64 {
    let (start, mut cases, mut differing) = (Instant::now(), 0, 0);
    let places = places::of(bases);
    let all = 0..options.cases(CASES, QUICK_CASES);
    for number in options.only.map_or(all, |only| only..only + 1) {
        cases += 1;
        let case = chance::case(&places, options.seed, number);
        let Err(differs) = case.walk(check) else { continue };
        print_smallest(&format!("case {number}"), &differs);
        differing += 1;
        if differing >= ENOUGH {
            break;
        }
    }
    let (seed, time) = (options.seed, start.elapsed().as_secs_f64());
    let places = places.len();
    println!(
        "by chance: {cases} cases of {places} places, seed {seed}, {differing} differ; {time:.1} s"
    );
    differing
}

/// A call that differs, and the smallest that is found from it.
fn print_smallest(what: &str, differs: &Case) {
    let smallest = differs.smallest();
    println!("DIFFERS: {what}: {smallest:x?}");
    if let Err(why) = smallest.next(&mut Check::default()) {
        println!("  {why}");
    }
}
