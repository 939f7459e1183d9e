//! Showing rules: our library's check of tables, whole and faulty, and what they show, against a model that
//! looks at each cell; and the ways of streams by them.

mod calls;
pub mod model;
mod selected;
mod skipped;
mod streams;
mod tables;

use std::collections::BTreeMap;
use std::time::Instant;

use mapsforge::raw;

use super::bases::Base;
use super::check::{caught, Checked};
use super::{Options, ENOUGH};
use crate::random::{repeat, Random};
use model::Verdict;
use streams::Streams;

const CASES: u64 = 100_000;
const QUICK_CASES: u64 = 15_000;
/// Of each stream's map so many copies with other bytes.
const DAMAGED: usize = 2000;
const QUICK_DAMAGED: usize = 100;
/// What the words and tables hold that are lent.
const PATTERN: u64 = 0xa5a5_a5a5_a5a5_a5a5;
/// The answers of a check.
const NUMBERS: [u64; 5] = [0, 15, 22, 23, 24];

/// What was compared.
#[derive(Default)]
struct Tally {
    answers: BTreeMap<u64, u64>,
    entries: u64,
    shown: u64,
    hidden: u64,
}

/// All tables, then the streams of all maps; whether none differs.
pub fn compare(bases: &[Base], options: &Options) -> bool {
    let mut tally = Tally::default();
    let mut differing = limits(&mut tally) + of_chance(&mut tally, options);
    let damaged = if options.quick { QUICK_DAMAGED } else { DAMAGED };
    let mut streams = Streams::new(damaged);
    if options.only.is_none() {
        differing += of_maps(&mut streams, bases, options.seed);
    }
    println!();
    for (number, times) in &tally.answers {
        println!("  answers {number}: {times}");
    }
    let Tally { entries, shown, hidden, .. } = tally;
    println!(
        "  entries of tables compared: {entries}; ways asked for: {shown} shown, {hidden} hidden"
    );
    println!("  {streams}");
    println!("  {}", streams.selected);
    println!("  {}", streams.skipped);
    let came =
        options.only.is_some() || NUMBERS.iter().all(|number| tally.answers.contains_key(number));
    if !came {
        println!("NOT ALL of {NUMBERS:?} came");
    }
    largest();
    println!("differ: {differing}");
    differing == 0 && came
}

/// Tables at the limits, each with all lengths of the lent table around the right one.
fn limits(tally: &mut Tally) -> u64 {
    let start = Instant::now();
    let (mut tables, mut differing) = (0, 0);
    for (what, way_tags, rules) in tables::limits() {
        tables += 1;
        let needed = 32 * usize::from(way_tags);
        let verdict = model::check(&rules, way_tags);
        for lent in [0, needed.saturating_sub(1), needed, needed + 70] {
            let compared = caught(|| check(tally, way_tags, &rules, &verdict, lent));
            let Err(why) = compared.and_then(|compared| compared) else { continue };
            differing += 1;
            if differing <= ENOUGH {
                println!("DIFFERS: {what}, {way_tags} tags, table of {lent}: {why}");
            }
        }
    }
    println!("limits: {tables} tables, {differing} differ; {:.1} s", start.elapsed().as_secs_f64());
    differing
}

/// Tables made by chance, most with faults, and what they show.
fn of_chance(tally: &mut Tally, options: &Options) -> u64 {
    let start = Instant::now();
    let (mut cases, mut differing) = (0, 0);
    let all = 0..options.cases(CASES, QUICK_CASES);
    for case in options.only.map_or(all, |only| only..only + 1) {
        cases += 1;
        // of each case its own numbers, so that it can be looked at again
        let seed = options.seed.wrapping_mul(0x9e37_79b9_7f4a_7c15) ^ (case + 1);
        let compared = caught(|| one(tally, &mut Random::new(seed | 1 << 40)));
        let Err(why) = compared.and_then(|compared| compared) else { continue };
        println!("DIFFERS: case {case}: {why}");
        differing += 1;
        if differing >= ENOUGH {
            break;
        }
    }
    let (seed, time) = (options.seed, start.elapsed().as_secs_f64());
    println!("tables: {cases} by chance, seed {seed}, {differing} differ; {time:.1} s");
    differing
}

fn one(tally: &mut Tally, random: &mut Random) -> Checked {
    repeat(3, || {
        random.next();
    });
    let (way_tags, rules) = tables::by_chance(random);
    let needed = 32 * usize::from(way_tags);
    let lent = match random.below(8) {
        0 => random.below(needed + 1),
        1 => needed.saturating_sub(1),
        2 => needed,
        _ => needed + random.below(40),
    };
    let told =
        || format!("{way_tags} tags, {} bytes {:02x?}", rules.len(), &rules[..rules.len().min(64)]);
    let verdict = model::check(&rules, way_tags);
    let table = check(tally, way_tags, &rules, &verdict, lent)
        .map_err(|why| format!("{}: {why}", told()))?;
    // any bytes are taken for a table
    let table = match random.below(3) {
        0 => (0..random.below(200)).map(|_| random.byte() % 3).collect(),
        _ => table,
    };
    for _ in 0..20 {
        shows(tally, &table, random).map_err(|why| format!("{}: {why}", told()))?;
    }
    Ok(())
}

/// Our check of a table against the model's, with every word and every entry; gives the table that was filled or kept.
fn check(
    tally: &mut Tally,
    way_tags: u16,
    rules: &[u8],
    verdict: &Verdict,
    lent: usize,
) -> Result<Vec<u8>, String> {
    let before: Vec<u8> = (0..lent).map(|k| PATTERN as u8 ^ k as u8).collect();
    let (mut table, mut words) = (before.clone(), [PATTERN; 6]);
    let number = raw::check_rules(rules, way_tags, &mut table, &mut words);
    let (theirs, values) = model::answer(verdict, lent);
    *tally.answers.entry(number).or_default() += 1;
    if number != theirs {
        return Err(format!("the check answers {number}, the model {theirs} {values:?}"));
    }
    let expected: Vec<u64> = (0..6).map(|k| values.get(k).copied().unwrap_or(PATTERN)).collect();
    if words[..] != expected {
        return Err(format!("{number} has the words {words:?}, the model {expected:?}"));
    }
    tally.entries += lent as u64;
    let filled = verdict.as_ref().ok().filter(|_| number == 0);
    for (k, (&entry, &kept)) in table.iter().zip(&before).enumerate() {
        let wanted = filled.and_then(|classes| classes.get(k)).copied().unwrap_or(kept);
        if entry != wanted {
            return Err(format!("entry {k} is {entry}, of the model {wanted}"));
        }
    }
    Ok(table)
}

/// Whether a way with some tags is shown, against the model.
fn shows(tally: &mut Tally, table: &[u8], random: &mut Random) -> Checked {
    let tags = table.len() / 32;
    let id = |random: &mut Random| match random.below(12) {
        0 => random.next(),
        1 => (1 << 59) - random.below(3) as u64 + 1,
        2 => u64::MAX - random.below(2) as u64,
        _ => random.below(tags + 2) as u64,
    };
    let ids: Vec<u64> = (0..random.below(17)).map(|_| id(random)).collect();
    let zoom = match random.below(3) {
        0 => random.byte(),
        1 => 29 + random.below(6) as u8,
        _ => random.below(32) as u8,
    };
    let mut words = [PATTERN; 7];
    let number = raw::shows(table, zoom, &ids, &mut words);
    let theirs = model::shows(table, zoom, &ids);
    *(if theirs { &mut tally.shown } else { &mut tally.hidden }) += 1;
    let expected = [PATTERN, PATTERN, PATTERN, PATTERN, PATTERN, PATTERN, u64::from(theirs)];
    if (number, words) != (0, expected) {
        return Err(format!(
            "tags {ids:?} at zoom {zoom}: {number} {words:?}, of the model {theirs}"
        ));
    }
    Ok(())
}

/// The streams of all maps by rules.
fn of_maps(streams: &mut Streams, bases: &[Base], seed: u64) -> u64 {
    let (start, mut differing) = (Instant::now(), 0);
    for base in bases {
        let mut random = Random::new(seed);
        let compared = caught(|| streams.compare(base, &mut random));
        let Err(why) = compared.and_then(|compared| compared) else { continue };
        differing += 1;
        if differing <= ENOUGH {
            println!("DIFFERS: {}: {why}", base.name);
            base.print_if_small();
        }
    }
    let (maps, time) = (bases.len(), start.elapsed().as_secs_f64());
    println!("streams: {maps} maps, {differing} differ; {time:.1} s");
    differing
}

/// How long the check of the largest map's tables takes: printed, and not held to anything.
fn largest() {
    for (rules, told) in [tables::largest(1), tables::largest(32)]
        .into_iter()
        .zip(["one rule for each tag", "one for each cell"])
    {
        let mut table = vec![0; 32 * 65535];
        let start = Instant::now();
        let number = raw::check_rules(&rules, u16::MAX, &mut table, &mut [0; 6]);
        let time = start.elapsed().as_secs_f64();
        println!(
            "  65535 tags, {} rules, {told}: answers {number} in {time:.3} s",
            rules.len() / 4
        );
    }
}
