//! What our library says that a tile's stream will want (wish 1): on all maps and on copies of their tiles, by lists of decisions
//! that are as long as the ways, shorter and longer. The figures are held to those counted from the Rust's own visit, a refusal
//! to that of our stream, and the stream with lists of just these lengths never meets 15. By what a window and rules decide, the
//! same is so of the stream that goes by these.

mod counted;
mod driven;
mod streams;
mod tally;

use std::time::Instant;

use mapsforge_rs::types::MapFile;

use super::bases::{self, Base};
use super::check::{caught, Check, Checked};
use super::copies::Copies;
use super::library::{self, kept_but, Ask};
use super::{foreign, opening, whole, Options, ENOUGH};
use crate::random::Random;
use crate::source::Source;
use crate::tiles::Address;
use counted::Counted;
use driven::{BySelection, Noting, Selection};
use streams::{ByDecisions, Driver, Given, Lists, Refused};
use tally::{Kind, Tally};

const CASES: u64 = 100_000;
const QUICK_CASES: u64 = 12_000;
/// A list of decisions is for so many ways at most: a damaged tile may count any number.
const WAYS: u128 = 1 << 14;

/// A tile's stream at a zoom, by these decisions.
#[derive(Clone, Copy)]
pub struct Question<'a> {
    ask: &'a Ask<'a>,
    zoom: u8,
    decisions: &'a [u8],
}

impl Question<'_> {
    /// "Ways behind the end of the decisions count as declined."
    fn accepts(&self, way: usize) -> bool {
        self.decisions.get(way).is_some_and(|&decision| decision != 0)
    }
}

/// All maps and copies; whether none differs and all kinds of questions came.
pub fn compare(bases: &[Base], options: &Options) -> bool {
    let start = Instant::now();
    let mut tally = Tally::default();
    // a single case is asked for to be looked at again
    let once = options.only.is_some();
    let maps = if once { &[] } else { bases };
    let differing = whole_maps(&mut tally, maps) + damaged_copies(&mut tally, bases, options);
    println!();
    tally.print();
    let missing = if once { Vec::new() } else { tally.missing() };
    if !missing.is_empty() {
        println!("UNEXPLAINED: there was no {missing:?}");
    }
    println!("differ: {differing}");
    println!("time: {:.1} s", start.elapsed().as_secs_f64());
    differing == 0 && missing.is_empty()
}

/// Answers how many of the maps differ.
fn whole_maps(tally: &mut Tally, bases: &[Base]) -> u64 {
    let (start, mut differing) = (Instant::now(), 0);
    for base in bases {
        let mut random = Random::new(super::SEED);
        let compared = caught(|| of_tiles(tally, &base.map, &base.tiles, &mut random));
        let Err(why) = compared.and_then(|compared| compared) else { continue };
        differing += 1;
        if differing <= ENOUGH {
            println!("DIFFERS: {}, undamaged: {why}", base.name);
            base.print_if_small();
        }
    }
    let (maps, time) = (bases::told(bases), start.elapsed().as_secs_f64());
    println!("undamaged: {maps}, {differing} of the maps differ; {time:.1} s");
    differing
}

/// Answers how many of the copies differ.
fn damaged_copies(tally: &mut Tally, bases: &[Base], options: &Options) -> u64 {
    let (start, mut cases, mut differing) = (Instant::now(), 0, 0);
    let copies = match Copies::of(options.seed, bases, false) {
        Ok(copies) => copies,
        Err(why) => {
            println!("DIFFERS: {why}");
            return 1;
        }
    };
    let all = 0..options.cases(CASES, QUICK_CASES);
    for case in options.only.map_or(all, |only| only..only + 1) {
        cases += 1;
        if let Err(why) = copies.run(tally, case, of_tiles) {
            println!("DIFFERS: {why}");
            differing += 1;
        }
        if differing >= ENOUGH {
            break;
        }
    }
    let (seed, time) = (options.seed, start.elapsed().as_secs_f64());
    println!("damaged: {cases} copies of a tile, seed {seed}, {differing} differ; {time:.1} s");
    differing
}

/// Some tiles of a map at all their zooms, by the words of its own header.
fn of_tiles(tally: &mut Tally, map: &[u8], tiles: &[Address], random: &mut Random) -> Checked {
    let opening = opening::of(&mut Check::default(), map)?;
    let mut file = opening.unwrap_or_else(|_| foreign::unopened(map));
    let (layout, lists) = opening::ours(map);
    let way_tags = file.header.way_tags.len();
    for &at in tiles {
        let interval = library::interval(map, &layout, at.sub_file as usize).interval;
        let ask = Ask { map, layout, tags: lists.lend(), as_named: true, interval, at };
        tally.tiles += 1;
        for zoom in whole::zooms(&file.header, &at) {
            let place =
                |why| format!("sub file {}, tile {}, zoom {zoom}, {why}", at.sub_file, at.tile);
            let counted = ask.opened(&file).counted(&at, zoom);
            let ways = counted.map_or(0, |[_, ways]| ways).min(WAYS) as usize;
            for decisions in random.decisions(ways) {
                let question = Question { ask: &ask, zoom, decisions: &decisions };
                tally.decisions(decisions.len(), ways);
                let told = |why| place(format!("decisions {decisions:x?}: {why}"));
                of_question(tally, &mut file, &question, random).map_err(told)?;
            }
            let selection = Selection::by_chance(way_tags, random);
            let told = |why| place(format!("by a selection: {why}"));
            of_selection(tally, &ask, zoom, &selection, random).map_err(told)?;
        }
    }
    Ok(())
}

impl Random {
    /// None, all accepted, and by chance: as many as there are ways, fewer and more.
    fn decisions(&mut self, ways: usize) -> [Vec<u8>; 5] {
        let fewer = self.below(ways + 1);
        let more = ways + 1 + self.below(40);
        let mut by_chance = |length: usize| -> Vec<u8> {
            (0..length).map(|_| [0, self.byte()][self.below(2)]).collect()
        };
        [Vec::new(), vec![1; ways], by_chance(ways), by_chance(fewer), by_chance(more)]
    }
}

fn of_question(
    tally: &mut Tally,
    file: &mut MapFile<Source>,
    question: &Question,
    random: &mut Random,
) -> Checked {
    let counted = Counted::of(file, question)?;
    let ours = library::wanted(question.ask, question.zoom, question.decisions);
    tally.question(&counted, ours.number);
    match counted.figures {
        Ok(figures) => {
            tally.check.same("wanted", ours.number, 0)?;
            tally.check.words("wanted", &ours.words, &kept_but::<11>(6, &figures))?;
            of_lists(tally, question, figures, random)
        }
        Err(refusal) => {
            let front = kept_but::<11>(0, &refusal[1..]);
            tally.check.same("wanted", ours.number, refusal[0])?;
            tally.check.words("wanted, refused", &ours.words, &front)?;
            let streamed =
                streams::as_needed(question.ask, question.zoom, ByDecisions::of(question));
            let Err(Refused { call, number, values }) = streamed else {
                return Err(format!("{} is wanted's refusal, but our stream ends", ours.number));
            };
            tally.came(call);
            tally.check.same("our stream's refusal", number, ours.number)?;
            tally.check.words("our stream's refusal", &values, &ours.words[..6])
        }
    }
}

/// "Lists of those lengths never lead to 15 in that stream"; one that is shorter does.
fn of_lists(
    tally: &mut Tally,
    question: &Question,
    figures: [u64; 5],
    random: &mut Random,
) -> Checked {
    let given = by_lists(tally, question, figures, random, || ByDecisions::of(question))?;
    tally.streamed(&given);
    Ok(())
}

/// The same of the stream that goes by a window and rules, asked by what these decide on its ways.
fn of_selection(
    tally: &mut Tally,
    ask: &Ask,
    zoom: u8,
    selection: &Selection,
    random: &mut Random,
) -> Checked {
    let mut decisions = Vec::new();
    let noting = Noting { selection, decisions: &mut decisions };
    let Ok(noted) = streams::as_needed(ask, zoom, noting) else {
        tally.stopped += 1;
        return Ok(());
    };
    let question = Question { ask, zoom, decisions: &decisions };
    let ours = library::wanted(ask, zoom, &decisions);
    tally.check.same("wanted by a selection", ours.number, 0)?;
    let figures = [6, 7, 8, 9, 10].map(|k| ours.words[k]);
    let given = by_lists(tally, &question, figures, random, || BySelection(selection))?;
    tally.driven(&given);
    tally.check.same("what a selected stream gives", given, noted)
}

fn by_lists<D: Driver>(
    tally: &mut Tally,
    question: &Question,
    figures: [u64; 5],
    random: &mut Random,
    driver: impl Fn() -> D,
) -> Result<Given, String> {
    let Question { ask, zoom, .. } = *question;
    let [points, ways, blocks, nodes, _] = figures;
    let lengths = [blocks, nodes, nodes].map(|length| length as usize);
    let streamed = streams::with(ask, zoom, driver(), &mut Lists::by_chance(lengths, random));
    let given = streamed.map_err(|refused| format!("with lists of {lengths:?}: {refused:x?}"))?;
    tally.check.same("what our stream gives", given, Given { points, ways, blocks, nodes })?;
    let list = random.below(lengths.len());
    if lengths[list] == 0 {
        return Ok(given);
    }
    let mut shorter = lengths;
    shorter[list] = [lengths[list] - 1, random.below(lengths[list])][random.below(2)];
    match streams::with(ask, zoom, driver(), &mut Lists::by_chance(shorter, random)) {
        Err(Refused { number: 15, .. }) => {
            tally.came([Kind::ShortCounts, Kind::ShortLatitudes, Kind::ShortLongitudes][list]);
            Ok(given)
        }
        other => Err(format!("with lists of {shorter:?}, {lengths:?} are wanted: {other:x?}")),
    }
}
