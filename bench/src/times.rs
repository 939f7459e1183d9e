//! The times of both sides, over whole maps.

use std::time::Instant;

use crate::crafted;
use crate::map::Map;
use crate::ours::Ours;
use crate::rust::Rust;
use crate::tally::Tally;
use crate::work::{Side, Work, OURS_ALONE, WORKS};

/// What a side should take in a round, so that the clock's own time does not count.
const SECONDS: f64 = 0.002;
/// What all rounds of a line should take, and the least and the most of them.
const LINE_SECONDS: f64 = 2.0;
const LEAST_ROUNDS: usize = 5;
const MOST_ROUNDS: usize = 400;

type Sides<'a> = [Box<dyn Side + 'a>; 2];

/// What is in the maps, by their streams. Both sides read the tiles that are counted first; those that are marked empty
/// are left out, and so are those whose next entry is cut off.
pub fn contents(maps: &[Map]) {
    println!("| map | bytes | sub files | tiles | left out: empty | cut off | refused tiles | points | ways | nodes |");
    println!("|---|---:|---:|---:|---:|---:|---:|---:|---:|---:|");
    for map in maps {
        let Tally { tiles, refused, points, ways, nodes, .. } =
            same(&map.name, Work::Accept, &mut sides(map));
        let [empty, cut_off] = map.left_out();
        println!(
            "| {} | {} | {} | {tiles} | {empty} | {cut_off} | {refused} | {points} | {ways} | {nodes} |",
            map.name,
            map.bytes.len(),
            map.sub_files.len()
        );
    }
}

fn head() {
    println!("| map | work | items | ours, ns an item | Rust, ns an item | ours / Rust | median |");
    println!("|---|---|---:|---:|---:|---:|---:|");
}

pub fn table(maps: &[Map]) {
    head();
    for map in maps {
        let mut sides = sides(map);
        lines(map, &WORKS, &mut sides);
        if map.left_out()[0] > 0 {
            OURS_ALONE.iter().for_each(|&work| alone(map, work, sides[0].as_mut()));
        }
    }
}

/// The maps that are made here, and the works on them that were slow.
pub fn crafted() {
    head();
    for (name, works) in crafted::both() {
        let map = Map::read(name);
        let lines = lines(&map, &works, &mut sides(&map));
        let limit = if crafted::BOTH.contains(&name) { crafted::MOST } else { f64::MAX };
        lines.iter().for_each(|line| assert!(line.ratio() <= limit, "{name}: too slow"));
    }
    let map = Map::read(crafted::OURS);
    crafted::WORKS.iter().for_each(|&work| alone(&map, work, &mut Ours::new(&map)));
}

/// All lines go on side by side, so that a busy spell of the machine does not spoil one of them.
fn lines(map: &Map, works: &[Work], sides: &mut Sides) -> Vec<Line> {
    let mut lines: Vec<Line> = works.iter().map(|&work| Line::new(map, work, sides)).collect();
    for round in 0..MOST_ROUNDS {
        let due = lines.iter_mut().filter(|line| line.has_round(round));
        due.for_each(|line| line.round(sides));
    }
    lines.iter().for_each(|line| line.print(&map.name));
    lines
}

/// A line of ours alone: the least time of its rounds.
fn alone(map: &Map, work: Work, ours: &mut dyn Side) {
    let mut wanted = Tally::counts();
    ours.run(work, &mut wanted);
    if OURS_ALONE.contains(&work) {
        let features = [wanted.points, wanted.ways, wanted.refused];
        assert_eq!(features, [0; 3], "an empty tile has nothing");
    }
    let once = seconds(ours, work, 1, &wanted);
    let times = (SECONDS / once).ceil() as u32;
    let round = || seconds(ours, work, times, &wanted);
    let rounds = ((LINE_SECONDS / once) as usize).clamp(LEAST_ROUNDS, MOST_ROUNDS);
    let least = std::iter::repeat_with(round).take(rounds).fold(f64::MAX, f64::min);
    let (item, count) = work.items(&wanted);
    let ours = least * 1e9 / count as f64;
    println!("| {} | {} | {count} {item}s | {ours:.1} | | | |", map.name, work.name());
}

/// A work on a map, and its times so far.
struct Line {
    work: Work,
    wanted: Tally,
    /// How often each side does the work in a round.
    times: [u32; 2],
    rounds: usize,
    /// The least seconds of each side, and the rounds' ratios.
    least: [f64; 2],
    ratios: Vec<f64>,
}

impl Line {
    fn new(map: &Map, work: Work, sides: &mut Sides) -> Self {
        let wanted = same(&map.name, work, sides);
        let once = sides.each_mut().map(|side| seconds(side.as_mut(), work, 1, &wanted));
        let times = once.map(|once| (SECONDS / once).ceil() as u32);
        let round: f64 = once.iter().map(|once| once.max(SECONDS)).sum();
        let rounds = ((LINE_SECONDS / round) as usize).clamp(LEAST_ROUNDS, MOST_ROUNDS);
        Line { work, wanted, times, rounds, least: [f64::MAX; 2], ratios: Vec::new() }
    }

    /// Whether one of its rounds, spread over the most of them, is due.
    fn has_round(&self, round: usize) -> bool {
        let before = |round: usize| round * self.rounds / MOST_ROUNDS;
        before(round) < before(round + 1)
    }

    /// Each side has its turn, so that a load on the machine hits both.
    fn round(&mut self, sides: &mut Sides) {
        let mut took =
            |side: usize| seconds(sides[side].as_mut(), self.work, self.times[side], &self.wanted);
        let [ours, rust] = [took(0), took(1)];
        self.least = [self.least[0].min(ours), self.least[1].min(rust)];
        self.ratios.push(ours / rust);
    }

    fn ratio(&self) -> f64 {
        self.least[0] / self.least[1]
    }

    fn print(&self, map: &str) {
        let (item, count) = self.work.items(&self.wanted);
        // a map may have no tile but empty ones
        if count == 0 {
            return;
        }
        let plural = if count == 1 { "" } else { "s" };
        let [ours, rust] = self.least.map(|seconds| seconds * 1e9 / count as f64);
        let mut ratios = self.ratios.clone();
        ratios.sort_by(f64::total_cmp);
        println!(
            "| {map} | {} | {count} {item}{plural} | {ours:.1} | {rust:.1} | {:.2} | {:.2} |",
            self.work.name(),
            self.ratio(),
            ratios[ratios.len() / 2]
        );
    }
}

fn sides(map: &Map) -> Sides<'_> {
    [Box::new(Ours::new(map)), Box::new(Rust::new(map))]
}

/// Both sides give the same: counts, and the digest of all that they give.
fn same(map: &str, work: Work, sides: &mut Sides) -> Tally {
    let [ours, rust] = sides.each_mut().map(|side| {
        let mut tally = Tally::with_digest();
        side.run(work, &mut tally);
        tally
    });
    assert_eq!(ours, rust, "the sides differ: {map}, {}", work.name());
    rust
}

/// The seconds of one of so many times. The counts of the last are those that are wanted.
fn seconds(side: &mut dyn Side, work: Work, times: u32, wanted: &Tally) -> f64 {
    let mut tally = Tally::counts();
    let start = Instant::now();
    for _ in 0..times {
        tally = Tally::counts();
        side.run(work, &mut tally);
    }
    let took = start.elapsed().as_secs_f64() / f64::from(times);
    assert!(tally.same_counts(wanted), "a side gave other counts than before");
    took
}
