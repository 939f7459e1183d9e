//! What was compared, and what is out of the theorem.

use std::collections::BTreeMap;

use super::super::check::Check;
use super::super::library::{self, Ask};
use super::rules::RULES;
use super::streams::{Ended, Refusal};

#[derive(Default)]
pub struct Tally {
    pub check: Check,
    /// Tiles of which a pair was compared, and of them those of debug maps, those that are marked empty, those with
    /// a wrong stored size and those that do not collect.
    tiles: u64,
    debug: u64,
    empty: u64,
    inexact: u64,
    uncollected: u64,
    /// Pairs of zooms, and of them those of which the zoom table counts more at the richer zoom.
    pairs: u64,
    growing: u64,
    /// Of them those whose ends both have a padded number, the richer one alone, and neither.
    padded: [u64; 3],
    /// Streams, of them those that end well, and what these deliver.
    streams: u64,
    ended: u64,
    points: u64,
    accepted: u64,
    declined: u64,
    /// Of those that end well the ones with other ways than the stream that accepts all, and the ones where
    /// that one is refused.
    astray: u64,
    past: u64,
    /// Pairs whose richer stream is refused, by its refusal.
    skipped: BTreeMap<Refusal, u64>,
}

impl Tally {
    pub fn pairs(&self) -> u64 {
        self.pairs
    }

    /// A tile of which a pair was compared; whether it is marked empty, the model says.
    pub fn tile(&mut self, ask: &Ask, empty: bool) {
        let collected = library::collect_all(ask).0.got;
        let collects = collected.number == 0;
        self.tiles += 1;
        self.debug += u64::from(ask.layout[0] != 0);
        self.empty += u64::from(empty);
        self.uncollected += u64::from(!collects);
        self.inexact += u64::from(collects && collected.words[13] == 0);
    }

    /// A stream, and the number of lower zooms.
    pub fn stream(&mut self, stream: &Ended, lower: usize) {
        self.streams += 1;
        let stream = match stream {
            Ok(stream) => stream,
            Err(refusal) => {
                *self.skipped.entry(*refusal).or_default() += lower as u64;
                return;
            }
        };
        let (ways, accepted) = (stream.ways.len() as u64, stream.accepted() as u64);
        self.ended += 1;
        self.points += stream.points.len() as u64;
        self.accepted += accepted;
        self.declined += ways - accepted;
    }

    /// What the zoom table counts up to the two zooms of a pair.
    pub fn pair<T: PartialEq>(&mut self, lower: &T, richer: &T) {
        self.pairs += 1;
        self.growing += u64::from(lower != richer);
    }

    /// The words in which the ends of a pair say whether all that was read is plain.
    pub fn plain_ends(&mut self, lower: u64, richer: u64) {
        self.padded[(lower + richer).min(2) as usize] += 1;
    }

    /// A stream, and that of the same zoom which accepts all.
    pub fn beside_all(&mut self, stream: &Ended, all: &Ended) {
        match (stream, all) {
            (Ok(stream), Ok(all)) => self.astray += u64::from(!stream.has_ways_of(all)),
            (Ok(_), Err(_)) => self.past += 1,
            (Err(_), _) => {}
        }
    }

    pub fn print(&self) {
        println!("rules: {}", 1 + RULES.len());
        println!("tiles of which pairs of zooms are compared: {}", self.tiles);
        println!("  of debug maps                   {:>12}", self.debug);
        println!("  marked empty                    {:>12}", self.empty);
        println!("  with a wrong stored size        {:>12}", self.inexact);
        println!("  that do not collect             {:>12}", self.uncollected);
        println!("pairs of zooms compared: {}", self.pairs);
        println!("  with more at the richer zoom    {:>12}", self.growing);
        println!("  both with a padded number       {:>12}", self.padded[0]);
        println!("  only the richer one with one    {:>12}", self.padded[1]);
        println!("streams: {}, of which {} end well", self.streams, self.ended);
        println!("  astray by a wrong stored size   {:>12}", self.astray);
        println!("  where accepting all is refused  {:>12}", self.past);
        println!("points delivered: {}", self.points);
        println!("ways accepted: {}, declined: {}", self.accepted, self.declined);
        println!("values compared: {}", self.check.values);
        let skipped: u64 = self.skipped.values().sum();
        println!("pairs skipped: {skipped}, by the refusal of the richer stream");
        for ((call, number), pairs) in &self.skipped {
            println!("  {call:<8} {number:>4}                   {pairs:>12}");
        }
    }
}
