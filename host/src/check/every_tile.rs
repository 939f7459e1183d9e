//! All tiles of a map, on several processors.

use super::{explain, padding, tile, Cause, Covered, Finding, Padded, PaddingSum};
use crate::{Map, Refusal, SubFile};
use std::sync::atomic::{AtomicU64, Ordering};
use std::sync::Mutex;
use std::thread;

/// What was found in a map.
#[derive(Clone, Copy, Debug, Default, PartialEq, Eq)]
pub struct Sum {
    /// The tiles that were read.
    pub tiles: u64,
    /// Those that are empty: their entries say so, and they have no bytes.
    pub empty: u64,
    /// The points of those that collect.
    pub points: u64,
    /// Their ways.
    pub ways: u64,
    /// How many findings there are, those about the map and its sub files included.
    pub findings: u64,
    /// What is padded, if that was looked for.
    pub padding: PaddingSum,
}

/// Who is told while a map is checked.
pub trait Watch {
    /// A finding. They come in the order of sub files and tiles, however many processors there are.
    fn found(&mut self, finding: Finding);

    /// How much of what is padded is wanted; none if padding is not to be looked for. See [`padding`](super::padding()).
    fn wanted_padding(&self) -> Option<u64> {
        None
    }

    /// Something that is padded, in the same order: at least as much as is wanted, if there is as much.
    fn padded(&mut self, _padded: Padded) {}

    /// So many tiles of so many are done.
    fn done(&mut self, _tiles: u64, _all: u64) {}
}

/// Nobody.
#[derive(Clone, Copy, Debug, Default)]
pub struct Unwatched;

impl Watch for Unwatched {
    fn found(&mut self, _: Finding) {}
}

/// So many tiles are taken by a thread at a time, and so many are read before their findings are told.
const CHUNK: u64 = 8;
const WAVE: u64 = 8192;

/// Checks a map and every tile of it by so many threads.
pub fn every_tile(map: &Map<'_>, threads: usize, watch: &mut impl Watch) -> Sum {
    let (mut sum, padding) = (Sum::default(), watch.wanted_padding());
    let mut unwalked = Vec::new();
    for finding in super::map(map) {
        unwalked.extend(finding.covered.map(|covered| covered.sub_file));
        sum.findings += 1;
        watch.found(finding);
    }
    let walked: Vec<_> = (0..map.intervals().len())
        .filter(|number| !unwalked.contains(number))
        .filter_map(|number| {
            let sub_file = map.sub_file(number).ok()?;
            Some((sub_file, sub_file.tile_count().ok()?))
        })
        .collect();
    let all = walked.iter().map(|(_, tiles)| tiles).sum();
    for (sub_file, tiles) in walked {
        let mut from = 0;
        while from < tiles {
            let to = (from + WAVE).min(tiles);
            let wave = Wave { padding, ..Wave::new(sub_file, from, to, sum.tiles, all) };
            for part in wave.read(threads, watch) {
                sum.add(&part.sum);
                part.findings.into_iter().for_each(|finding| watch.found(finding));
                part.padded.into_iter().for_each(|padded| watch.padded(padded));
            }
            from = to;
        }
    }
    sum
}

impl Sum {
    fn add(&mut self, other: &Sum) {
        self.tiles += other.tiles;
        self.empty += other.empty;
        self.points += other.points;
        self.ways += other.ways;
        self.findings += other.findings;
        self.padding.add(&other.padding);
    }
}

/// What was found in a few tiles.
struct Part {
    first: u64,
    sum: Sum,
    findings: Vec<Finding>,
    padded: Vec<Padded>,
}

/// Some tiles of a sub file, which several threads read.
struct Wave<'m, 'a> {
    sub_file: SubFile<'m, 'a>,
    next: AtomicU64,
    end: u64,
    /// How many tiles of how many were read before.
    before: u64,
    all: u64,
    /// How much padding is wanted.
    padding: Option<u64>,
    read: AtomicU64,
    parts: Mutex<Vec<Part>>,
}

impl<'m, 'a> Wave<'m, 'a> {
    fn new(sub_file: SubFile<'m, 'a>, from: u64, end: u64, before: u64, all: u64) -> Self {
        Wave {
            sub_file,
            next: AtomicU64::new(from),
            end,
            before,
            all,
            padding: None,
            read: AtomicU64::new(0),
            parts: Mutex::new(Vec::new()),
        }
    }

    /// Reads them all, and gives what was found in the tiles' order.
    fn read(self, threads: usize, watch: &mut impl Watch) -> Vec<Part> {
        let chunks = (self.end - self.next.load(Ordering::Relaxed)).div_ceil(CHUNK);
        thread::scope(|scope| {
            for _ in 1..(threads as u64).min(chunks) {
                // Where the system gives no thread, the others read its share.
                let _ = thread::Builder::new().spawn_scoped(scope, || while self.step() {});
            }
            // This thread does its share, and tells how far all have come.
            while self.step() {
                watch.done(self.before + self.read.load(Ordering::Relaxed), self.all);
            }
        });
        let mut parts = self.parts.into_inner().unwrap_or_else(|poisoned| poisoned.into_inner());
        parts.sort_by_key(|part| part.first);
        parts
    }

    /// Reads the next few tiles; false if there are none.
    fn step(&self) -> bool {
        let first = self.next.fetch_add(CHUNK, Ordering::Relaxed);
        if first >= self.end {
            return false;
        }
        let mut part =
            Part { first, sum: Sum::default(), findings: Vec::new(), padded: Vec::new() };
        for number in first..(first + CHUNK).min(self.end) {
            part.read(&self.sub_file, number, self.padding);
        }
        self.read.fetch_add(part.sum.tiles, Ordering::Relaxed);
        self.parts.lock().unwrap_or_else(|poisoned| poisoned.into_inner()).push(part);
        true
    }
}

impl Part {
    fn read(&mut self, sub_file: &SubFile<'_, '_>, number: u64, wanted: Option<u64>) {
        self.sum.tiles += 1;
        let Some(place) = sub_file.tile(number as usize) else {
            let cause = Cause::Grid { refusal: Refusal::InvalidTileIndex };
            let covered = Covered::new(sub_file.map(), sub_file.number());
            self.sum.findings += 1;
            self.findings.push(Finding::of_sub_file(cause, covered));
            return;
        };
        let report = tile(sub_file, place);
        if let Some((points, ways)) = report.counts {
            self.sum.empty += u64::from(report.empty);
            self.sum.points += points;
            self.sum.ways += ways;
        }
        if !report.faults.is_empty() {
            let findings = explain(sub_file, &report);
            self.sum.findings += findings.len() as u64;
            self.findings.extend(findings);
        }
        // One that does not collect is a finding already.
        let Some(wanted) = wanted else { return };
        if let Ok(found) = padding(sub_file, place) {
            self.sum.padding.add(&PaddingSum::of_tile(&found));
            self.sum.findings += found.disagreements.len() as u64;
            self.findings.extend(found.disagreements);
            let more = wanted.saturating_sub(self.padded.len() as u64);
            self.padded.extend(found.padded.into_iter().take(more as usize));
        }
    }
}
