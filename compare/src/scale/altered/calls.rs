//! Lists of calls, and what the driver's model says that becomes of the ways.

use super::super::book::lists::{long, Call, NONE_WAITS};
use super::super::lent::{suffice, Fronts, Lengths};
use crate::differences::tile::StreamParts;
use crate::random::Random;

/// A call with the lengths of the lists that it lends, and the number that it answers.
#[derive(Debug)]
pub struct Step {
    pub call: Call,
    pub lengths: Lengths,
    pub number: u64,
}

/// A list of calls on a stream. Ways are told by their numbers, the first is 0.
#[derive(Default)]
pub struct List {
    pub steps: Vec<Step>,
    /// How many points and heads come.
    pub points: usize,
    pub heads: usize,
    pub accepted: Vec<usize>,
    /// "Declined untried: no accept was called while the way waited."
    pub untried: Vec<usize>,
    /// Declined as well, but behind an accept that was refused.
    pub tried: Vec<usize>,
    waits: bool,
    is_tried: bool,
}

impl List {
    /// Mostly long enough to go through all features.
    pub fn random(parts: &StreamParts, random: &mut Random) -> Self {
        let long = long(parts.points.len() + parts.ways.len());
        let length = if random.below(4) == 0 { 1 + random.below(long) } else { long };
        let mut list = List::default();
        for _ in 0..length {
            list.add(parts, random.call());
        }
        list
    }

    fn add(&mut self, parts: &StreamParts, call: Call) {
        let (lengths, number) = match call {
            Call::Next => ([0; 6], self.next(parts)),
            Call::Accept(lend) => {
                let needed = self.waiting(parts);
                let lengths = lend.lengths(&needed.unwrap_or(NONE_WAITS));
                (lengths, self.accept(needed, &lengths))
            }
            Call::Decline => ([0; 6], self.decline()),
        };
        self.steps.push(Step { call, lengths, number });
    }

    /// What the way needs that waits.
    fn waiting(&self, parts: &StreamParts) -> Option<Lengths> {
        self.waits.then(|| Fronts::of_way(&parts.ways[self.heads - 1].way).lengths())
    }

    fn next(&mut self, parts: &StreamParts) -> u64 {
        if self.waits {
            return 16;
        }
        if self.points < parts.points.len() {
            self.points += 1;
        } else if self.heads < parts.ways.len() {
            self.heads += 1;
            (self.waits, self.is_tried) = (true, false);
        }
        0
    }

    fn accept(&mut self, needed: Option<Lengths>, lengths: &Lengths) -> u64 {
        let Some(needed) = needed else { return 16 };
        self.is_tried = true;
        if !suffice(lengths, &needed) {
            return 15;
        }
        self.waits = false;
        self.accepted.push(self.heads - 1);
        0
    }

    fn decline(&mut self) -> u64 {
        if !self.waits {
            return 16;
        }
        self.waits = false;
        let declined = if self.is_tried { &mut self.tried } else { &mut self.untried };
        declined.push(self.heads - 1);
        0
    }
}
