//! The lists that are lent, accept for accept, whatever the zoom.

use super::super::lent::{Fronts, Lengths};
use super::super::library::WORD;
use super::rules::Rule;
use crate::differences::tile::Opened;
use crate::random::Random;
use crate::tiles::delivery::Delivery;
use crate::tiles::feature::{Head, Point, Way};
use crate::tiles::Address;

/// What is lent where the model foresees no accept.
const UNFORESEEN: Lengths = [4, 40, 40, 0, 0, 0];

/// Node counts, latitudes and longitudes for each accept.
pub struct Given {
    lengths: Vec<Lengths>,
}

impl Given {
    /// For the ways that the rule accepts, by document 01's model, at the richest zoom that comes to its
    /// ways: lists that are just long enough, or by a few entries more.
    pub fn of(opened: Opened, at: &Address, zooms: &[u8], rule: Rule, random: &mut Random) -> Self {
        let mut foreseen = Foreseen { rule, heads: 0, needed: Vec::new() };
        for &zoom in zooms.iter().rev() {
            let ended = opened.stream(at, zoom, &mut foreseen).answer[0] == 0;
            // behind a bad point no way comes, but at a lower zoom some may
            if ended || foreseen.heads > 0 {
                break;
            }
        }
        let long_enough = |needed: &Lengths| {
            let [counts, latitudes, longitudes, ..] = random.enough(needed);
            [counts, latitudes, longitudes, 0, 0, 0]
        };
        Given { lengths: foreseen.needed.iter().map(long_enough).collect() }
    }

    /// The lists of accept `k`. Their word is their own, so that lists of another accept show.
    pub fn lists(&self, k: usize) -> Fronts {
        let lengths = self.lengths.get(k).unwrap_or(&UNFORESEEN);
        Fronts::holding(WORD ^ k as u64, *lengths)
    }
}

/// The lengths that each accepted way of a stream needs.
struct Foreseen {
    rule: Rule,
    heads: u64,
    needed: Vec<Lengths>,
}

impl Delivery for Foreseen {
    fn point(&mut self, _point: Point) {}

    fn head(&mut self, head: Head) -> bool {
        self.heads += 1;
        self.rule.accepts(head.bitmap, &head.ids)
    }

    fn way(&mut self, way: Way) {
        self.needed.push(Fronts::of_way(&way).lengths());
    }
}
