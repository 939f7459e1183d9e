//! The stream that goes by a window and rules (wishes 9 and 10): with lists as long as the tile wants them by what these decide,
//! no call of it is 15.

use mapsforge::word;

use super::super::library::{self, Ask, Next, State};
use super::super::ruled::model;
use super::streams::Driver;
use crate::random::Random;

/// A window's mask and a table of classes, of which each may be left out.
pub struct Selection {
    select: [u64; word::SELECT_WORDS],
    classes: Vec<u8>,
}

impl Selection {
    /// A table for the map's way tags, most of them shown; at times one that is too short.
    pub fn by_chance(tags: usize, random: &mut Random) -> Self {
        let mut select = [0; word::SELECT_WORDS];
        select[word::SELECT_BY_WINDOW] = random.below(2) as u64;
        select[word::SELECT_MASK] = 0xffff & (random.next() | random.next());
        select[word::SELECT_BY_RULES] = u64::from(random.below(4) > 0);
        select[word::SELECT_ZOOM] = random.below(34) as u64;
        let cells = 32 * tags / [1, 1, 1, 2][random.below(4)];
        let classes = (0..cells).map(|_| [0, 1, 63][random.below(3)]).collect();
        Selection { select, classes }
    }

    fn selects(&self, head: &Next) -> bool {
        let words = &head.got.words;
        let (bitmap, mask) = (words[word::NEXT_BITMAP], self.select[word::SELECT_MASK]);
        let in_window = self.select[word::SELECT_BY_WINDOW] == 0 || bitmap & mask != 0;
        let ids = &head.ids[..words[word::NEXT_TAG_COUNT] as usize];
        let zoom = self.select[word::SELECT_ZOOM] as u8;
        let by_rules = self.select[word::SELECT_BY_RULES] != 0;
        in_window && (!by_rules || model::shows(&self.classes, zoom, ids))
    }
}

/// By the driver's own models, way by way; what they decide is noted.
pub struct Noting<'a> {
    pub selection: &'a Selection,
    pub decisions: &'a mut Vec<u8>,
}

impl Driver for Noting<'_> {
    fn accepts(&mut self, head: &Next) -> bool {
        let selects = self.selection.selects(head);
        self.decisions.push(u8::from(selects));
        selects
    }
}

/// By the library, which declines the other ways itself: all that it gives are accepted.
pub struct BySelection<'a>(pub &'a Selection);

impl Driver for BySelection<'_> {
    fn next(&mut self, ask: &Ask, state: &mut State) -> Next {
        library::stream_next_selected(ask, &self.0.select, &self.0.classes, state)
    }

    fn accepts(&mut self, _: &Next) -> bool {
        true
    }
}
