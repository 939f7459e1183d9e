//! Where nexts read in the maps.

use super::super::bases::Base;
use super::super::library::{self, Ask, NextBy, State};
use super::super::opening;
use super::case::Case;

/// So many bytes of the map before and behind the place are kept, of so many tiles of a map so many places.
const BEFORE: u64 = 3;
const BEHIND: usize = 200;
const TILES: usize = 200;
const PLACES: usize = 3000;

/// The features of all maps' streams, each with a part of its map alone: the words say where it stands.
pub fn of(bases: &[Base]) -> Vec<Case> {
    bases.iter().flat_map(of_map).collect()
}

fn of_map(base: &Base) -> Vec<Case> {
    let map = &base.map;
    let (layout, lists) = opening::ours(map);
    let mut places = Vec::new();
    for &at in base.tiles.iter().take(TILES) {
        let interval = library::interval(map, &layout, at.sub_file as usize).interval;
        let ask = Ask { map, layout, tags: lists.lend(), as_named: true, interval, at };
        of_tile(&ask, &mut places);
    }
    places
}

/// At the sub file's highest zoom, to the end or a refusal.
fn of_tile(ask: &Ask, places: &mut Vec<Case>) {
    let (mut state, highest) = ([0; 8], ask.interval[3] as u8);
    if library::stream_open(ask, ask.at.sub_file, highest, &mut state).number != 0 {
        return;
    }
    while places.len() < PLACES {
        places.push(part(ask, state));
        // not by the next that is tried, so that the places do not depend on it
        let next = NextBy::General.call(&ask.read(), &mut state, 0);
        if next.got.number != 0 || next.got.words[6] == 2 {
            return;
        }
        library::stream_decline(&mut state);
    }
}

/// The bytes around the place where the next feature stands, and the state with the places in them.
fn part(ask: &Ask, mut state: State) -> Case {
    let place = if state[1] > 0 { state[3] } else { state[4] };
    let start = place.saturating_sub(BEFORE);
    let bytes = ask.map.get(start as usize..).unwrap_or(&[]);
    let map = bytes[..bytes.len().min(BEHIND)].to_vec();
    state[3] = state[3].saturating_sub(start);
    state[4] = state[4].saturating_sub(start);
    Case { map, layout: ask.layout, letters: ask.tags.letters.to_vec(), state, word: 0 }
}
