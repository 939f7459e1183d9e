//! The ways of streams by rules: what the checked table says of each head is what the rules say.

use std::fmt;

use mapsforge::{word, Map, RuleList, Step, ToCome};

use super::super::check::Checked;
use super::super::Base;
use super::calls::{Asked, State};
use super::model;
use super::selected::Selected;
use super::skipped::Skipped;
use crate::random::{repeat, Random};

/// Of a map so many tiles are streamed.
const TILES: usize = 40;

/// What was streamed.
#[derive(Default)]
pub struct Streams {
    maps: u64,
    streams: u64,
    stopped: u64,
    accepted: u64,
    declined: u64,
    pub selected: Selected,
    pub skipped: Skipped,
    /// How many copies with other bytes of each stream's map.
    damaged: usize,
}

impl fmt::Display for Streams {
    fn fmt(&self, f: &mut fmt::Formatter<'_>) -> fmt::Result {
        let Streams { maps, streams, stopped, accepted, declined, .. } = self;
        write!(
            f,
            "streams by rules: {streams} of {maps} maps that open ({stopped} refused on the way), \
             {accepted} ways accepted, {declined} declined"
        )
    }
}

/// Each tag hidden up to some zoom, or from one on.
fn rules(tags: usize, random: &mut Random) -> RuleList {
    let mut bytes = Vec::new();
    for tag in 0..tags as u32 {
        let (cut, first) = (random.below(31) as u32, random.below(2) as u32);
        bytes.extend((tag << 16 | cut << 6 | first).to_be_bytes());
        bytes.extend((tag << 16 | (cut + 1) << 11 | 31 << 6 | (1 - first)).to_be_bytes());
    }
    RuleList::from_bytes(bytes)
}

/// A copy of a map with some other bytes where the stream reads.
fn other_bytes(map: &[u8], to_come: Option<ToCome>, random: &mut Random) -> Vec<u8> {
    let mut copy = map.to_vec();
    let start = to_come.map_or(0, |to_come| to_come.next_point.min(to_come.next_way) as usize);
    let room = copy.len().saturating_sub(start).min(600);
    if room > 0 {
        repeat(1 + random.below(4), || copy[start + random.below(room)] = random.byte());
    }
    copy
}

/// A state with some other words; few points and ways, since each is read.
fn other_state(mut state: State, random: &mut Random) -> State {
    for (at, word) in state.iter_mut().enumerate() {
        *word = match random.below(12) {
            0 if at == word::IDLE_POINTS || at == word::IDLE_WAYS => random.below(60) as u64,
            0 => random.next(),
            1 => random.below(4) as u64,
            2 => word.wrapping_add(random.below(9) as u64),
            _ => *word,
        };
    }
    state
}

impl Streams {
    pub fn new(damaged: usize) -> Self {
        Streams { damaged, ..Streams::default() }
    }

    /// The calls that the library makes of others, against those one after the other.
    fn at_state(&mut self, asked: &Asked<'_>, state: State, random: &mut Random) -> Checked {
        self.selected.compare(asked, state, random)?;
        self.skipped.compare(asked, state, random)
    }

    pub fn compare(&mut self, base: &Base, random: &mut Random) -> Checked {
        let Ok(map) = Map::open(&base.map) else { return Ok(()) };
        self.maps += 1;
        let list = rules(map.way_tags().len(), random);
        let table =
            list.check(&map).map_err(|refusal| format!("the rules are refused: {refusal}"))?;
        for at in base.tiles.iter().take(TILES) {
            let Ok(sub_file) = map.sub_file(at.sub_file as usize) else { continue };
            for zoom in [0, 13, 31, 40, random.byte()] {
                let Ok(mut stream) = sub_file.stream(at.tile as usize, zoom) else { continue };
                self.streams += 1;
                let asked = Asked::new(&base.map, &map, &table);
                self.at_state(&asked, *stream.state(), random)?;
                for _ in 0..self.damaged {
                    let bytes = other_bytes(&base.map, stream.to_come(), random);
                    let asked = Asked::new(&bytes, &map, &table);
                    self.at_state(&asked, *stream.state(), random)?;
                    self.at_state(&asked, other_state(*stream.state(), random), random)?;
                }
                loop {
                    let head = match stream.next() {
                        Ok(Step::Point(_)) => continue,
                        Ok(Step::Way(head)) => head,
                        Ok(Step::End(_)) => break,
                        Err(_) => {
                            self.stopped += 1;
                            break;
                        }
                    };
                    let shown = table.shows(&head, zoom);
                    let theirs = model::shown_by(list.bytes(), zoom, &head.tag_ids);
                    if shown != theirs {
                        let ids = &head.tag_ids;
                        return Err(format!(
                            "tags {ids:?} at zoom {zoom}: {shown}, by the rules {theirs}"
                        ));
                    }
                    let done = if shown { stream.accept().map(drop) } else { stream.decline() };
                    *(if shown { &mut self.accepted } else { &mut self.declined }) += 1;
                    if done.is_err() {
                        self.stopped += 1;
                        break;
                    }
                }
            }
        }
        Ok(())
    }
}
