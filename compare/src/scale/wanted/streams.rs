//! Our stream by a list of decisions, or by a window and rules, to its end or to the first call that is refused.

use super::super::lent::Fronts;
use super::super::library::{self, Accept, Ask, Next, Nodes, State, WORD};
use super::tally::Kind;
use super::Question;
use crate::random::Random;

/// What a next gives besides the end.
const POINT: u64 = 0;
const HEAD: u64 = 1;

/// What it gave.
#[derive(Clone, Copy, Debug, PartialEq)]
pub struct Given {
    pub points: u64,
    pub ways: u64,
    /// The most of any one way.
    pub blocks: u64,
    pub nodes: u64,
}

/// The first refused call, the refusal's number, and what its front words hold then.
#[derive(Debug)]
pub struct Refused {
    pub call: Kind,
    pub number: u64,
    pub values: [u64; 6],
}

/// Node counts, latitudes and longitudes, which all accepts of a stream write to.
pub struct Lists {
    counts: Vec<u64>,
    latitudes: Vec<f64>,
    longitudes: Vec<f64>,
}

impl Lists {
    /// Lists of these lengths, of any content.
    pub fn by_chance([counts, latitudes, longitudes]: [usize; 3], random: &mut Random) -> Self {
        let mut words =
            |length: usize| -> Vec<u64> { (0..length).map(|_| random.next()).collect() };
        let floats = |words: Vec<u64>| words.into_iter().map(f64::from_bits).collect();
        Lists {
            counts: words(counts),
            latitudes: floats(words(latitudes)),
            longitudes: floats(words(longitudes)),
        }
    }
}

/// Who goes to the next feature of a stream, and which ways are accepted.
pub trait Driver {
    fn next(&mut self, ask: &Ask, state: &mut State) -> Next {
        library::stream_next(ask, state)
    }

    /// Of the way whose head was given.
    fn accepts(&mut self, head: &Next) -> bool;
}

/// By a list of decisions.
pub struct ByDecisions<'a> {
    question: &'a Question<'a>,
    heads: usize,
}

impl<'a> ByDecisions<'a> {
    pub fn of(question: &'a Question<'a>) -> Self {
        ByDecisions { question, heads: 0 }
    }
}

impl Driver for ByDecisions<'_> {
    fn accepts(&mut self, _: &Next) -> bool {
        self.heads += 1;
        self.question.accepts(self.heads - 1)
    }
}

/// With these lists as they are.
pub fn with(ask: &Ask, zoom: u8, driver: impl Driver, lists: &mut Lists) -> Result<Given, Refused> {
    stream(ask, zoom, driver, |map, state| {
        let Lists { counts, latitudes, longitudes } = lists;
        library::stream_accept(map, state, Nodes { counts, latitudes, longitudes })
    })
}

/// With lists that are long enough for each way.
pub fn as_needed(ask: &Ask, zoom: u8, driver: impl Driver) -> Result<Given, Refused> {
    stream(ask, zoom, driver, |map, state| {
        let accept = library::stream_accept(map, state, Fronts::default().lists().nodes);
        if accept.got.number != 15 {
            return accept;
        }
        let [counts, latitudes, longitudes] = [0, 1, 2].map(|k| accept.got.words[k] as usize);
        let mut fronts = Fronts::holding(WORD, [counts, latitudes, longitudes, 0, 0, 0]);
        library::stream_accept(map, state, fronts.lists().nodes)
    })
}

fn stream(
    ask: &Ask,
    zoom: u8,
    mut driver: impl Driver,
    mut accept: impl FnMut(&[u8], &mut State) -> Accept,
) -> Result<Given, Refused> {
    let mut state = [WORD; 8];
    let opened = library::stream_open(ask, ask.at.sub_file, zoom, &mut state);
    answered(Kind::AtOpening, opened.number, &opened.words)?;
    let mut given = Given { points: 0, ways: 0, blocks: 0, nodes: 0 };
    loop {
        let next = driver.next(ask, &mut state);
        answered(Kind::AtNext, next.got.number, &next.got.words)?;
        match next.got.words[6] {
            POINT => given.points += 1,
            HEAD if driver.accepts(&next) => {
                let got = accept(ask.map, &mut state).got;
                answered(Kind::AtAccept, got.number, &got.words)?;
                given.ways += 1;
                given.blocks = given.blocks.max(got.words[6]);
                given.nodes = given.nodes.max(got.words[7]);
            }
            HEAD => {
                let number = library::stream_decline(&mut state);
                answered(Kind::AtDecline, number, &[WORD; 6])?;
            }
            _ => return Ok(given),
        }
    }
}

fn answered(call: Kind, number: u64, words: &[u64]) -> Result<(), Refused> {
    if number == 0 {
        return Ok(());
    }
    let mut values = [WORD; 6];
    values.copy_from_slice(&words[..6]);
    Err(Refused { call, number, values })
}
