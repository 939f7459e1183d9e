//! A stream's next, its next by a selection and its skip, on lent words that are all compared.

use mapsforge::{raw, word, Map, Rules};

use super::super::check::Checked;
use super::model;
use super::PATTERN;
use crate::random::Random;

/// The lists that an accepted way is written to; a longer one is declined.
const NODES: usize = 256;

/// A stream's words.
pub type State = [u64; word::STATE_WORDS];

/// The words of a selection.
pub type Select = [u64; word::SELECT_WORDS];

/// What is called.
#[derive(Clone, Copy)]
pub enum Call<'a> {
    Next,
    Selected(&'a Select),
    Skip,
}

/// What a call answered, and all that it may write.
#[derive(Clone, Debug, PartialEq)]
pub struct Written {
    pub number: u64,
    pub state: State,
    pub words: [u64; word::NEXT_WORDS],
    signed: [i64; word::SIGNED_WORDS],
    degrees: [u64; word::POSITION_DEGREES],
    ids: [u64; word::MAX_TAGS],
}

impl Written {
    /// Whether it gave a way, which waits.
    pub fn way(&self) -> bool {
        self.number == 0 && self.words[word::NEXT_KIND] == word::WAY
    }
}

/// What a stream goes by.
pub struct Asked<'a> {
    pub bytes: &'a [u8],
    layout: &'a [u64; word::LAYOUT_WORDS],
    letters: &'a [u8],
    classes: &'a [u8],
}

/// What is left where a call answered this number and wrote nothing.
pub fn untouched(number: u64, state: State) -> Written {
    Written {
        number,
        state,
        words: [PATTERN; word::NEXT_WORDS],
        signed: [PATTERN as i64; word::SIGNED_WORDS],
        degrees: [PATTERN; word::POSITION_DEGREES],
        ids: [PATTERN; word::MAX_TAGS],
    }
}

impl<'a> Asked<'a> {
    pub fn new(bytes: &'a [u8], map: &'a Map<'_>, rules: &'a Rules) -> Self {
        Asked { bytes, layout: map.layout(), letters: map.letters(), classes: rules.classes() }
    }

    pub fn ask(&self, state: State, call: Call<'_>) -> Written {
        let (mut state, mut words, mut ids) = (state, [PATTERN; 22], [PATTERN; 15]);
        let mut signed = [PATTERN as i64; 2];
        let mut degrees = [f64::from_bits(PATTERN); 2];
        let Asked { bytes, layout, letters, classes } = self;
        let lent = (&mut state, &mut words, &mut signed, &mut degrees, &mut ids);
        let (at, to, signs, place, row) = lent;
        let number = match call {
            Call::Next => raw::stream_next(bytes, layout, letters, at, to, signs, place, row),
            Call::Selected(select) => raw::stream_next_selected(
                bytes, layout, letters, select, classes, at, to, signs, place, row,
            ),
            Call::Skip => raw::stream_skip(bytes, layout, letters, at, to, signs, place, row),
        };
        Written { number, state, words, signed, degrees: degrees.map(f64::to_bits), ids }
    }

    /// Whether the way that a next gave is selected.
    pub fn selects(&self, select: &Select, given: &Written) -> bool {
        let bitmap = given.words[word::NEXT_BITMAP] & 0xffff;
        let mask = select[word::SELECT_MASK] & 0xffff;
        let in_window = select[word::SELECT_BY_WINDOW] == 0
            || (0..16).any(|cell| bitmap >> cell & 1 == 1 && mask >> cell & 1 == 1);
        let ids = &given.ids[..given.words[word::NEXT_TAG_COUNT] as usize];
        let zoom = select[word::SELECT_ZOOM] as u8;
        let shown = select[word::SELECT_BY_RULES] == 0 || model::shows(self.classes, zoom, ids);
        in_window && shown
    }
}

/// The waiting way is accepted; if it is refused, or by chance, declined.
pub fn accept_or_decline(bytes: &[u8], state: &mut State, random: &mut Random) -> Checked {
    let (mut counts, mut latitudes, mut longitudes) = ([0; NODES], [0.0; NODES], [0.0; NODES]);
    let accepted = random.below(2) == 0
        && raw::stream_accept(
            bytes,
            state,
            &mut counts,
            &mut latitudes,
            &mut longitudes,
            &mut [0; word::ACCEPT_WORDS],
            &mut [0.0; 2],
        ) == 0;
    if !accepted && raw::stream_decline(state, &mut [0; 6]) != 0 {
        return Err("the way that was given does not wait".into());
    }
    Ok(())
}
