//! A skip against a decline and then a next, from the same states: of whole streams, on maps with other bytes in them, and from
//! made-up states.

use std::fmt;

use mapsforge::{raw, word};

use super::super::check::Checked;
use super::calls::{accept_or_decline, untouched, Asked, Call, State, Written};
use super::selected::CALLS;
use crate::random::Random;

/// The number of a call out of turn.
const OUT_OF_TURN: u64 = 16;

/// What was compared.
#[derive(Default)]
pub struct Skipped {
    calls: u64,
    ways: u64,
    idle: u64,
    refused: u64,
}

impl fmt::Display for Skipped {
    fn fmt(&self, f: &mut fmt::Formatter<'_>) -> fmt::Result {
        let Skipped { calls, ways, idle, refused } = self;
        write!(
            f,
            "skips: {calls}, {ways} gave a way, {idle} while no way waited, {refused} refused behind the way, which still waits"
        )
    }
}

impl Skipped {
    /// A stream from a state to its end or a refusal, a skip tried at each place.
    pub fn compare(&mut self, asked: &Asked<'_>, mut state: State, random: &mut Random) -> Checked {
        for _ in 0..CALLS {
            let ours = asked.ask(state, Call::Skip);
            let theirs = one_after_the_other(asked, state);
            self.calls += 1;
            if ours != theirs {
                return Err(format!(
                    "skipped from {state:?}: {ours:?}, one after the other {theirs:?}"
                ));
            }
            let given = if ours.number == OUT_OF_TURN {
                self.idle += 1;
                asked.ask(state, Call::Next)
            } else {
                self.refused += u64::from(ours.number != 0);
                self.ways += u64::from(ours.way());
                ours
            };
            if given.number != 0 || given.words[word::NEXT_KIND] == word::END {
                return Ok(());
            }
            state = given.state;
            if given.way() && random.below(4) == 0 {
                accept_or_decline(asked.bytes, &mut state, random)?;
            }
        }
        Ok(())
    }
}

/// A decline and then a next; refused, both leave all as it was but for the next's own words.
fn one_after_the_other(asked: &Asked<'_>, before: State) -> Written {
    let (mut state, mut values) = (before, [0; 6]);
    let number = raw::stream_decline(&mut state, &mut values);
    if number != 0 {
        return untouched(number, before);
    }
    let mut given = asked.ask(state, Call::Next);
    if given.number != 0 {
        given.state = before;
    }
    given
}
