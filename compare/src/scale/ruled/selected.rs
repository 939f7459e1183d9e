//! A next that goes by a window and rules, against one next after the other: each way is asked for by the models of both, and
//! declined where it is not selected. On whole maps, on maps with other bytes in them, and from made-up states.

use std::fmt;

use mapsforge::{raw, word};

use super::super::check::Checked;
use super::calls::{accept_or_decline, Asked, Call, Select, State, Written};
use crate::random::Random;

/// Of a stream so many calls are made at most: a made-up state may have any number of ways.
pub const CALLS: usize = 400;

/// What was compared.
#[derive(Default)]
pub struct Selected {
    calls: u64,
    ways: u64,
    past: u64,
    refused: u64,
    refused_past: u64,
}

impl fmt::Display for Selected {
    fn fmt(&self, f: &mut fmt::Formatter<'_>) -> fmt::Result {
        let Selected { calls, ways, past, refused, refused_past } = self;
        write!(
            f,
            "selected nexts: {calls}, {ways} ways given and {past} declined by them, {refused} calls refused, {refused_past} of them \
             behind a way that was declined"
        )
    }
}

fn selection(random: &mut Random) -> Select {
    let mask = match random.below(4) {
        0 => random.next(),
        1 => 1 << random.below(17),
        _ => 0xffff & random.next() & random.next(),
    };
    let zoom = match random.below(4) {
        0 => random.next(),
        _ => random.below(34) as u64,
    };
    let flag = |random: &mut Random| [0, 1, 1, random.next()][random.below(4)];
    [flag(random), mask, flag(random), zoom]
}

impl Selected {
    /// A stream from a state to its end or a refusal, the selection another one at each call.
    pub fn compare(&mut self, asked: &Asked<'_>, mut state: State, random: &mut Random) -> Checked {
        for _ in 0..CALLS {
            let select = selection(random);
            let ours = asked.ask(state, Call::Selected(&select));
            let (theirs, past) = self.model(asked, state, &select)?;
            self.calls += 1;
            self.past += past;
            if ours != theirs {
                return Err(format!(
                    "from {state:?} by {select:?}: {ours:?}, one after the other {theirs:?}"
                ));
            }
            if ours.number != 0 {
                self.refused += 1;
                self.refused_past += u64::from(past > 0);
                return Ok(());
            }
            state = ours.state;
            match ours.words[word::NEXT_KIND] {
                word::END => return Ok(()),
                word::WAY => self.ways += 1,
                _ => continue,
            }
            accept_or_decline(asked.bytes, &mut state, random)?;
        }
        Ok(())
    }

    /// One next after the other, and how many ways were declined.
    fn model(
        &self,
        asked: &Asked<'_>,
        before: State,
        select: &Select,
    ) -> Result<(Written, u64), String> {
        let (mut state, mut past) = (before, 0);
        loop {
            let mut given = asked.ask(state, Call::Next);
            if !given.way() || asked.selects(select, &given) {
                if given.number != 0 {
                    given.state = before;
                }
                return Ok((given, past));
            }
            if raw::stream_decline(&mut given.state, &mut [0; 6]) != 0 {
                return Err(format!("a way that waits is not declined: {given:?}"));
            }
            (state, past) = (given.state, past + 1);
        }
    }
}
