//! A next with all that it is given.

use super::super::check::{Check, Checked};
use super::super::general;
use super::super::library::{self, Layout, Next, Read, State};

/// A case goes on for so many calls.
const CALLS: usize = 4;

#[derive(Clone, Debug)]
pub struct Case {
    pub map: Vec<u8>,
    pub layout: Layout,
    pub letters: Vec<u8>,
    pub state: State,
    /// What all that is lent holds before the call.
    pub word: u64,
}

/// Nothing, or a call that differs.
pub type Held = Result<(), Box<Case>>;

impl Case {
    /// What it gives, and the state behind it.
    pub fn next(&self, check: &mut Check) -> Checked<(Next, State)> {
        let Case { map, layout, letters, .. } = self;
        let mut state = self.state;
        let next = general::next(check, &Read { map, layout, letters }, &mut state, self.word)?;
        Ok((next, state))
    }

    /// Some calls, each way declined.
    pub fn walk(mut self, check: &mut Check) -> Held {
        for _ in 0..CALLS {
            let Ok((next, mut state)) = self.next(check) else { return Err(Box::new(self)) };
            let is_feature = next.got.number == 0 && next.got.words[6] < 2;
            if !is_feature {
                return Ok(());
            }
            library::stream_decline(&mut state);
            self.state = state;
        }
        Ok(())
    }

    /// With parts left out and words and bytes made 0, as long as it still differs.
    pub fn smallest(&self) -> Case {
        let mut smallest = self.clone();
        let differs = |case: &Case| case.next(&mut Check::default()).is_err();
        while let Some(simpler) = smallest.simpler().into_iter().find(differs) {
            smallest = simpler;
        }
        smallest
    }

    /// Each is simpler by one thing.
    fn simpler(&self) -> Vec<Case> {
        let mut all = Vec::new();
        let mut with = |change: &dyn Fn(&mut Case)| {
            let mut case = self.clone();
            change(&mut case);
            all.push(case);
        };
        for length in shorter(self.map.len()) {
            with(&|case| case.map.truncate(length));
        }
        for length in shorter(self.letters.len()) {
            with(&|case| case.letters.truncate(length));
        }
        for k in 0..self.map.len() {
            with(&|case| {
                case.map.remove(k);
            });
        }
        for k in not_0(&self.map) {
            with(&|case| case.map[k] = 0);
        }
        for k in not_0(&self.letters) {
            with(&|case| case.letters[k] = 0);
        }
        for k in not_0(&self.layout) {
            with(&|case| case.layout[k] = 0);
        }
        for k in not_0(&self.state) {
            with(&|case| case.state[k] = 0);
        }
        all
    }
}

fn shorter(length: usize) -> impl Iterator<Item = usize> {
    [length / 2, length.saturating_sub(1)].into_iter().filter(move |shorter| *shorter < length)
}

fn not_0<T: Copy + Into<u64>>(all: &[T]) -> Vec<usize> {
    (0..all.len()).filter(|&k| all[k].into() != 0).collect()
}
