//! Our library's next, which tries quick readers first, beside the general next, which has none: on the same state, and
//! with the same in all that is lent, both leave the same.

use super::check::{Check, Checked};
use super::library::{Next, NextBy, Read, State};

/// What a next was about, as far as it can be told from outside.
#[derive(Clone, Copy)]
enum Class {
    Point,
    Way,
    Padded,
    Debug,
    End,
    Refused,
    OutOfTurn,
}

/// In the order of their numbers. Quick readers answer the first two alone, where numbers are short besides.
const CLASSES: [&str; 7] = [
    "points, all numbers plain",
    "ways, all numbers plain",
    "points and ways with a padded number",
    "points and ways by a debug layout",
    "ends",
    "refusals",
    "calls while a way waits",
];

/// How many calls of each class were compared, and how many of them differ.
#[derive(Default)]
pub struct Tally {
    calls: [u64; CLASSES.len()],
    differ: u64,
}

impl Tally {
    pub fn add(&mut self, other: &Tally) {
        self.calls.iter_mut().zip(other.calls).for_each(|(sum, count)| *sum += count);
        self.differ += other.differ;
    }

    /// The classes that did not come.
    pub fn missing(&self) -> Vec<&'static str> {
        let none = CLASSES.iter().zip(self.calls).filter(|(_, count)| *count == 0);
        none.map(|(name, _)| *name).collect()
    }

    /// Nothing, of a run that does not ask the general next.
    pub fn print(&self) {
        let calls: u64 = self.calls.iter().sum();
        if calls == 0 {
            return;
        }
        println!("next against the general next: {calls} calls, {} differ", self.differ);
        for (name, count) in CLASSES.iter().zip(self.calls) {
            println!("  {name:<48} {count:>14}");
        }
    }
}

/// The library's next, held to the general one on copies. All that is lent holds a word before.
pub fn next(check: &mut Check, read: &Read, state: &mut State, word: u64) -> Checked<Next> {
    let (before, mut copy) = (*state, *state);
    let ours = NextBy::Library.call(read, state, word);
    let general = NextBy::General.call(read, &mut copy, word);
    check.general.calls[class(read, &before, &general) as usize] += 1;
    if let Err(why) = same(check, [&ours, &general], [state, &copy]) {
        check.general.differ += 1;
        return Err(format!("against the general next, state {before:x?}: {why}"));
    }
    Ok(ours)
}

fn class(read: &Read, before: &State, next: &Next) -> Class {
    let words = &next.got.words;
    match (next.got.number, words[6]) {
        _ if before[0] != 0 => Class::OutOfTurn,
        (1.., _) => Class::Refused,
        (0, 2) => Class::End,
        _ if read.layout[0] != 0 => Class::Debug,
        _ if words[21] == 0 => Class::Padded,
        (0, 0) => Class::Point,
        (0, _) => Class::Way,
    }
}

/// Number, words, signed words, degrees by their bits, ids and state.
fn same(check: &mut Check, [ours, general]: [&Next; 2], states: [&State; 2]) -> Checked {
    check.same("the number", ours.got.number, general.got.number)?;
    check.words("the words", &ours.got.words, &general.got.words)?;
    check.same("the signed words", ours.signed, general.signed)?;
    check.floats("the degrees", &ours.degrees, &general.degrees)?;
    check.words("the ids", &ours.ids, &general.ids)?;
    check.words("the state behind it", states[0], states[1])
}
