//! What was compared.

use std::collections::BTreeMap;

use super::super::check::Check;
use super::counted::Counted;
use super::streams::Given;

/// What kinds of questions and answers there are.
#[derive(Clone, Copy, Debug, PartialEq, Eq, PartialOrd, Ord)]
pub enum Kind {
    /// Who counted.
    ByTheRust,
    ByTheModel,
    /// A text that is no UTF-8.
    IllFormed,
    /// How many decisions there are beside the ways.
    Fewer,
    AsMany,
    More,
    /// Which call of our stream is refused as wanted is.
    AtOpening,
    AtNext,
    AtAccept,
    AtDecline,
    /// Which list was too short, so that the stream met 15.
    ShortCounts,
    ShortLatitudes,
    ShortLongitudes,
}

/// All but a decline, which is never refused while a way waits.
const KINDS: [(Kind, &str); 12] = [
    (Kind::ByTheRust, "counted from the Rust's visit"),
    (Kind::ByTheModel, "from the model, where it parts"),
    (Kind::IllFormed, "with an ill-formed text"),
    (Kind::Fewer, "fewer decisions than ways"),
    (Kind::AsMany, "as many"),
    (Kind::More, "more"),
    (Kind::AtOpening, "refused as opening is"),
    (Kind::AtNext, "refused as a next is"),
    (Kind::AtAccept, "refused as an accept is"),
    (Kind::ShortCounts, "15 by short node counts"),
    (Kind::ShortLatitudes, "15 by short latitudes"),
    (Kind::ShortLongitudes, "15 by short longitudes"),
];

#[derive(Default)]
pub struct Tally {
    pub check: Check,
    pub tiles: u64,
    questions: u64,
    kinds: BTreeMap<Kind, u64>,
    /// By the number of the answer.
    answers: BTreeMap<u64, u64>,
    /// Streams with lists of just the lengths that are wanted, and what they gave.
    streams: u64,
    points: u64,
    ways: u64,
    /// The same of streams by a window and rules, and how many of them a refusal stopped.
    selected: u64,
    selected_ways: u64,
    pub stopped: u64,
}

impl Tally {
    pub fn came(&mut self, kind: Kind) {
        *self.kinds.entry(kind).or_default() += 1;
    }

    pub fn decisions(&mut self, decisions: usize, ways: usize) {
        self.came(match decisions {
            _ if decisions < ways => Kind::Fewer,
            _ if decisions > ways => Kind::More,
            _ => Kind::AsMany,
        });
    }

    pub fn question(&mut self, counted: &Counted, number: u64) {
        self.questions += 1;
        *self.answers.entry(number).or_default() += 1;
        self.came(if counted.by_the_rust { Kind::ByTheRust } else { Kind::ByTheModel });
        if counted.ill_formed && counted.figures.is_ok() {
            self.came(Kind::IllFormed);
        }
    }

    pub fn streamed(&mut self, given: &Given) {
        self.streams += 1;
        self.points += given.points;
        self.ways += given.ways;
    }

    pub fn driven(&mut self, given: &Given) {
        self.selected += 1;
        self.selected_ways += given.ways;
    }

    /// The kinds that did not come.
    pub fn missing(&self) -> Vec<&'static str> {
        let missing = KINDS.iter().filter(|(kind, _)| !self.kinds.contains_key(kind));
        let selected = (self.selected_ways == 0).then_some("way by a selection");
        missing.map(|(_, name)| *name).chain(selected).collect()
    }

    pub fn print(&self) {
        println!("tiles: {}, questions: {}", self.tiles, self.questions);
        for (kind, name) in &KINDS {
            println!("  {name:<32}{:>12}", self.kinds.get(kind).unwrap_or(&0));
        }
        println!("answers by number (0 is a result)");
        for (number, count) in &self.answers {
            println!("  {number:<32}{count:>12}");
        }
        println!("streams with lists of just these lengths: {}, none met 15", self.streams);
        println!("points delivered: {}, ways accepted: {}", self.points, self.ways);
        let (selected, ways, stopped) = (self.selected, self.selected_ways, self.stopped);
        println!(
            "streams by a window and rules, with such lists: {selected}, {ways} ways accepted, none met 15; {stopped} more are refused"
        );
        println!("values compared: {}", self.check.values);
    }
}
