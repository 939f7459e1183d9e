//! What was compared so far, and what differs.

use std::cell::Cell;
use std::fmt::Debug;
use std::panic::{self, AssertUnwindSafe};

use super::library::{kept_but, Got};
use super::{general, listed};
use crate::differences::tile::Cause;

/// The calls of the library.
#[derive(Clone, Copy, Debug)]
pub enum Call {
    Open,
    Interval,
    SubFile,
    Tag,
    Text,
    TileCount,
    TileIndex,
    IndexEntry,
    Column,
    Longitude,
    StreamOpen,
    StreamNext,
    StreamAccept,
    StreamDecline,
    Collect,
    Fetch,
    MeasureWayData,
    ReadWayData,
}

/// In the order of their numbers.
const CALLS: [Call; 18] = [
    Call::Open,
    Call::Interval,
    Call::SubFile,
    Call::Tag,
    Call::Text,
    Call::TileCount,
    Call::TileIndex,
    Call::IndexEntry,
    Call::Column,
    Call::Longitude,
    Call::StreamOpen,
    Call::StreamNext,
    Call::StreamAccept,
    Call::StreamDecline,
    Call::Collect,
    Call::Fetch,
    Call::MeasureWayData,
    Call::ReadWayData,
];

/// Why the model answers in place of the Rust.
#[derive(Clone, Copy, PartialEq)]
pub enum Reason {
    /// A header text whose length the Rust cannot hold.
    HeaderText,
    /// A tile's number that i32 does not hold.
    TileNumber,
    /// A zoom above 63 in columns and longitudes.
    Zoom,
    /// Tags whose listed letters are not those of their listed names, or too many tags to give to the Rust.
    Listed,
    Tile(Cause),
}

const REASONS: [(Reason, &str); 13] = [
    (Reason::HeaderText, "a header text's length has over 32 bits"),
    (Reason::TileNumber, "a tile's number above 2^31 - 1, or as many columns"),
    (Reason::Zoom, "a zoom above 63"),
    (Reason::Listed, "tags listed otherwise than a map has them"),
    (Reason::Tile(Cause::TextLength), "a collected text's length has over 32 bits"),
    (Reason::Tile(Cause::Number), "a number of more than nine bytes"),
    (Reason::Tile(Cause::Coordinate), "a coordinate above 2^53"),
    (Reason::Tile(Cause::Sum), "counts that sum past 64 bits"),
    (Reason::Tile(Cause::Grid), "a bad grid"),
    (Reason::Tile(Cause::Entry), "an index entry past all places"),
    (Reason::Tile(Cause::NextEntry), "the next index entry is cut off"),
    (Reason::Tile(Cause::Interval), "a reversed interval"),
    (Reason::Tile(Cause::Empty), "a tile that is marked empty"),
];

/// Who says whether numbers are plain.
#[derive(Clone, Copy, Debug)]
pub enum Said {
    Collected,
    FetchedPoint,
    FetchedWay,
    StreamedPoint,
    Head,
    Accepted,
    End,
    Data,
}

/// In the order of their numbers.
const SAID: [(Said, &str); 8] = [
    (Said::Collected, "a collected tile"),
    (Said::FetchedPoint, "a fetched point"),
    (Said::FetchedWay, "a fetched way"),
    (Said::StreamedPoint, "a streamed point"),
    (Said::Head, "a way's head"),
    (Said::Accepted, "an accepted way"),
    (Said::End, "the end of a stream"),
    (Said::Data, "a way's data alone"),
];

/// Nothing, or what differs.
pub type Checked<T = ()> = Result<T, String>;

/// Rows of document 01's table with those that joined it, and 0.
pub const ANSWERS: usize = 21;

#[derive(Default)]
pub struct Check {
    /// By the numbers of the calls, and of each by its answers.
    calls: [u64; CALLS.len()],
    answers: [[u64; ANSWERS]; CALLS.len()],
    pub values: u64,
    /// Collected tiles and streams that the Rust was asked for.
    pub by_the_rust: u64,
    /// Answers that document 01's model gave in place of the Rust, by reason, and the cases with such.
    answers_settled: [u64; REASONS.len()],
    cases_settled: [u64; REASONS.len()],
    /// Answers that say whether numbers are plain: those that say no, and those that say yes.
    said: [[u64; 2]; SAID.len()],
    /// The numbers of collected tiles that are not plain.
    pub padded_numbers: u64,
    /// Nexts that were held to the general one.
    pub general: general::Tally,
    /// Lists of the places of features.
    pub places: listed::Tally,
    /// Whether the case so far has such an answer.
    in_case: [bool; REASONS.len()],
}

impl Check {
    /// Counts a call by its answer.
    pub fn call(&mut self, call: Call, number: u64) {
        self.calls[call as usize] += 1;
        // a number that no row has differs from every answer, and is not counted
        if let Some(count) = self.answers[call as usize].get_mut(number as usize) {
            *count += 1;
        }
    }

    /// How often a call answered with a number.
    pub fn answered(&self, call: Call, number: usize) -> u64 {
        self.answers[call as usize][number]
    }

    /// The same of all calls.
    fn answered_by_any(&self, number: usize) -> u64 {
        self.answers.iter().map(|answers| answers[number]).sum()
    }

    /// The refusals of the table that no call answered with.
    pub fn missing(&self) -> Vec<usize> {
        (1..ANSWERS).filter(|&number| self.answered_by_any(number) == 0).collect()
    }

    /// Counts an answer of the model.
    pub fn settle(&mut self, reason: Reason) {
        let k = REASONS.iter().position(|(known, _)| *known == reason).expect("all are listed");
        self.answers_settled[k] += 1;
        self.in_case[k] = true;
    }

    /// Counts an answer that says whether numbers are plain.
    pub fn said(&mut self, of: Said, plain: bool) {
        self.said[of as usize][usize::from(plain)] += 1;
    }

    /// Who did not say both: of a padded number, and that all are plain.
    pub fn unsaid(&self) -> Vec<&'static str> {
        let unsaid = SAID.iter().filter(|(of, _)| self.said[*of as usize].contains(&0));
        unsaid.map(|(_, name)| *name).collect()
    }

    /// A case, or an undamaged map, ends here.
    pub fn end_case(&mut self) {
        let cases = self.cases_settled.iter_mut().zip(&mut self.in_case);
        cases.for_each(|(count, in_case)| *count += u64::from(std::mem::take(in_case)));
    }

    pub fn same<T: PartialEq + Debug>(&mut self, what: &str, ours: T, theirs: T) -> Checked {
        self.values += 1;
        if ours == theirs {
            return Ok(());
        }
        Err(format!("{what}: ours {ours:x?}, it should be {theirs:x?}"))
    }

    pub fn words(&mut self, what: &str, ours: &[u64], theirs: &[u64]) -> Checked {
        self.values += ours.len() as u64;
        if ours == theirs {
            return Ok(());
        }
        Err(format!("{what}: ours {ours:x?}, it should be {theirs:x?}"))
    }

    /// Floats by their bits.
    pub fn floats(&mut self, what: &str, ours: &[f64], theirs: &[f64]) -> Checked {
        self.values += ours.len() as u64;
        let bits = |floats: &[f64]| floats.iter().map(|float| float.to_bits()).collect::<Vec<_>>();
        let same = |(a, b): (&f64, &f64)| a.to_bits() == b.to_bits();
        if ours.len() == theirs.len() && ours.iter().zip(theirs).all(same) {
            return Ok(());
        }
        Err(format!("{what}: ours {:x?}, it should be {:x?}", bits(ours), bits(theirs)))
    }

    /// An answer and all its words.
    pub fn got<const N: usize>(
        &mut self,
        call: Call,
        ours: &Got<N>,
        number: u64,
        words: &[u64; N],
    ) -> Checked {
        self.call(call, ours.number);
        self.values += 1 + N as u64;
        if ours.number == number && ours.words == *words {
            return Ok(());
        }
        let (our_number, ours) = (ours.number, ours.words);
        Err(format!("{call:?}: ours {our_number} {ours:x?}, it should be {number} {words:x?}"))
    }

    /// A refusal: its number, and its values in the front words. All others keep what was lent.
    pub fn refused<const N: usize>(
        &mut self,
        call: Call,
        ours: &Got<N>,
        refusal: &[u64],
    ) -> Checked {
        self.got(call, ours, refusal[0], &kept_but(0, &refusal[1..]))
    }

    pub fn add(&mut self, other: Check) {
        self.calls.iter_mut().zip(other.calls).for_each(|(sum, count)| *sum += count);
        let add = |sums: &mut [u64], counts: &[u64]| {
            sums.iter_mut().zip(counts).for_each(|(sum, count)| *sum += count);
        };
        add(self.answers.as_flattened_mut(), other.answers.as_flattened());
        add(&mut self.answers_settled, &other.answers_settled);
        add(&mut self.cases_settled, &other.cases_settled);
        add(self.said.as_flattened_mut(), other.said.as_flattened());
        self.general.add(&other.general);
        self.places.add(&other.places);
        self.padded_numbers += other.padded_numbers;
        self.values += other.values;
        self.by_the_rust += other.by_the_rust;
    }

    /// How many collected tiles and streams the model answered in place of the Rust.
    fn tiles_settled(&self) -> u64 {
        let settled = REASONS.iter().zip(self.answers_settled);
        let of_tile =
            settled.filter(|((reason, _), _)| matches!(reason, Reason::Tile(_) | Reason::Listed));
        of_tile.map(|(_, answers)| answers).sum()
    }

    pub fn print(&self) {
        println!("calls compared: {}, each with its answers", self.calls.iter().sum::<u64>());
        for (&call, count) in CALLS.iter().zip(self.calls) {
            let came = |number: &usize| self.answered(call, *number) > 0;
            let numbers: Vec<String> =
                (0..ANSWERS).filter(came).map(|number| number.to_string()).collect();
            println!("  {:<16} {count:>14}  {}", format!("{call:?}"), numbers.join(" "));
        }
        println!("answers by number (0 is a result)");
        let counts = (0..ANSWERS).map(|number| (number, self.answered_by_any(number)));
        for (number, count) in counts.filter(|(_, count)| *count > 0) {
            println!("  {number:<16} {count:>14}");
        }
        println!(
            "tiles collected and streamed by the Rust: {}, by document 01's model alone: {}",
            self.by_the_rust,
            self.tiles_settled()
        );
        println!(
            "settled by document 01's model, where the Rust parts: answers, and cases with such"
        );
        let settled = self.answers_settled.iter().zip(self.cases_settled);
        for ((_, name), (answers, cases)) in REASONS.iter().zip(settled) {
            println!("  {name:<48} {answers:>10} {cases:>10}");
        }
        println!("plain numbers: answers with a padded number, and answers where all are plain");
        for ((_, name), [padded, plain]) in SAID.iter().zip(self.said) {
            println!("  {name:<48} {padded:>10} {plain:>10}");
        }
        if self.padded_numbers > 0 {
            println!("padded numbers in collected tiles: {}", self.padded_numbers);
        }
        println!("values compared: {}", self.values);
    }
}

thread_local! {
    /// What the last panic of this thread said, and where.
    static PANIC: Cell<String> = const { Cell::new(String::new()) };
}

/// Panics are told by the case that they are in, not where they happen.
pub fn keep_panics() {
    panic::set_hook(Box::new(|panic| PANIC.set(panic.to_string())));
}

/// What the Rust gives; a panic that no guard foresaw is a difference.
pub fn caught<T>(run: impl FnOnce() -> T) -> Checked<T> {
    panic::catch_unwind(AssertUnwindSafe(run)).map_err(|_| PANIC.take())
}
