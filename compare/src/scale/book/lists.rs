//! Lists of calls. Each call is made of the stream, and its answer held to what the book says to it.

use super::super::check::{Call as Kind, Check, Checked, Said};
use super::super::collected::stored_part;
use super::super::lent::{suffice, Fronts, Lengths, Lent};
use super::super::library::{self, degrees, kept_but, Next, State, SIGNED};
use super::super::streamed::nothing;
use super::collected::{Book, Fetched};
use crate::random::Random;

/// A call, an accept with what it lends.
#[derive(Clone, Copy, Debug)]
pub enum Call {
    Next,
    Accept(Lend),
    Decline,
}

#[derive(Clone, Copy, Debug)]
pub enum Lend {
    /// No entries.
    Nothing,
    /// Long enough for every way.
    Enough,
    /// By the numbers that start here: none, one short, exact or longer.
    Random(u64),
}

const ALL: [Call; 4] =
    [Call::Next, Call::Accept(Lend::Enough), Call::Accept(Lend::Nothing), Call::Decline];

/// So many random calls mostly go through so many features.
pub fn long(features: usize) -> usize {
    6 * features + 6
}

/// Lengths to go by where no way waits.
pub const NONE_WAITS: Lengths = [1, 2, 2, 0, 0, 0];

/// "Its state: a number k, first 0, and whether a way waits, first no." Wish 6: and whether all "stored numbers that the
/// stream has read for it in calls not refused" are plain, first those of the tile's head.
#[derive(Clone, Copy)]
struct Page {
    k: usize,
    waits: bool,
    plain: bool,
}

/// The stream and the book, side by side.
#[derive(Clone, Copy)]
struct Both {
    stream: State,
    page: Page,
}

impl Both {
    fn at_first(stream: State, plain: bool) -> Self {
        Both { stream, page: Page { k: 0, waits: false, plain } }
    }
}

/// A tile at a zoom, and the calls of the list so far.
pub struct Run<'a> {
    pub book: Book<'a>,
    pub check: &'a mut Check,
    pub lent: &'a mut Lent,
    pub calls: Vec<Call>,
    pub made: u64,
}

impl Run<'_> {
    /// Every list of up to so many calls; answers how many there are. A stream's state is a value, so what
    /// two lists start with is run once for both.
    pub fn all(&mut self, stream: State, longest: u32) -> Checked<u64> {
        self.calls.clear();
        self.longer(Both::at_first(stream, self.book.tile.head_plain()), longest)
    }

    fn longer(&mut self, both: Both, left: u32) -> Checked<u64> {
        if left == 0 {
            return Ok(0);
        }
        let mut lists = 0;
        for call in ALL {
            let mut next = both;
            self.step(call, &mut next)?;
            lists += 1 + self.longer(next, left - 1)?;
            self.calls.pop();
        }
        Ok(lists)
    }

    /// A list of random calls.
    pub fn random(&mut self, stream: State, length: usize, random: &mut Random) -> Checked {
        self.calls.clear();
        let mut both = Both::at_first(stream, self.book.tile.head_plain());
        for _ in 0..length {
            self.step(random.call(), &mut both)?;
        }
        Ok(())
    }

    /// Makes a call; what differs is told by the whole list.
    fn step(&mut self, call: Call, both: &mut Both) -> Checked {
        self.calls.push(call);
        self.made += 1;
        let held = match call {
            Call::Next => self.next(both),
            Call::Accept(lend) => self.accept(lend, both),
            Call::Decline => self.decline(both),
        };
        held.map_err(|why| format!("calls {:?}: {why}", self.calls))
    }

    /// "Next: 16 if a way waits; with k below P, point k, and k grows by 1; with k below P + W, the head of
    /// way k − P (the first is 0), which then waits; else the end, with sub file and water mark", and with whether what was
    /// read is plain.
    fn next(&mut self, both: &mut Both) -> Checked {
        let before = both.stream;
        let tile = self.book.tile;
        let ours = library::stream_next(&tile.ask, &mut both.stream);
        let (points, ways) = (self.book.points, self.book.ways);
        let page = &mut both.page;
        if page.waits {
            self.check.refused(Kind::StreamNext, &ours.got, &[16])?;
            nothing(self.check, &ours)?;
            return self.check.words("the state behind 16", &both.stream, &before);
        }
        if page.k < points {
            let point = tile.point(page.k);
            self.point(&ours, point)?;
            page.k += 1;
            let said = point.fetch.got.words[35] != 0;
            self.check.said(Said::StreamedPoint, said);
            page.plain &= said;
            return Ok(());
        }
        if page.k < points + ways {
            let way = tile.way(page.k - points);
            self.head(&ours, way)?;
            page.waits = true;
            let said = way.fetch.got.words[36] != 0;
            self.check.said(Said::Head, said);
            page.plain &= said;
            return Ok(());
        }
        self.check.said(Said::End, page.plain);
        let plain = u64::from(page.plain);
        let mut words: [u64; 22] = kept_but(19, &[tile.ask.at.sub_file, tile.water(), plain]);
        words[6] = 2;
        self.check.got(Kind::StreamNext, &ours.got, 0, &words)?;
        nothing(self.check, &ours)
    }

    /// "Accept: 16 if none waits; 15 with the way's counts of blocks, nodes and nodes if a list is shorter;
    /// else its other fields, its lists written as above, k grows by 1 and none waits."
    fn accept(&mut self, lend: Lend, both: &mut Both) -> Checked {
        let page = &mut both.page;
        let tile = self.book.tile;
        let waiting = page.waits.then(|| tile.way(page.k - self.book.points));
        let needed = waiting.map_or(NONE_WAITS, three_lists);
        let lengths = lend.lengths(&needed);
        let before = both.stream;
        let lists = self.lent.lists(lengths);
        let ours = library::stream_accept(tile.ask.map, &mut both.stream, lists.nodes);
        let refusal = match waiting {
            None => vec![16],
            Some(_) if !suffice(&lengths, &needed) => {
                [&[15][..], &needed.map(|length| length as u64)].concat()
            }
            Some(way) => {
                let words = self.body(&ours.got.words, way)?;
                self.check.got(Kind::StreamAccept, &ours.got, 0, &words)?;
                self.check.floats("a label", &ours.degrees, &way.fetch.degrees)?;
                let said = way.fetch.got.words[35] != 0;
                self.check.said(Said::Accepted, said);
                let plain = page.plain && said;
                *page = Page { k: page.k + 1, waits: false, plain };
                return self.lent.check(self.check, lengths, &way.streamed_lists());
            }
        };
        self.check.refused(Kind::StreamAccept, &ours.got, &refusal)?;
        self.check.floats("no label", &ours.degrees, &degrees::<2>())?;
        self.check.words("the state behind a refusal", &both.stream, &before)?;
        self.lent.check(self.check, lengths, &Fronts::default())
    }

    /// "Decline: 16 if none waits; else k grows by 1 and none waits."
    fn decline(&mut self, both: &mut Both) -> Checked {
        let before = both.stream;
        let number = library::stream_decline(&mut both.stream);
        self.check.call(Kind::StreamDecline, number);
        if both.page.waits {
            both.page = Page { k: both.page.k + 1, waits: false, ..both.page };
            return self.check.same("a decline", number, 0);
        }
        self.check.same("a decline out of turn", number, 16)?;
        self.check.words("the state behind 16", &both.stream, &before)
    }

    fn point(&mut self, ours: &Next, point: &Fetched) -> Checked {
        let fetched = &point.fetch;
        let mut words: [u64; 22] = kept_but(6, &[0; 12]);
        words[7] = fetched.got.words[7];
        words[21] = fetched.got.words[35];
        self.part(&ours.got.words, &mut words, 11, point, 0)?;
        self.part(&ours.got.words, &mut words, 14, point, 1)?;
        words[17] = fetched.got.words[29];
        self.check.same("a point", fetched.got.words[6], 0)?;
        self.check.got(Kind::StreamNext, &ours.got, 0, &words)?;
        self.check.same("layer and elevation", ours.signed, fetched.signed)?;
        self.check.floats("a position", &ours.degrees, &fetched.degrees)?;
        self.check.words("ids", &ours.ids, &fetched.ids)
    }

    fn head(&mut self, ours: &Next, way: &Fetched) -> Checked {
        let fetched = &way.fetch;
        let mut words: [u64; 22] = kept_but(6, &[1, fetched.got.words[7]]);
        (words[18], words[21]) = (fetched.got.words[30], fetched.got.words[36]);
        self.check.same("a way", fetched.got.words[6], 1)?;
        self.check.got(Kind::StreamNext, &ours.got, 0, &words)?;
        self.check.same("a layer", ours.signed, [fetched.signed[0], SIGNED[1]])?;
        self.check.floats("no position", &ours.degrees, &degrees::<2>())?;
        self.check.words("ids", &ours.ids, &fetched.ids)
    }

    /// The words of a body.
    fn body(&mut self, ours: &[u64; 19], way: &Fetched) -> Checked<[u64; 19]> {
        let fetched = &way.fetch.got.words;
        let mut words: [u64; 19] = kept_but(6, &fetched[32..34]);
        self.part(ours, &mut words, 8, way, 0)?;
        self.part(ours, &mut words, 11, way, 1)?;
        self.part(ours, &mut words, 14, way, 2)?;
        (words[17], words[18]) = (fetched[34], fetched[35]);
        Ok(words)
    }

    /// The words of text `k`, from the word `at` on: "a text is its stored bytes, or empty if they aren't
    /// valid UTF-8". It is there if the fetched one is.
    fn part(
        &mut self,
        ours: &[u64],
        words: &mut [u64],
        at: usize,
        feature: &Fetched,
        k: usize,
    ) -> Checked {
        let text = &feature.texts[k];
        let there = feature.fetch.got.words[11 + 6 * k];
        self.check.same("whether a text is there", u64::from(text.is_some()), there)?;
        let part = stored_part(self.check, self.book.tile.ask.map, &ours[at..at + 3], text)?;
        words[at..at + 3].copy_from_slice(&part);
        Ok(())
    }
}

/// The lengths of node counts, latitudes and longitudes that a way needs.
fn three_lists(way: &Fetched) -> Lengths {
    let [blocks, nodes] = [32, 33].map(|k| way.fetch.got.words[k] as usize);
    [blocks, nodes, nodes, 0, 0, 0]
}

impl Lend {
    pub fn lengths(self, needed: &Lengths) -> Lengths {
        match self {
            Lend::Nothing => [0; 6],
            Lend::Enough => needed.map(|needed| needed + 1),
            Lend::Random(seed) => Random::new(seed | 1).lengths(needed),
        }
    }
}

impl Random {
    /// A call, in turn or not.
    pub fn call(&mut self) -> Call {
        match self.below(10) {
            0..=4 => Call::Next,
            5 | 6 => Call::Accept(Lend::Enough),
            7 => Call::Accept([Lend::Nothing, Lend::Random(self.next())][self.below(2)]),
            _ => Call::Decline,
        }
    }
}

impl Fetched {
    /// The first three of the fetched lists.
    fn streamed_lists(&self) -> Fronts {
        let [latitudes, longitudes, ..] = &self.fronts.floats;
        let floats = [latitudes.clone(), longitudes.clone(), Vec::new(), Vec::new()];
        Fronts { counts: self.fronts.counts.clone(), floats, buffer: Vec::new() }
    }
}
