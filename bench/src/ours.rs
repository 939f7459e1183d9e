//! Our side: the library's functions as they are, over lists that are lent again and again. What the calls take
//! of the header is kept, as the Rust keeps the opened map.

mod calls;

use crate::answer::{rust_number, Fold};
use crate::map::{Map, SubFile};
use crate::tally::{self, Tally};
use crate::work::{Side, Work};
use calls::{Address, Calls};

/// What `mapsforge_stream_next` and `mapsforge_fetch` say they give.
const POINT: u64 = 0;
const WAY: u64 = 1;

pub struct Ours<'a> {
    map: &'a Map,
    calls: Calls<'a>,
    /// How many blocks and nodes the lists have that a stream is lent which was asked for what it wants.
    lengths: [usize; 2],
}

impl<'a> Ours<'a> {
    pub fn new(map: &'a Map) -> Self {
        let mut calls = Calls::new(&map.bytes);
        assert_eq!(calls.open_first(), 0, "a map that opens");
        calls.keep_intervals(map.sub_files.len());
        Ours { map, calls, lengths: [0; 2] }
    }
}

impl Side for Ours<'_> {
    fn run(&mut self, work: Work, tally: &mut Tally) {
        if work == Work::Open {
            assert_eq!(self.calls.open(), 0, "it opened before");
            return tally.digest(|fold| header(fold, &self.calls));
        }
        for (sub_file, of) in self.map.sub_files.iter().enumerate() {
            match work {
                Work::Interval => {
                    self.interval(sub_file, tally);
                    continue;
                }
                Work::SubFile => {
                    self.sub_file(of.lowest_zoom, tally);
                    continue;
                }
                _ => (),
            }
            let SubFile { grid, lowest_zoom, .. } = *of;
            let zoom = if work == Work::Lowest { lowest_zoom } else { u8::MAX };
            for &tile in work.tiles(of) {
                tally.tiles += 1;
                let address = Address { sub_file, grid, tile };
                let done = match work {
                    Work::Collect | Work::EmptyCollect => self.collect(&address, tally),
                    Work::Fetch => self.fetch(&address, tally),
                    // one call, so that it is inlined with and without the question
                    _ => {
                        if work == Work::Wanted {
                            self.wanted(&address, zoom);
                        }
                        self.stream(&address, zoom, work, tally)
                    }
                };
                done.unwrap_or_else(|refusal| tally.refuse(|| rust_number(refusal)));
            }
        }
    }
}

/// What a call answers: nothing, or the refusal.
fn done(number: u64) -> Result<(), u64> {
    match number {
        0 => Ok(()),
        refusal => Err(refusal),
    }
}

impl Ours<'_> {
    fn interval(&mut self, sub_file: usize, tally: &mut Tally) {
        assert_eq!(self.calls.interval(sub_file), 0, "it opened before");
        tally.calls += 1;
        tally.digest(|fold| fold.words(&self.calls.interval[1..]));
    }

    fn sub_file(&mut self, zoom: u8, tally: &mut Tally) {
        assert_eq!(self.calls.sub_file(zoom), 0, "it opened before");
        tally.calls += 1;
        tally.digest(|fold| fold.words(&self.calls.found[6..]));
    }

    fn stream(
        &mut self,
        address: &Address,
        zoom: u8,
        work: Work,
        tally: &mut Tally,
    ) -> Result<(), u64> {
        let calls = &mut self.calls;
        done(calls.stream_open(address, zoom))?;
        let mut waits = false;
        loop {
            done(if waits { calls.stream_skip() } else { calls.stream_next() })?;
            waits = false;
            match calls.next.words[6] {
                POINT => {
                    tally.points += 1;
                    tally.digest(|fold| point(fold, calls));
                }
                WAY => {
                    tally.ways += 1;
                    tally.digest(|fold| head(fold, calls));
                    match work {
                        Work::Skip => waits = true,
                        Work::Decline => done(calls.stream_decline())?,
                        _ => {
                            done(match work {
                                Work::Wanted => calls.stream_accept_in(self.lengths),
                                _ => calls.stream_accept(),
                            })?;
                            tally.blocks += calls.accepted.words[6];
                            tally.nodes += calls.accepted.words[7];
                            tally.digest(|fold| way(fold, calls));
                        }
                    }
                }
                _ => {
                    tally.digest(|fold| fold.words(&calls.next.words[19..21]));
                    return Ok(());
                }
            }
        }
    }

    /// Asks what the tile wants if all ways are accepted. Where that is refused, so is its stream, which is made to its refusal
    /// with lists that are long enough.
    fn wanted(&mut self, address: &Address, zoom: u8) {
        let calls = &mut self.calls;
        self.lengths = match calls.wanted(address, zoom) {
            0 => [calls.wanted[8], calls.wanted[9]].map(|length| length as usize),
            _ => [calls.lists.node_counts.len(), calls.lists.latitudes.len()],
        };
    }

    fn collect(&mut self, address: &Address, tally: &mut Tally) -> Result<(), u64> {
        let calls = &mut self.calls;
        done(calls.collect(address))?;
        tally.points += calls.collected.words[11];
        tally.ways += calls.collected.words[12];
        tally.digest(|fold| collected(fold, calls));
        Ok(())
    }

    fn fetch(&mut self, address: &Address, tally: &mut Tally) -> Result<(), u64> {
        self.collect(address, tally)?;
        let calls = &mut self.calls;
        let [points, ways] = [calls.collected.words[11], calls.collected.words[12]];
        for feature in 0..points + ways {
            done(calls.fetch(feature))?;
            // a point leaves the words of a way as they were
            if calls.fetched.words[6] == WAY {
                tally.blocks += calls.fetched.words[32];
                tally.nodes += calls.fetched.words[33];
            }
            tally.digest(|fold| fetched(fold, calls));
        }
        Ok(())
    }
}

fn header(fold: &mut Fold, calls: &Calls) {
    let opened = &calls.opened;
    tally::degrees(fold, [opened.degrees[0], opened.degrees[1]]);
    tally::degrees(fold, [opened.degrees[2], opened.degrees[3]]);
    fold.words(&opened.words[7..13]);
    fold.words(&[opened.words[30], opened.words[32], opened.words[33]]);
}

fn point(fold: &mut Fold, calls: &Calls) {
    let next = &calls.next;
    tally::degrees(fold, next.degrees);
    fold.word(next.signed[0] as u64);
    ids(fold, next.words[7], &next.ids);
    stream_text(fold, calls, &next.words[11..14]);
    stream_text(fold, calls, &next.words[14..17]);
    tally::number(fold, (next.words[17] == 1).then_some(next.signed[1]));
}

fn head(fold: &mut Fold, calls: &Calls) {
    fold.word(calls.next.words[18]);
    ids(fold, calls.next.words[7], &calls.next.ids);
}

fn way(fold: &mut Fold, calls: &Calls) {
    let accepted = &calls.accepted;
    fold.word(calls.next.signed[0] as u64);
    accepted.words[8..17].chunks(3).for_each(|part| stream_text(fold, calls, part));
    label(fold, accepted.words[17], accepted.degrees);
    blocks(fold, calls, accepted.words[6], |_, _| ());
}

fn collected(fold: &mut Fold, calls: &Calls) {
    let collected = &calls.collected;
    fold.words(&[collected.words[10], collected.words[9]]);
    for row in 0..collected.words[9] as usize {
        fold.words(&[collected.points[row], collected.ways[row]]);
    }
}

fn fetched(fold: &mut Fold, calls: &Calls) {
    let got = &calls.fetched;
    let layer = got.signed[0] as u64;
    if got.words[6] == POINT {
        tally::degrees(fold, got.degrees);
        fold.word(layer);
    } else {
        fold.words(&[got.words[30], layer, got.words[31]]);
    }
    ids(fold, got.words[7], &got.ids);
    texts(fold, calls);
    if got.words[6] == POINT {
        return tally::number(fold, (got.words[29] == 1).then_some(got.signed[1]));
    }
    label(fold, got.words[34], got.degrees);
    blocks(fold, calls, got.words[32], |fold, block| {
        let lists = &calls.lists;
        let initial = [lists.initial_latitudes[block], lists.initial_longitudes[block]];
        tally::degrees(fold, initial);
    });
}

/// The texts of the buffer, and then of each of them the tag.
fn texts(fold: &mut Fold, calls: &Calls) {
    let got = &calls.fetched;
    let tags = &got.tags[..5 * got.words[7] as usize];
    let others = &got.words[11..29];
    let mut at = 0;
    let mut next = |size: u64| {
        let start = at;
        at += size as usize;
        &calls.lists.buffer[start..at]
    };
    for tag in tags.chunks(5) {
        tally::text(fold, Some(next(tag[0])));
    }
    for text in others.chunks(6) {
        tally::text(fold, (text[0] == 1).then(|| next(text[1])));
    }
    tags.chunks(5).for_each(|tag| fold.words(&tag[1..]));
    others.chunks(6).filter(|text| text[0] == 1).for_each(|text| fold.words(&text[2..]));
}

/// The nodes of each block, with what stands before them.
fn blocks(fold: &mut Fold, calls: &Calls, count: u64, before: impl Fn(&mut Fold, usize)) {
    let lists = &calls.lists;
    let mut at = 0;
    for block in 0..count as usize {
        before(fold, block);
        let nodes = lists.node_counts[block];
        fold.word(nodes);
        for _ in 0..nodes {
            tally::degrees(fold, [lists.latitudes[at], lists.longitudes[at]]);
            at += 1;
        }
    }
}

fn label(fold: &mut Fold, there: u64, degrees: [f64; 2]) {
    fold.word(there);
    tally::degrees(fold, if there == 1 { degrees } else { [0.0; 2] });
}

fn ids(fold: &mut Fold, count: u64, ids: &[u64; 15]) {
    tally::ids(fold, ids[..count as usize].iter().copied());
}

/// A part of the map. The Rust's stream gives an ill-formed text as the empty one.
fn stream_text(fold: &mut Fold, calls: &Calls, part: &[u64]) {
    let [there, place, size] = [part[0], part[1], part[2]].map(|word| word as usize);
    let bytes = &calls.map[place..place + size];
    let text = std::str::from_utf8(bytes).unwrap_or_default();
    tally::text(fold, (there == 1).then_some(text.as_bytes()));
}
