//! What is done with a map, and what a side is.

use crate::map::SubFile;
use crate::tally::Tally;

#[derive(Clone, Copy, PartialEq)]
pub enum Work {
    Open,
    /// The interval of each sub file, and the sub file of its lowest zoom: calls on the opened map.
    Interval,
    SubFile,
    /// Streams of all tiles, by what becomes of the ways and by the zoom.
    Accept,
    Decline,
    /// As declined; ours declines and goes on in one call.
    Skip,
    Lowest,
    /// As accepted; ours asks what the tile wants first, and lends lists of just these lengths.
    Wanted,
    Collect,
    Fetch,
    /// The tiles that are marked empty, of ours alone.
    EmptyStream,
    EmptyCollect,
}

/// What both sides do.
pub const WORKS: [Work; 10] = [
    Work::Open,
    Work::Interval,
    Work::SubFile,
    Work::Accept,
    Work::Decline,
    Work::Skip,
    Work::Lowest,
    Work::Wanted,
    Work::Collect,
    Work::Fetch,
];

/// What ours does alone, on the tiles that are marked empty.
pub const OURS_ALONE: [Work; 2] = [Work::EmptyStream, Work::EmptyCollect];

impl Work {
    /// Its word on the command line.
    pub fn word(self) -> &'static str {
        match self {
            Work::Open => "open",
            Work::Interval => "interval",
            Work::SubFile => "sub-file",
            Work::Accept => "accept",
            Work::Decline => "decline",
            Work::Skip => "skip",
            Work::Lowest => "lowest",
            Work::Wanted => "wanted",
            Work::Collect => "collect",
            Work::Fetch => "fetch",
            Work::EmptyStream => "empty-stream",
            Work::EmptyCollect => "empty-collect",
        }
    }

    pub fn name(self) -> &'static str {
        match self {
            Work::Open => "open",
            Work::Interval => "interval",
            Work::SubFile => "sub file of a zoom",
            Work::Accept => "stream, all accepted",
            Work::Decline => "stream, all declined",
            Work::Skip => "stream, all skipped",
            Work::Lowest => "stream, lowest zoom",
            Work::Wanted => "wanted, then stream, all accepted",
            Work::Collect => "collect",
            Work::Fetch => "collect and fetch all",
            Work::EmptyStream => "empty tile, streamed",
            Work::EmptyCollect => "empty tile, collected",
        }
    }

    /// The tiles that it is done on.
    pub fn tiles(self, sub_file: &SubFile) -> &[usize] {
        if OURS_ALONE.contains(&self) {
            return &sub_file.empty;
        }
        &sub_file.tiles
    }

    /// What one of its items is, and how many there were: features, but tiles where most of those are
    /// empty or refused.
    pub fn items(self, tally: &Tally) -> (&'static str, u64) {
        let features = tally.points + tally.ways;
        match self {
            Work::Open => ("map", 1),
            Work::Interval | Work::SubFile => ("call", tally.calls),
            _ if features < tally.tiles => ("tile", tally.tiles),
            _ => ("feature", features),
        }
    }
}

/// A reader with a map that it has opened.
pub trait Side {
    fn run(&mut self, work: Work, tally: &mut Tally);
}
