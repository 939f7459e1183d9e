//! Zoom intervals, and which of them is the first to hold a zoom.

use super::Records;
use crate::maps::writer::{Header, Interval};

pub fn add(records: &mut Records) {
    for (zooms, asked) in LAYOUTS {
        records.map(&layout(zooms).bytes());
        asked.iter().for_each(|&zoom| records.zoom(zoom));
    }
    stored_numbers(records);
    most_intervals(records);
    records.map(b"not a map, which has no intervals");
    records.zoom(0);
}

/// The zooms of each interval, and the zooms to ask for.
const LAYOUTS: [(&[[u8; 3]], &[u8]); 10] = [
    (&[], &[0, 14, 255]),
    (&[[10, 8, 12]], &[0, 7, 8, 9, 10, 11, 12, 13, 30, 127, 128, 136, 255]),
    // the base zoom need not be in the interval
    (&[[30, 8, 12]], &[8, 12, 30]),
    (&[[5, 7, 7]], &[6, 7, 8]),
    (&[[0, 0, 255]], &[0, 128, 255]),
    (&[[255, 255, 255]], &[0, 254, 255]),
    // a reversed interval holds nothing
    (&[[8, 9, 8]], &[7, 8, 9, 10]),
    (&[[8, 255, 0], [9, 0, 255]], &[0, 8, 255]),
    (&[[5, 0, 7], [10, 8, 11], [14, 12, 21]], &[0, 7, 8, 11, 12, 21, 22, 255]),
    // overlaps and a gap: the first one that holds the zoom
    (&[[14, 12, 21], [5, 0, 12], [5, 0, 7], [30, 20, 25]], &[0, 7, 12, 13, 20, 21, 22, 25, 26]),
];

fn layout(zooms: &[[u8; 3]]) -> Header {
    zooms.iter().fold(Header::tiny(), |header, &zooms| header.with_interval(zooms, 0))
}

/// Starts and sizes are read and not judged.
fn stored_numbers(records: &mut Records) {
    for number in [0, 1, 1 << 32, 1 << 63, u64::MAX] {
        for (start, size) in [(number, 5), (5, number)] {
            let intervals = vec![Interval { zooms: [1, 2, 3], start, size }];
            records.map(&Header { intervals, ..Header::tiny() }.bytes());
        }
    }
}

/// As many intervals as can be counted, each of one zoom, from the top.
fn most_intervals(records: &mut Records) {
    let intervals = (0..255).map(|k: u8| Interval {
        zooms: [k, 254 - k, 254 - k],
        start: u64::from(k) << 48,
        size: u64::from(k),
    });
    let map = Header { intervals: intervals.collect(), ..Header::tiny() }.bytes();
    records.map(&map);
    (0..=255).for_each(|zoom| records.zoom(zoom));
    for cut in [1, 18, 19, 20, 254 * 19, 255 * 19, 255 * 19 + 1] {
        records.cut(map.len() - cut);
    }
}
