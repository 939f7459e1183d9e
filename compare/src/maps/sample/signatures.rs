//! Maps with the debug flag: the signature at the start of each sub file.

use super::Records;
use crate::maps::writer::{tags, text, Header, Interval, DEBUG, INDEX_SIGNATURE};

/// Document 01's example of row 6.
const PLUSES: &[u8] = &[0x2B; 16];

pub fn add(records: &mut Records) {
    one_sub_file(records);
    starts(records);
    two_sub_files(records);
    inside_header(records);
    behind_the_size(records);
    most_sub_files(records);
}

fn debug_header(starts: &[u64]) -> Header {
    let header = Header { flags: DEBUG, ..Header::tiny() };
    starts.iter().fold(header, |header, &start| header.with_interval([0; 3], start))
}

/// The header's length depends on the number of its intervals alone.
fn end_of_header(intervals: usize) -> u64 {
    debug_header(&vec![0; intervals]).length()
}

/// A right signature, each byte of it wrong, each cut; the same without the flag.
fn one_sub_file(records: &mut Records) {
    let start = end_of_header(1) as usize;
    let header = debug_header(&[start as u64]);
    records.map(&Header { flags: 0, ..header.clone() }.before(PLUSES));
    records.map(&header.before(PLUSES));
    records.map(&header.before(&[INDEX_SIGNATURE, PLUSES].concat()));
    let map = header.before(INDEX_SIGNATURE);
    records.map(&map);
    records.all_cuts();
    records.all_damages();
    for (place, byte) in INDEX_SIGNATURE.iter().enumerate() {
        records.damage(start + place, byte ^ 0x20);
        records.cut(start + place);
    }
}

/// Starts around the map's end and around the end of all places.
fn starts(records: &mut Records) {
    let end = end_of_header(1) + 16;
    let near = [0, 1, 20, end - 17, end - 15, end - 1, end, end + 1, 1 << 32, 1 << 63];
    let far = [u64::MAX - 31, u64::MAX - 16, u64::MAX - 15, u64::MAX - 14, u64::MAX - 1, u64::MAX];
    for start in near.into_iter().chain(far) {
        records.map(&debug_header(&[start]).before(INDEX_SIGNATURE));
    }
}

/// The first bad signature is refused, be it wrong or cut off.
fn two_sub_files(records: &mut Records) {
    let good = end_of_header(2);
    let (wrong, cut) = (0, good + 16);
    for starts in [
        [good, good],
        [good, wrong],
        [wrong, good],
        [good, cut],
        [cut, good],
        [wrong, cut],
        [cut, wrong],
        [u64::MAX, wrong],
    ] {
        records.map(&debug_header(&starts).before(INDEX_SIGNATURE));
    }
}

/// A sub file may start anywhere, also in a text or across the header's end.
fn inside_header(records: &mut Records) {
    let start = Header { comment: Some(Vec::new()), ..debug_header(&[]) }.length() - 5;
    let with_comment = |header: Header| Header {
        comment: Some(text(INDEX_SIGNATURE)),
        poi_tags: tags(&[b"+"]),
        ..header
    };
    for start in [start, start + 1, start + 2] {
        records.map(&with_comment(debug_header(&[start])).bytes());
    }
    // the stored size of the interval ends with the first bytes of the signature
    let size = u64::from_be_bytes(*b"....+++I");
    let intervals = vec![Interval { zooms: [0; 3], start: end_of_header(1) - 4, size }];
    records.map(&Header { intervals, ..debug_header(&[]) }.before(&INDEX_SIGNATURE[4..]));
}

/// Header size 0 is refused before any signature is read.
fn behind_the_size(records: &mut Records) {
    for start in [0, end_of_header(1), u64::MAX] {
        let header = Header { header_size: Some(0), ..debug_header(&[start]) };
        records.map(&header.before(INDEX_SIGNATURE));
    }
}

/// All sub files at one place, of which the last is right or wrong.
fn most_sub_files(records: &mut Records) {
    let mut starts = vec![end_of_header(255); 255];
    records.map(&debug_header(&starts).before(INDEX_SIGNATURE));
    starts[254] = 0;
    records.map(&debug_header(&starts).before(INDEX_SIGNATURE));
}
