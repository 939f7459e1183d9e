//! Columns of longitudes and longitudes of columns, at every zoom.

use super::Records;
use crate::random::{repeat, Random};

const SEED: u64 = 0xC01;
/// The highest zoom with columns.
const LAST_ZOOM: u8 = 63;

pub fn add(records: &mut Records) {
    for zoom in 0..=LAST_ZOOM {
        edges(records, zoom);
        special_longitudes(records, zoom);
        random_longitudes(records, zoom);
        columns(records, zoom);
    }
    for zoom in [64, 65, 127, 128, 255] {
        [0.0, 7.5, f64::NAN].iter().for_each(|&longitude| records.column(longitude, zoom));
        [0, 1, u32::MAX].iter().for_each(|&column| records.longitude(column, zoom));
    }
}

/// The west edges of some columns, each with its neighbours on both sides.
fn edges(records: &mut Records, zoom: u8) {
    let all = (1_u64 << zoom) as f64;
    for column in some_columns(zoom) {
        let edge = column as f64 / all * 360.0 - 180.0;
        let mut below = edge;
        let mut above = edge;
        records.column(edge, zoom);
        repeat(3, || {
            (below, above) = (below.next_down(), above.next_up());
            records.column(below, zoom);
            records.column(above, zoom);
        });
    }
}

/// The end of all columns, or of those that i32 counts, two columns before it, and the one west of
/// the map, where flooring would part from truncation.
fn some_columns(zoom: u8) -> Vec<i64> {
    let most = 1 << 31;
    let end = (1_u64 << zoom).min(most as u64) as i64;
    let mut columns = vec![-1, end / 3, end - 1, end];
    if zoom > 31 {
        columns.push(-most);
    }
    columns.dedup();
    columns
}

fn special_longitudes(records: &mut Records, zoom: u8) {
    let magnitudes = [0.0, f64::from_bits(1), 180.0, 190.0, 360.0, 1e300, f64::INFINITY];
    for magnitude in magnitudes {
        records.column(magnitude, zoom);
        records.column(-magnitude, zoom);
    }
    records.column(f64::from_bits(0x7FF8_0000_0000_0000), zoom);
}

/// Any bits but those of NaN, and longitudes on the globe.
fn random_longitudes(records: &mut Records, zoom: u8) {
    let mut random = Random::new(SEED + u64::from(zoom));
    let numbers = std::iter::repeat_with(|| f64::from_bits(random.next()));
    numbers.filter(|number| !number.is_nan()).take(2).for_each(|n| records.column(n, zoom));
    repeat(2, || {
        let share = random.next() as f64 / u64::MAX as f64;
        records.column(share * 360.0 - 180.0, zoom);
    });
}

/// The ends of the zoom's columns and of the numbers for them.
fn columns(records: &mut Records, zoom: u8) {
    let last = ((1_u64 << zoom) - 1).min(u32::MAX.into()) as u32;
    let mut columns = vec![0, 1, 3, last / 3, last / 2, last, last.saturating_add(1)];
    columns.extend([1 << 31, u32::MAX]);
    columns.dedup();
    columns.iter().for_each(|&column| records.longitude(column, zoom));
}
