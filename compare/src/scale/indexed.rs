//! Index and grid of a sub file, columns, and texts.

use mapsforge_rs::types::MapFile;

use super::check::{Call, Check, Checked, Reason};
use super::known::told;
use super::lent::{Fronts, Lent};
use super::library::{self, degree, kept_but, Ask, SIGNED};
use super::opening::maybe;
use crate::answer::Answer;
use crate::differences;
use crate::differences::tile::{Cause, Opened};
use crate::maps::calls::on_grid;
use crate::maps::index;
use crate::random::Random;
use crate::source::Source;
use crate::tiles::Address;

/// The grid of a call for the driver's own questions.
fn input(at: &Address, rest: &[u8]) -> Vec<u8> {
    on_grid(at.sub_file, at.grid, rest)
}

/// `tile_count`.
pub fn count(check: &mut Check, file: &MapFile<Source>, ask: &Ask) -> Checked {
    let rust = index::tile_count(file, &mut Source::new(&input(&ask.at, &[])));
    one(check, Call::TileCount, &library::tile_count(ask), &rust)
}

/// `tile_index_of`.
pub fn tile(check: &mut Check, file: &MapFile<Source>, ask: &Ask, [x, y]: [i32; 2]) -> Checked {
    let place = [x.to_be_bytes(), y.to_be_bytes()];
    let input = input(&ask.at, place.as_flattened());
    let rust = index::tile_index(file, &mut Source::new(&input));
    // only of a good grid of a sub file that is there
    if matches!(rust[..], [0, 1, _]) && differences::tile_index(&ask.at.grid, x, y).is_some() {
        check.settle(Reason::TileNumber);
    }
    one(check, Call::TileIndex, &library::tile_index(ask, [x, y]), &rust)
}

/// An answer of none or one number.
fn one(check: &mut Check, call: Call, ours: &library::Got<8>, rust: &Answer) -> Checked {
    if *rust == [14] {
        check.settle(Reason::Tile(Cause::Grid));
    }
    match rust[..] {
        [0, 0] => check.got(call, ours, 0, &maybe(None)),
        [0, 1, number] => check.got(call, ours, 0, &maybe(Some(number))),
        _ => check.refused(call, ours, rust),
    }
}

/// `tile_index_entry`.
pub fn entry(check: &mut Check, file: &mut MapFile<Source>, ask: &Ask) -> Checked {
    let input = input(&ask.at, &ask.at.tile.to_be_bytes());
    let rust = index::entry(file, &mut Source::new(&input));
    let known = told(rust, Opened::of(file).entry(&ask.at))?;
    let ours = library::index_entry(ask);
    match known[..] {
        [0, ref entry @ ..] => check.got(Call::IndexEntry, &ours, 0, &kept_but(6, entry)),
        _ => check.refused(Call::IndexEntry, &ours, &known),
    }
}

/// The column of a longitude.
pub fn column(check: &mut Check, longitude: f64, zoom: u8) -> Checked {
    let (number, column) = library::column(longitude, zoom);
    check.call(Call::Column, number);
    let rust = match differences::zoom(zoom) {
        Some(refusal) => {
            check.settle(Reason::Zoom);
            (refusal[0], SIGNED[0])
        }
        None => (0, i64::from(MapFile::<Source>::get_tiles_column(longitude, zoom))),
    };
    check.same("a column", (number, column), rust)
}

/// The longitude of a column.
pub fn longitude(check: &mut Check, column: u32, zoom: u8) -> Checked {
    let (number, longitude) = library::longitude(column, zoom);
    check.call(Call::Longitude, number);
    let rust = match differences::zoom(zoom) {
        Some(refusal) => {
            check.settle(Reason::Zoom);
            (refusal[0], degree())
        }
        None => (0, MapFile::<Source>::tilex2long(column, zoom)),
    };
    check.same("a longitude", (number, longitude.to_bits()), (rust.0, rust.1.to_bits()))
}

/// A text with its ill-formed parts replaced, to a buffer of a random length.
pub fn text(check: &mut Check, lent: &mut Lent, text: &[u8], random: &mut Random) -> Checked {
    let replaced = String::from_utf8_lossy(text).into_owned().into_bytes();
    let needed = [0, 0, 0, 0, 0, replaced.len()];
    let lengths = random.lengths(&needed);
    let ours = library::text(text, lent.lists(lengths).buffer);
    if lengths[5] < needed[5] {
        let refusal = [15, 0, 0, 0, 0, 0, needed[5] as u64];
        check.refused(Call::Text, &ours, &refusal)?;
        return lent.check(check, lengths, &Fronts::default());
    }
    check.got(Call::Text, &ours, 0, &kept_but(6, &[needed[5] as u64]))?;
    lent.check(check, lengths, &Fronts { buffer: replaced, ..Fronts::default() })
}
