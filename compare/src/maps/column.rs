//! Columns and longitudes, which need no map.

use mapsforge_rs::io::ByteRead;
use mapsforge_rs::types::MapFile;

use super::given;
use crate::answer::{signed, Answer};
use crate::differences;
use crate::source::Source;

/// The longitude half of `get_tiles`.
pub fn of_longitude(input: &mut Source) -> Answer {
    let longitude = f64::from_bits(given(input.read_u64_be()));
    let zoom = given(input.read_u8());
    differences::zoom(zoom).unwrap_or_else(|| {
        let column = MapFile::<Source>::get_tiles_column(longitude, zoom);
        let [negative, magnitude] = signed(i64::from(column));
        vec![0, negative, magnitude]
    })
}

/// `tilex2long`.
pub fn longitude(input: &mut Source) -> Answer {
    let (column, zoom) = (given(input.read_u32_be()), given(input.read_u8()));
    differences::zoom(zoom)
        .unwrap_or_else(|| vec![0, MapFile::<Source>::tilex2long(column, zoom).to_bits()])
}
