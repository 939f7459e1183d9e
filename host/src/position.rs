//! Places on earth, and offsets within a tile.

use crate::word;
use std::ops::Add;

/// The earth's mean radius in metres (IUGG), by which distances are reckoned.
pub const EARTH_RADIUS: f64 = 6_371_008.8;

/// A place on earth, in degrees.
#[derive(Clone, Copy, Debug, Default, PartialEq)]
pub struct Position {
    /// Degrees to the north.
    pub latitude: f64,
    /// Degrees to the east.
    pub longitude: f64,
}

/// How far one place lies from another, in degrees: a feature from its tile's north-western corner, a label from the first
/// node of its way. An offset is no place: only together with that corner does it give one.
///
/// ```
/// # use mapsforge::MapFile;
/// # let file = MapFile::open(concat!(env!("CARGO_MANIFEST_DIR"), "/../maps/islands.map"))?;
/// # let map = file.map()?;
/// let sub_file = map.sub_file(2)?;
/// let corner = sub_file.corner(sub_file.tile(10).expect("there are 12 tiles"))?;
/// let at = corner + sub_file.collect(10)?.point(3)?.offset;
/// assert_eq!(format!("{:.6} {:.6}", at.latitude, at.longitude), "62.265446 0.040366");
/// # Ok::<(), Box<dyn std::error::Error>>(())
/// ```
#[derive(Clone, Copy, Debug, Default, PartialEq)]
pub struct Offset {
    /// Degrees to the north.
    pub latitude: f64,
    /// Degrees to the east.
    pub longitude: f64,
}

impl Offset {
    /// An offset of two degrees as the library gives them.
    pub(crate) fn of(degrees: [f64; word::POSITION_DEGREES]) -> Offset {
        Offset { latitude: degrees[word::LATITUDE], longitude: degrees[word::LONGITUDE] }
    }
}

/// Two offsets one behind the other, as of a way's first node and of its label.
impl Add for Offset {
    type Output = Offset;

    fn add(self, by: Offset) -> Offset {
        Offset { latitude: self.latitude + by.latitude, longitude: self.longitude + by.longitude }
    }
}

/// The place that lies by an offset from this one: the only way from an offset to a place.
impl Add<Offset> for Position {
    type Output = Position;

    fn add(self, by: Offset) -> Position {
        Position { latitude: self.latitude + by.latitude, longitude: self.longitude + by.longitude }
    }
}

impl Position {
    /// The distance to another place in metres, along a great circle of a sphere of [`EARTH_RADIUS`] (the haversine formula).
    ///
    /// ```
    /// use mapsforge::Position;
    ///
    /// let here = Position { latitude: 62.0, longitude: 0.0 };
    /// let there = Position { latitude: 62.001, longitude: 0.0 };
    /// assert_eq!(here.metres_to(there).round(), 111.0);
    /// ```
    pub fn metres_to(self, other: Position) -> f64 {
        let (here, there) = (self.latitude.to_radians(), other.latitude.to_radians());
        let up = ((there - here) / 2.0).sin();
        let across = ((other.longitude - self.longitude).to_radians() / 2.0).sin();
        let half = up * up + here.cos() * there.cos() * across * across;
        2.0 * EARTH_RADIUS * half.sqrt().min(1.0).asin()
    }
}
