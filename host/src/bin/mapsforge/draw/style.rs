//! How features are drawn, by their common tags.

use mapsforge::Placed;

/// A feature's tags.
pub type Tags = Vec<(String, String)>;

/// The keys and values of a feature's tags.
pub fn tags(feature: &Placed<'_>) -> Tags {
    let text = |bytes: &[u8]| String::from_utf8_lossy(bytes).into_owned();
    let pairs = feature.tags.iter().map(|tag| tag.key_value());
    pairs.map(|(key, value)| (text(key), text(value))).collect()
}

/// How a way is drawn.
#[derive(Clone, Copy, Debug)]
pub struct Style {
    /// What is drawn later lies above.
    pub rank: u8,
    /// The inside of a closed way.
    pub fill: Option<&'static str>,
    /// The line, its width and its dashes.
    pub stroke: Option<&'static str>,
    pub width: f64,
    pub dash: Option<&'static str>,
    /// A wider line beneath.
    pub casing: Option<&'static str>,
    /// The colour of its name.
    pub ink: &'static str,
}

pub const SEA: &str = "#b9d8e8";
pub const LAND: &str = "#f7f3e8";
const WATER: &str = "#a9cde2";
const DARK: &str = "#4a4a4a";

fn area(rank: u8, fill: &'static str, ink: &'static str) -> Style {
    Style { rank, fill: Some(fill), stroke: None, width: 0.0, dash: None, casing: None, ink }
}

fn line(rank: u8, stroke: &'static str, width: f64, ink: &'static str) -> Style {
    Style { rank, fill: None, stroke: Some(stroke), width, dash: None, casing: None, ink }
}

fn outlined(style: Style, stroke: &'static str, width: f64) -> Style {
    Style { stroke: Some(stroke), width, ..style }
}

fn dashed(style: Style, dash: &'static str) -> Style {
    Style { dash: Some(dash), ..style }
}

/// The style of a way. The tags that say most are asked first.
pub fn of_way(tags: &Tags, closed: bool) -> Style {
    let found = KEYS.iter().find_map(|&key| {
        let (_, value) = tags.iter().find(|(name, _)| name == key)?;
        of_tag(key, value, closed)
    });
    found.unwrap_or(line(20, "#b5b0a8", 1.0, DARK))
}

const KEYS: &[&str] = &[
    "building",
    "highway",
    "railway",
    "route",
    "waterway",
    "natural",
    "man_made",
    "leisure",
    "landuse",
    "amenity",
    "aeroway",
    "aerialway",
    "boundary",
    "seamark:type",
    "power",
    "barrier",
    "piste:type",
    "tourism",
];

fn of_tag(key: &str, value: &str, closed: bool) -> Option<Style> {
    let style = match key {
        "building" => outlined(area(60, "#d5c6b6", "#6b5a48"), "#b09c86", 0.8),
        "highway" => return Some(road(value, closed)),
        "railway" => match value {
            "platform" => area(50, "#d8d8dc", DARK),
            _ => dashed(Style { casing: Some("#77777c"), ..line(45, "#ffffff", 2.0, DARK) }, "9 9"),
        },
        "route" if value == "ferry" => dashed(line(40, "#5c8fb5", 2.0, "#3b6f97"), "10 7"),
        "route" => dashed(line(41, "#c07f6c", 1.5, DARK), "3 5"),
        "waterway" => return Some(waterway(value, closed)),
        "natural" => return natural(value, closed),
        "man_made" => match value {
            "pier" | "quay" | "breakwater" | "groyne" if closed => {
                outlined(area(31, "#dcd7cd", DARK), "#aaa294", 1.0)
            }
            "pier" | "quay" => line(31, "#c9c2b4", 4.0, DARK),
            "breakwater" | "groyne" => line(31, "#aaa294", 5.0, DARK),
            _ => dashed(line(22, "#a5a09a", 1.2, DARK), "8 4"),
        },
        "leisure" => match value {
            "nature_reserve" => dashed(line(21, "#88ab6f", 1.5, "#5d8046"), "8 4"),
            "swimming_pool" | "water_park" => area(15, WATER, "#3b6f97"),
            "slipway" => line(46, "#8d8577", 3.0, DARK),
            "pitch" | "track" | "stadium" | "playground" | "sports_centre" => {
                outlined(area(14, "#c3e0bd", "#4d7a45"), "#9cc295", 0.8)
            }
            _ => area(13, "#d5e8be", "#4d7a45"),
        },
        "landuse" => landuse(value),
        "amenity" => match value {
            "parking" => outlined(area(16, "#efedea", DARK), "#cfcbc4", 0.8),
            "grave_yard" => area(12, "#cfdcc0", "#4d6a45"),
            _ => area(12, "#f1e9cf", "#8a7a4a"),
        },
        "aeroway" => area(12, "#e0dfe6", DARK),
        "aerialway" => line(47, "#7d7d82", 1.5, DARK),
        "boundary" => dashed(line(55, "#b58fb8", 1.6, "#8b6590"), "9 3 2 3"),
        "seamark:type" => line(20, "#95bdd5", 0.8, "#5c8fb5"),
        "power" => line(48, "#b0b0b0", 0.8, DARK),
        "barrier" => line(49, "#b8b0a6", 0.8, DARK),
        "piste:type" => dashed(line(42, "#9fc3e8", 3.0, "#5c8fb5"), "2 5"),
        _ => return None,
    };
    Some(open_area(style, closed))
}

/// A way that is no ring cannot be filled: its outline is drawn.
fn open_area(style: Style, closed: bool) -> Style {
    match style.fill {
        Some(fill) if !closed => {
            Style { fill: None, ..outlined(style, style.stroke.unwrap_or(fill), 1.5) }
        }
        _ => style,
    }
}

fn natural(value: &str, closed: bool) -> Option<Style> {
    let style = match value {
        "sea" => area(1, SEA, "#3b6f97"),
        "nosea" => area(2, LAND, DARK),
        "coastline" if closed => outlined(area(3, LAND, DARK), "#8db3c9", 1.5),
        "coastline" => line(3, "#8db3c9", 1.5, "#3b6f97"),
        "water" | "bay" => outlined(area(15, WATER, "#3b6f97"), "#8fb9d3", 0.8),
        "wood" => area(11, "#c4dbab", "#4d6f35"),
        "heath" | "scrub" | "fell" | "moor" => area(11, "#e0e2b6", "#7a7c40"),
        "wetland" | "marsh" => area(11, "#cfe3d6", "#4a7a6a"),
        "beach" | "sand" => area(11, "#f5e9c0", "#8a7a4a"),
        "glacier" => area(11, "#e6f2f7", "#3b6f97"),
        "cliff" | "tree_row" => line(22, "#a3a08a", 1.2, DARK),
        _ => area(10, "#e6ead2", DARK),
    };
    Some(open_area(style, closed))
}

fn landuse(value: &str) -> Style {
    match value {
        "forest" => area(11, "#c4dbab", "#4d6f35"),
        "meadow" | "grass" | "village_green" | "recreation_ground" | "orchard" | "allotments" => {
            area(12, "#ddebc4", "#5d7a45")
        }
        "vineyard" => area(12, "#dbe3b4", "#6d7a35"),
        "cemetery" => area(12, "#cfdcc0", "#4d6a45"),
        "basin" | "reservoir" => area(15, WATER, "#3b6f97"),
        "residential" | "commercial" | "retail" => area(6, "#ece4d8", "#8a7a6a"),
        "industrial" | "harbour" | "quarry" | "construction" | "railway" => {
            area(7, "#e3dde3", "#7a707a")
        }
        "farmland" | "farm" | "farmyard" => area(6, "#f2ead0", "#8a7a4a"),
        _ => area(6, "#ece8dc", DARK),
    }
}

fn waterway(value: &str, closed: bool) -> Style {
    match value {
        "riverbank" | "dock" if closed => area(15, WATER, "#3b6f97"),
        "river" => line(25, "#92bfdb", 6.0, "#3b6f97"),
        "canal" => line(25, "#92bfdb", 4.0, "#3b6f97"),
        "dam" | "weir" => line(26, "#a5a09a", 2.5, DARK),
        _ => line(24, "#a3c9e0", 2.0, "#3b6f97"),
    }
}

fn road(value: &str, closed: bool) -> Style {
    let cased = |rank, stroke, width, casing| Style {
        casing: Some(casing),
        ..line(rank, stroke, width, DARK)
    };
    match value {
        "motorway" | "motorway_link" | "trunk" | "trunk_link" => {
            cased(39, "#e8a07a", 9.0, "#b8694a")
        }
        "primary" | "primary_link" => cased(38, "#f3c884", 8.0, "#c4944e"),
        "secondary" | "secondary_link" => cased(37, "#f6e3a1", 7.0, "#c4b06a"),
        "tertiary" | "tertiary_link" => cased(36, "#fbf3c9", 6.0, "#c2bb95"),
        "pedestrian" if closed => outlined(area(33, "#eceae4", DARK), "#cfcbc4", 0.8),
        "service" | "pedestrian" => cased(34, "#ffffff", 3.5, "#cdc7bd"),
        "track" => dashed(line(32, "#b99a6b", 1.8, "#8a6f45"), "9 4"),
        "footway" | "path" | "steps" | "cycleway" | "bridleway" => {
            dashed(line(32, "#c07f6c", 1.6, "#8f5848"), "5 4")
        }
        _ => cased(35, "#ffffff", 5.5, "#c3bdb3"),
    }
}

/// How a point is drawn.
#[derive(Clone, Copy, Debug, PartialEq)]
pub enum Mark {
    /// A dot of a radius.
    Dot(&'static str, f64),
    /// A triangle, as for a peak.
    Triangle(&'static str),
    /// Only its name, of a size.
    Name(f64),
}

/// The mark of a point.
pub fn of_point(tags: &Tags) -> Mark {
    let value =
        |key: &str| tags.iter().find(|(name, _)| name == key).map(|(_, value)| value.as_str());
    if let Some(place) = value("place") {
        return Mark::Name(match place {
            "city" | "town" => 22.0,
            "village" | "island" => 18.0,
            _ => 15.0,
        });
    }
    match (value("natural"), value("man_made"), value("amenity")) {
        (Some("peak"), _, _) => return Mark::Triangle("#8a6f45"),
        (Some("tree"), _, _) => return Mark::Dot("#7fae62", 3.5),
        (_, Some("lighthouse" | "beacon"), _) => return Mark::Triangle("#c2503c"),
        (_, _, Some("ferry_terminal")) => return Mark::Dot("#2f6f9f", 6.0),
        (_, _, Some("parking")) => return Mark::Dot("#6f8fc0", 3.5),
        (_, _, Some("bench")) => return Mark::Dot("#a08a70", 2.5),
        (_, _, Some(_)) => return Mark::Dot("#b0713a", 4.0),
        _ => (),
    }
    let dots = [
        ("shop", "#a04a90", 4.0),
        ("tourism", "#3a7a5a", 4.0),
        ("highway", "#3a6fb0", 3.0),
        ("seamark:type", "#3a86a8", 3.5),
        ("railway", "#77777c", 3.0),
    ];
    let dot = dots.into_iter().find(|(key, _, _)| value(key).is_some());
    dot.map_or(Mark::Dot("#8d867c", 2.5), |(_, colour, radius)| Mark::Dot(colour, radius))
}
