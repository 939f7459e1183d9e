//! `mapsforge list`, `at` and `export`: features with their places on earth.

mod common;

use common::json::Json;
use common::{
    answer, closed_early, complaint, cut, map_bytes, replaced, run, shipped, text, tool, written,
};

#[test]
fn features_are_listed_by_tag_and_box() {
    let map = shipped("islands.map");
    let all = answer(&["list", &map], 0);
    assert_eq!(all.lines().count(), 408);
    let tagged = answer(&["list", &map, "--tag", "amenity=ferry_terminal"], 0);
    assert_eq!(tagged.lines().count(), 9);
    let one =
        "62.265446, 0.040366    point  \"Rampe 2\"  amenity=ferry_terminal  tile 13/4096/2272\n";
    assert!(tagged.contains(one), "{tagged}");
    assert_eq!(answer(&["list", &map, "--tag", "name=Rampe 2"], 0).lines().count(), 2);
    let either = answer(&["list", &map, "-t", "name=Rampe 2", "-t", "name=Rampe 3,ref=31"], 0);
    assert!(either.lines().count() > 4 && either.contains("Storøya"), "{either}");
    let boxed = answer(&["list", &map, "--bbox", "62.2653,0.0403,62.2655,0.0404"], 0);
    assert!(boxed.contains("point  \"Rampe 2\"") && !boxed.contains("Rampe 3"), "{boxed}");
    // A way whose nodes are all outside touches the box that it goes around.
    assert!(boxed.contains("\"Havnby havn\""), "{boxed}");
    assert_eq!(answer(&["list", &map, "--bbox", "10,10,11,11"], 0), "");
    let low = answer(&["list", &map, "--zoom", "13"], 0);
    assert!(low.lines().count() < 130 && low.contains("Havnby"), "{low}");
    // Every line has its place in the box of the header.
    for line in all.lines() {
        let latitude: f64 = line.split(',').next().unwrap().parse().unwrap();
        assert!((62.25..62.31).contains(&latitude), "{line}");
    }
    let told = |words: &[&str], part: &str| {
        let text = complaint(&[&["list", &map][..], words].concat(), 2);
        assert!(text.contains(part), "{text:?} does not have {part:?}");
    };
    told(&["--bbox", "1,2,3"], "takes SOUTH,WEST,NORTH,EAST behind --bbox, not \"1,2,3\"");
    told(&["--bbox", "2,1,1,2"], "in this order");
    told(&["--zoom", "40"], "no sub file has zoom 40");
    told(&["--tag", ""], "takes KEY or KEY=VALUE behind --tag, not \"\"");
}

#[test]
fn what_is_at_a_place_is_told() {
    let map = shipped("islands.map");
    let told = answer(&["at", &map, "62.2654,0.0403", "--zoom", "16", "--within", "40"], 0);
    let lines: Vec<_> = told.lines().collect();
    assert_eq!(lines[0], "62.265400, 0.040300 at zoom 16: sub file 2, tile 10 (13/4096/2272)");
    assert!(told.contains("   6.1 m  point 3  \"Rampe 2\"  amenity=ferry_terminal\n"), "{told}");
    assert!(told.contains("   0.0 m  way 4  \"Havnby havn\""), "{told}");
    let away: Vec<f64> = lines[1..]
        .iter()
        .map(|line| line.split_whitespace().next().unwrap().parse().unwrap())
        .collect();
    assert!(away.windows(2).all(|pair| pair[0] <= pair[1]) && away.len() > 4, "{told}");
    assert!(away.iter().all(|metres| *metres <= 40.0));
    let tagged =
        answer(&["at", &map, "62.2654,0.0403", "--tag", "leisure=slipway", "--within", "200"], 0);
    assert_eq!(tagged.lines().count(), 4, "{tagged}");
    // A place near a corner has features of the tiles around it.
    let corner = answer(&["at", &map, "62.2679,0.0439", "--within", "300"], 0);
    assert!(corner.lines().count() > 10, "{corner}");
    // A way that two of them have is told once.
    assert_eq!(corner.matches("Havnby–鷗島").count(), 1, "{corner}");
    let none = answer(&["at", &map, "-10.5,-20.25"], 0);
    assert_eq!(none, "-10.500000, -20.250000 at zoom 21: no tile of the map\n");
    for (words, part) in [
        (&["north"][..], "takes LAT,LON in degrees, not \"north\""),
        (&["62,0", "--within", "-1"], "takes a number of metres from 0 on"),
        (&[], "at needs LAT,LON"),
    ] {
        let text = complaint(&[&["at", &map][..], words].concat(), 2);
        assert!(text.contains(part), "{text:?} does not have {part:?}");
    }
}

#[test]
fn geojson_has_every_feature() {
    let map = shipped("islands.map");
    let document = Json::parse(&answer(&["export", &map, "--geojson"], 0));
    assert_eq!(document.get("type").text(), "FeatureCollection");
    let features = document.get("features").list();
    assert_eq!(features.len(), 408);
    let mut kinds = std::collections::BTreeMap::new();
    for feature in features {
        assert_eq!(feature.names(), ["type", "id", "geometry", "properties"]);
        let geometry = feature.get("geometry");
        let kind = geometry.get("type").text();
        *kinds.entry(kind).or_insert(0) += 1;
        let positions = match kind {
            "Point" => vec![geometry.get("coordinates")],
            "LineString" => geometry.get("coordinates").list().iter().collect(),
            "Polygon" => {
                let rings = geometry.get("coordinates").list();
                for (k, ring) in rings.iter().enumerate() {
                    check_ring(ring.list(), k == 0);
                }
                rings.iter().flat_map(Json::list).collect()
            }
            "MultiLineString" => {
                geometry.get("coordinates").list().iter().flat_map(Json::list).collect()
            }
            "MultiPolygon" => {
                let polygons = geometry.get("coordinates").list();
                polygons.iter().flat_map(Json::list).flat_map(Json::list).collect()
            }
            other => panic!("{other}"),
        };
        for position in positions {
            let [longitude, latitude] = position.list() else { panic!("{position:?}") };
            assert!((-0.1..0.1).contains(&longitude.number()), "{position:?}");
            assert!((62.2..62.4).contains(&latitude.number()), "{position:?}");
        }
    }
    assert_eq!(kinds["Point"], 78);
    assert!(kinds["LineString"] > 50 && kinds["Polygon"] > 100, "{kinds:?}");
    let point = features.iter().find(|feature| {
        let properties = feature.get("properties");
        properties.has("name") && properties.get("name").text() == "Rampe 2"
    });
    let point = point.expect("it is there");
    assert_eq!(point.get("id").text(), "2:10:point:3");
    assert_eq!(point.get("properties").get("amenity").text(), "ferry_terminal");
    let names: Vec<_> = features
        .iter()
        .filter(|feature| feature.get("properties").has("name:en"))
        .map(|feature| feature.get("properties").get("name:en").text())
        .collect();
    assert!(names.contains(&"Harbour Town"), "{names:?}");
    // A value that the feature stores itself is not given.
    let town = features.iter().find(|feature| feature.get("properties").has("population"));
    assert_eq!(town.unwrap().get("properties").get("population"), &Json::Null);
}

/// A ring ends where it starts; outlines go against the clock, holes with it.
fn check_ring(ring: &[Json], outline: bool) {
    assert!(ring.len() > 3 && ring.first() == ring.last(), "{ring:?}");
    let at = |k: usize| (ring[k].list()[0].number(), ring[k].list()[1].number());
    let cross = |k: usize| at(k).0 * at(k + 1).1 - at(k + 1).0 * at(k).1;
    let area: f64 = (0..ring.len() - 1).map(cross).sum();
    assert!(area.abs() < 1e-11 || (area > 0.0) == outline, "{area} {outline}");
}

#[test]
fn geojson_goes_to_a_file() {
    let map = shipped("islands.map");
    let path = text(&written("out.geojson", b""));
    let words = ["export", &map, "--geojson", "--tag", "leisure=slipway"];
    assert_eq!(answer(&[&words[..], &["-o", &path]].concat(), 0), "");
    let written = std::fs::read_to_string(&path).unwrap();
    assert_eq!(written, answer(&words, 0));
    assert!(Json::parse(&written).get("features").list().len() >= 3);
    let none = answer(&["export", &map, "--geojson", "--tag", "no=such"], 0);
    assert_eq!(Json::parse(&none).get("features").list(), &[]);
    let told = complaint(&["export", &map], 2);
    assert!(told.contains("export needs --geojson"), "{told}");
    let told = complaint(&["export", &map, "--geojson", "-o", "/no/such/folder/a.json"], 2);
    assert!(told.contains("cannot write /no/such/folder/a.json: no such file"), "{told}");
    let full = complaint(&["export", &map, "--geojson", "-o", "/dev/full"], 2);
    assert!(full.contains("cannot write /dev/full: no space left"), "{full}");
}

/// A program that knows GeoJSON reads it.
#[test]
fn ogrinfo_reads_the_geojson() {
    let Some(ogrinfo) = tool(&["ogrinfo"], "ogrinfo_reads_the_geojson") else { return };
    let path = text(&written("islands.geojson", b""));
    answer(&["export", &shipped("islands.map"), "--geojson", "-o", &path], 0);
    let read = std::process::Command::new(&ogrinfo).args(["-al", "-so", &path]).output().unwrap();
    let told = String::from_utf8_lossy(&read.stdout).into_owned();
    assert!(read.status.success() && told.contains("Feature Count: 408"), "{told}");
    assert!(told.contains("Extent: (-0.0644") && told.contains("amenity: String"), "{told}");
    let one = std::process::Command::new(&ogrinfo)
        .args(["-al", "-where", "name='Rampe 2' AND amenity='ferry_terminal'", &path])
        .output()
        .unwrap();
    let told = String::from_utf8_lossy(&one.stdout).into_owned();
    assert!(told.contains("POINT (0.040366 62.265446)"), "{told}");
}

/// What is refused is told, and the rest is given.
#[test]
fn a_refused_tile_is_told() {
    let path = cut("features", "islands.map", 20000);
    for words in [&["list"][..], &["export", "--geojson"]] {
        let output = run(&[words, &[path.as_str()]].concat());
        assert_eq!(output.status.code(), Some(1), "{words:?}");
        let told = String::from_utf8(output.stderr).unwrap();
        assert!(told.contains("tile 13/4096/2271 is refused with 1: the map ends"), "{told}");
        assert!(told.contains("tile 13/4096/2272 is refused with 20: the head"), "{told}");
        let given = String::from_utf8(output.stdout).unwrap();
        assert!(given.contains("Rampe 7"), "{given}");
        if words[0] == "export" {
            Json::parse(&given);
        }
    }
    let path = cut("features", "islands.map", 12250);
    let told = complaint(&["list", &path], 1);
    assert!(told.contains("refused with 19: the index is cut off"), "{told}");
    let told = run(&["at", &cut("features", "islands.map", 22000), "62.2654,0.0403"]);
    assert_eq!(told.status.code(), Some(1));
}

#[test]
fn texts_of_a_map_cannot_write_on_the_terminal() {
    let bytes = replaced(map_bytes("islands.map"), b"Rampe 2", "Ra\u{202e}e2".as_bytes());
    let bytes = replaced(bytes, b"Rampe 3", b"\x1b[31m\"\n");
    let path = text(&written("terminal.map", &bytes));
    for words in [
        &["list", &path][..],
        &["show", &path, "2:10"],
        &["show", &path, "2:10", "--zoom", "21"],
        &["at", &path, "62.2654,0.0403", "--within", "200"],
        &["export", &path, "--geojson"],
        &["diff", &shipped("islands.map"), &path],
        &["diff", &shipped("islands.map"), &path, "--json"],
        &["svg", &path, "2:10"],
    ] {
        let output = run(words);
        let told = String::from_utf8(output.stdout).unwrap();
        assert!(!told.contains('\u{202e}') && !told.contains('\u{1b}'), "{words:?}");
        assert!(told.contains("202e") && told.to_lowercase().contains("1b"), "{words:?}");
    }
    let parsed =
        Json::parse(&answer(&["export", &path, "--geojson", "--tag", "leisure=slipway"], 0));
    let names = parsed.get("features").list().iter();
    let names: Vec<_> = names.map(|feature| feature.get("properties").get("name").text()).collect();
    assert!(names.contains(&"Ra\u{202e}e2"), "a program gets the name as it is: {names:?}");
}

/// A closed pipe ends these commands at once and quietly.
#[test]
fn a_closed_pipe_is_quiet() {
    for words in [&["list"][..], &["export", "--geojson"]] {
        let output = closed_early(&[words, &[&shipped("islands-debug.map")]].concat());
        assert_eq!(String::from_utf8_lossy(&output.stderr), "");
        assert_eq!(output.status.code(), Some(0));
    }
}
