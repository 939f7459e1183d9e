//! `mapsforge report`: one page with verdicts, findings, pictures and what must be shown, looked at by a browser where there is
//! one.

mod common;

use common::{
    command, cut, limited, map_bytes, map_path, replaced, run, shipped, text, tool, written,
};
use std::process::Command;
use std::time::Duration;

/// Writes a report, and gives it with what the command said.
fn report(name: &str, words: &[&str], status: i32) -> (String, String, String) {
    let path = text(&written(name, b""));
    let output = run(&[&["report", "-o", &path][..], words].concat());
    let told = |bytes: Vec<u8>| String::from_utf8(bytes).expect("it is UTF-8");
    let (out, complaints) = (told(output.stdout), told(output.stderr));
    assert_eq!(output.status.code(), Some(status), "{words:?}: {complaints}");
    (std::fs::read_to_string(path).expect("the page is written"), out, complaints)
}

const REQUIRED: [&str; 2] = ["--must-show", "amenity=ferry_terminal"];

#[test]
fn the_page_has_verdicts_findings_and_pictures() {
    let (islands, short) = (shipped("islands.map"), shipped("short-size.map"));
    let words = [&[islands.as_str(), &short][..], &REQUIRED].concat();
    let (page, told, complaints) = report("both.html", &words, 1);
    assert_eq!(told, format!("PASS: {islands}\nDO NOT USE: {short}\n"));
    assert_eq!(complaints, "");
    assert!(page.starts_with("<!DOCTYPE html>\n<html lang=\"en\">"));
    assert!(page.contains("<title>Maps: DO NOT USE 1 map</title>"));
    assert_eq!(page.matches("<span class=\"verdict pass\">PASS</span>").count(), 2);
    assert_eq!(page.matches("<span class=\"verdict fail\">DO NOT USE</span>").count(), 2);
    // The finding, as a row of a table.
    for cell in [
        "<td data-of=\"Feature\">way 9 &quot;Kirkegata&quot;, highway=residential maxspeed=%b, at 62.262883, 0.039900, zoom 13 to 21</td>",
        "<td data-of=\"Where\">sub file 2, tile 10 (13/4096/2272), byte 23258</td>",
        "<td data-of=\"What is wrong\">its stored size is 34, its decoded length 35: 1 byte too short</td>",
    ] {
        assert!(page.contains(cell), "{cell} is missing");
    }
    // Both pictures of its tile, with what differs.
    assert_eq!(
        page.matches(
            ">list: every way is decoded. Pale, without names: what the panel declines</text>"
        )
        .count(),
        1
    );
    assert_eq!(page.matches("by stored sizes. 16 features missing</text>").count(), 1);
    assert!(page.contains("<li>list and panel differ: 16 features only in the list"));
    // What must be shown, with its positions, for each map, and pictures in which it is named.
    let row = "<td data-of=\"Feature\">point <b>Rampe 2</b></td>\
                <td data-of=\"Tags\">amenity=ferry_terminal</td>\
                <td data-of=\"Position\">62.265446, 0.040366</td>\
                <td data-of=\"Tile\">13/4096/2272</td>";
    assert_eq!(page.matches(row).count(), 2);
    assert!(page.matches(">Rampe 2</text>").count() >= 4);
    let caption = "<figcaption>Havnby ferjekai, Rampe 1, Rampe 2, Rampe 3: 800 metres around";
    assert_eq!(page.matches(caption).count(), 2);
}

/// Nothing is fetched: the only address is the name of SVG's own elements.
#[test]
fn the_page_needs_no_network() {
    let (page, _, _) = report("alone.html", &[&shipped("short-size.map")], 1);
    let addresses = page.matches("://").count();
    assert_eq!(addresses, page.matches("xmlns=\"http://www.w3.org/2000/svg\"").count());
    for word in ["<script", "<link", "<img", "<iframe", "src=", "@import", "url("] {
        assert!(!page.contains(word), "{word}");
    }
}

#[test]
fn a_map_that_passes_has_a_picture_too() {
    let (page, told, _) = report("pass.html", &[&shipped("islands.map")], 0);
    assert!(told.starts_with("PASS: "));
    assert!(page.contains("<title>Maps: PASS</title>") && page.contains(">Rampe 2</text>"));
}

#[test]
fn the_status_is_that_of_check() {
    let islands = shipped("islands.map");
    let (page, _, told) = report("none.html", &[&islands, "--must-show", "amenity=casino"], 1);
    assert!(told.contains("the map has no feature with amenity=casino"), "{told}");
    assert!(page.contains("<p class=\"bad\">the map has no feature with amenity=casino</p>"));
    let none = text(&written("report-none.map", b"no map, but a text that is long enough"));
    let (page, told, complaints) = report("unseen.html", &[&none, &islands], 2);
    assert!(page.contains("this is not a Mapsforge map") && told.contains("DO NOT USE: "));
    assert!(complaints.contains("this is not a Mapsforge map"), "{complaints}");
    let (page, _, _) = report("cut.html", &[&cut("report", "islands.map", 20000)], 1);
    assert!(page.contains("way 49 is refused with 1"));
    assert!(page.contains("tile 13/4096/2271 is refused with 1, and nothing more of it is drawn"));
}

#[test]
fn texts_of_a_map_are_no_markup() {
    let bytes = replaced(map_bytes("short-size.map"), b"Kirkegata", b"<b>&x</b>");
    let bytes = replaced(bytes, b"Rampe 2", "Ra\u{202e}e2".as_bytes());
    let path = text(&written("markup.map", &bytes));
    let (page, _, _) = report("markup.html", &[&[path.as_str()][..], &REQUIRED].concat(), 1);
    assert!(page.contains("&lt;b&gt;&amp;x&lt;/b&gt;") && !page.contains("<b>&x"));
    assert!(page.contains("Ra\\u{202e}e2") && !page.contains('\u{202e}'));
}

#[test]
fn standard_input_and_output() {
    let map = std::fs::File::open(map_path("short-size.map")).unwrap();
    let output = command().args(["report", "-"]).stdin(map).output().unwrap();
    assert_eq!(output.status.code(), Some(1));
    let page = String::from_utf8(output.stdout).unwrap();
    assert!(page.starts_with("<!DOCTYPE html>") && page.contains("16 features missing</text>"));
}

/// What a browser makes of the page: the width of the window and of the page, and what is seen.
fn looked_at(browser: &str, page: &str, width: u32) -> Vec<f64> {
    // The page itself has no script; this copy has one that measures.
    let script = "<script>document.title=[innerWidth,document.documentElement.scrollWidth,\
                  document.querySelectorAll('.pictures>svg').length,\
                  document.querySelectorAll('tr').length,\
                  getComputedStyle(document.querySelector('thead')).display==='none'?1:0,\
                  Math.max(...[...document.querySelectorAll('.pictures>svg')].map(one=>one.getBoundingClientRect().right))\
                  ].join(' ')</script>\n</body>";
    let copy =
        written(&format!("looked-at-{width}.html"), page.replace("</body>", script).as_bytes());
    let shot = text(&written(&format!("looked-at-{width}.png"), b""));
    let profile =
        std::path::Path::new(env!("CARGO_TARGET_TMPDIR")).join(format!("profile-{width}"));
    let start = |what: &str| {
        let mut command = Command::new(browser);
        command.args(["--headless", "--no-sandbox", "--disable-gpu", "--hide-scrollbars", what]);
        command.arg(format!("--user-data-dir={}", profile.display()));
        command.arg(format!("--window-size={width},900")).arg(format!("file://{}", copy.display()));
        limited(&mut command, Duration::from_secs(120))
    };
    start(&format!("--screenshot={shot}"));
    let picture = std::fs::read(&shot).expect("there is a picture");
    assert!(picture.starts_with(b"\x89PNG") && picture.len() > 10_000, "{} bytes", picture.len());
    let shown = String::from_utf8(start("--dump-dom").stdout).expect("the page is UTF-8");
    let title = shown.split("<title>").nth(1).and_then(|rest| rest.split("</title>").next());
    title.expect("it has a title").split(' ').map(|word| word.parse().expect("a number")).collect()
}

/// At two sizes of the window nothing sticks out, the pictures are drawn, and the tables fit: as tables, or row by row.
#[test]
fn a_browser_shows_the_page_at_two_sizes() {
    let names = ["chromium", "chromium-browser", "google-chrome"];
    let Some(browser) = tool(&names, "a_browser_shows_the_page_at_two_sizes") else { return };
    let words = [shipped("islands.map"), shipped("short-size.map")];
    let words = [&[words[0].as_str(), &words[1]][..], &REQUIRED].concat();
    let (page, _, _) = report("looked-at.html", &words, 1);
    for (width, rows_apart) in [(1400, 0.0), (500, 1.0)] {
        let seen = looked_at(&browser, &page, width);
        let [inner, page_width, pictures, rows, apart, right] = seen[..] else {
            panic!("{seen:?}")
        };
        assert_eq!(inner, f64::from(width));
        assert!(page_width <= inner && right <= inner, "something sticks out: {seen:?}");
        assert!(pictures >= 8.0 && rows >= 22.0, "{seen:?}");
        assert_eq!(apart, rows_apart, "{seen:?}");
    }
}
