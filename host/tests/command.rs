//! The command `mapsforge`, as a person runs it.

mod common;

use common::{answer, closed_early, command, complaint, cut, shipped, text, written};

const COMMANDS: [&str; 12] = [
    "check", "diff", "report", "svg", "rules", "list", "at", "export", "info", "tiles", "show",
    "window",
];

#[test]
fn help_and_version() {
    for words in [&["--help"][..], &["-h"], &["help"]] {
        let help = answer(words, 0);
        for name in COMMANDS {
            assert!(help.contains(&format!("mapsforge {name} ")), "{name}");
        }
    }
    for name in COMMANDS {
        let help = answer(&[name, "--help"], 0);
        assert!(help.starts_with(&format!("mapsforge {name} ")), "{name}");
        assert_eq!(answer(&["help", name], 0), help);
        assert_eq!(answer(&[name, "no-such.map", "-h"], 0), help);
    }
    assert_eq!(answer(&["--version"], 0), concat!("mapsforge ", env!("CARGO_PKG_VERSION"), "\n"));
}

#[test]
fn info_says_what_the_header_says() {
    let info = answer(&["info", &shipped("islands.map")], 0);
    for part in [
        "version      5\n",
        "size         29815 bytes\n",
        "box          62.250823 to 62.303923 north, -0.064600 to 0.079800 east\n",
        "languages    nb,en\n",
        "point tags   43\n",
        "sub file 2: base zoom 13, zoom 13 to 21, byte 12233, 17582 bytes, 12 tiles: columns 4094 to 4097, rows 2270 to 2272\n",
    ] {
        assert!(info.contains(part), "{part:?} is missing in {info}");
    }
    assert!(answer(&["info", "--tags", &shipped("islands.map")], 0)
        .contains("way tag 57: wheelchair=yes\n"));
}

#[test]
fn tiles_lists_each_tile() {
    let tiles = answer(&["tiles", &shipped("islands.map")], 0);
    assert_eq!(tiles.lines().count(), 20 + 3 * 2);
    let line = |tile: &str| -> Vec<String> {
        let line = tiles.lines().skip_while(|line| !line.starts_with("sub file 2"));
        let words = line.map(|line| line.split_whitespace().map(String::from).collect::<Vec<_>>());
        words.into_iter().find(|words| words[0] == tile).expect("the tile is listed")
    };
    assert_eq!(line("10"), ["10", "4096", "2272", "35", "141"]);
    assert_eq!(line("8"), ["8", "4094", "2272", "yes", "2", "1"]);
    let short = answer(&["tiles", &shipped("short-size.map")], 0);
    assert_eq!(short.matches("a stored size is wrong").count(), 1);
}

#[test]
fn show_gives_features() {
    let map = shipped("islands.map");
    let shown = answer(&["show", &map, "2:10"], 0);
    assert!(shown.contains("35 points, 141 ways\n"));
    assert!(shown
        .contains("\"Havnby\" (en: \"Harbour Town\")  elevation 12 m  place=town population=%i\n"));
    assert!(shown.contains("  \"Kirkegata\"  cells 1110  highway=residential maxspeed=%b\n"));
    // Each way of naming the tile names the same.
    for tile in ["2:4096,2272", "13/4096/2272", "15/16384/9088"] {
        assert_eq!(answer(&["show", &map, tile], 0), shown);
    }
    let zoomed = answer(&["show", &map, "2:10", "--zoom", "13"], 0);
    assert!(zoomed.ends_with("end: 5 points, 22 ways\n"));
    assert_eq!(answer(&["show", &map, "2:10", "--zoom=2"], 0), zoomed);
    // The whole stream has the lines of the whole tile.
    let whole = answer(&["show", &map, "2:10", "--zoom", "21"], 0);
    let lines = |text: &str| -> Vec<String> {
        let features = text.lines().filter(|line| line.starts_with(['p', 'w', ' ']));
        features.map(String::from).collect()
    };
    assert_eq!(lines(&whole), lines(&shown));
    let nodes = answer(&["show", &map, "2:10", "--nodes"], 0);
    assert!(nodes.contains("block 0: 62.274223, 0.079800\n"));
    assert!(answer(&["show", &shipped("islands-debug.map"), "2:0"], 0)
        .contains("signature \"###TileStart"));
}

#[test]
fn mistakes_are_told_in_a_sentence() {
    let map = shipped("islands.map");
    let told = |words: &[&str], part: &str| {
        let text = complaint(words, 2);
        assert!(text.contains(part), "{text:?} does not have {part:?}");
    };
    told(&[], "name a command");
    told(&["draw"], "there is no command \"draw\"");
    told(&["help", "draw"], "there is no command \"draw\"");
    told(&["info"], "info needs a MAP: see `mapsforge info --help`");
    told(&["show"], "needs a MAP and a TILE");
    told(&["show", &map], "show needs a TILE");
    told(&["info", &map, "more"], "does not know what to do with \"more\"");
    told(&["check", "--fast", &map], "check has no option --fast");
    told(&["check", "--all=1", &map], "takes no value for --all");
    told(&["show", &map, "2:10", "--zoom"], "needs a value behind --zoom");
    told(&["show", &map, "2:10", "--zoom", "high"], "takes a number from 0 to 255 behind --zoom");
    told(&["show", &map, "2-10"], "write SUBFILE:NUMBER, SUBFILE:X,Y or ZOOM/X/Y");
    told(&["show", &map, "3:0"], "there is no sub file 3: the last one is 2");
    told(&["show", &map, "2:12"], "sub file 2 has tiles 2:0 to 2:11");
    told(&["show", &map, "2:1,1"], "columns 4094 to 4097, rows 2270 to 2272");
    told(&["svg", &map, "7/64/35"], "name one as 8/X/Y or 0:NUMBER");
    told(&["svg", &map, "22/0/0"], "no sub file has zoom 22");
    told(
        &["svg", &map, "2:10", "-o", "/no/such/folder/a.svg"],
        "cannot write /no/such/folder/a.svg",
    );
    told(&["info", "no-such.map"], "cannot read no-such.map: no such file or directory");
    told(
        &["info", &text(&common::repository("maps"))],
        "is a folder, not a file: name a map in it",
    );
    told(
        &["check", &text(&written("text.map", b"This is a text, and it is no map at all."))],
        "this is not a Mapsforge map",
    );
    told(&["check", &text(&written("nothing.map", b""))], "it is empty");
}

#[test]
fn a_word_that_is_no_utf8_is_told() {
    let word = std::os::unix::ffi::OsStrExt::from_bytes(b"a\xff.map");
    let output = command().arg("info").arg::<&std::ffi::OsStr>(word).output().expect("it runs");
    assert_eq!(output.status.code(), Some(2));
    assert!(String::from_utf8_lossy(&output.stderr).contains("is not UTF-8"));
}

#[test]
fn a_full_disk_is_told() {
    let full = std::fs::File::create("/dev/full").expect("Linux has it");
    let map = shipped("islands.map");
    let output = command().args(["info", &map]).stdout(full).output().expect("it runs");
    assert_eq!(output.status.code(), Some(2));
    assert!(String::from_utf8_lossy(&output.stderr).contains("cannot write: no space left"));
}

#[test]
fn a_tile_that_is_refused_is_told() {
    let words = [&["show"][..], &["show", "--zoom", "13"], &["svg"]];
    for (length, refused) in [
        (12250, "refused with 19: the index is cut off at byte 12283: the file is incomplete"),
        (12300, "refused with 20: the head of tile 10 is cut off at byte 21740: the file is"),
        (21745, "refused with 20: the head of tile 10 is cut off at byte 21745: the file is"),
        (22000, "refused with 1: the map ends in the middle of what is read"),
    ] {
        let path = cut("told", "islands.map", length);
        for words in words {
            let told = complaint(&[words, &[path.as_str(), "2:10"]].concat(), 1);
            assert!(told.starts_with(&format!("mapsforge: {refused}")), "{told}");
            assert!(length == 22000 || told.ends_with("copy or fetch the map anew\n"), "{told}");
        }
    }
}

#[test]
fn a_closed_pipe_is_quiet() {
    let output = closed_early(&["show", &shipped("islands-debug.map"), "2:10", "--nodes"]);
    assert_eq!(String::from_utf8_lossy(&output.stderr), "");
    assert_eq!(output.status.code(), Some(0));
}
