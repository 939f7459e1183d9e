//! include/mapsforge.h against the library's own source (crates/exports_c/src/lib.rt) and against src/sys.rs: the same
//! functions, with the same parameters of the same types in the same order. Its names of words against src/word.rs, which
//! the wrapper reads words by. And the header in use, from C.

mod common;

use common::{map_path, program, repository, C};
use mapsforge::{MapFile, Refusal, Step};
use std::collections::{BTreeMap, BTreeSet};
use std::process::Command;

/// A function as all three write it in the end: its parameters, each name with its type in Rust's form, and the type of
/// its answer.
#[derive(Clone, Debug, PartialEq)]
struct Signature {
    parameters: Vec<(String, String)>,
    answer: String,
}

type Functions = BTreeMap<String, Signature>;

/// The three texts.
#[derive(Clone)]
struct Sources {
    header: String,
    rattle: String,
    rust: String,
}

/// A file of the repository.
fn text(path: &str) -> String {
    std::fs::read_to_string(repository(path)).unwrap_or_else(|error| panic!("{path}: {error}"))
}

impl Sources {
    fn read() -> Sources {
        Sources {
            header: text("include/mapsforge.h"),
            rattle: text("crates/exports_c/src/lib.rt"),
            rust: text("host/src/sys.rs"),
        }
    }

    /// What differs, a line for each function.
    fn differences(&self) -> Vec<String> {
        let header = of_header(&self.header);
        let mut all = compare("lib.rt", &header, &of_rattle(&self.rattle));
        all.extend(compare("sys.rs", &header, &of_rust(&self.rust)));
        all
    }
}

fn compare(name: &str, header: &Functions, other: &Functions) -> Vec<String> {
    let mut differences = Vec::new();
    for function in header.keys().chain(other.keys().filter(|key| !header.contains_key(*key))) {
        let (ours, theirs) = (header.get(function), other.get(function));
        if ours != theirs {
            differences.push(format!(
                "{function}\n  mapsforge.h: {}\n  {name}: {}",
                shown(ours),
                shown(theirs)
            ));
        }
    }
    differences
}

fn shown(signature: Option<&Signature>) -> String {
    let Some(Signature { parameters, answer }) = signature else {
        return "is not there".into();
    };
    let parameters: Vec<_> =
        parameters.iter().map(|(name, kind)| format!("{name}: {kind}")).collect();
    format!("({}) -> {answer}", parameters.join(", "))
}

/// The text without its comments.
fn without_comments(text: &str) -> String {
    let mut rest = text;
    let mut plain = String::new();
    while let Some(start) = rest.find("/*") {
        plain.push_str(&rest[..start]);
        let end = rest[start..].find("*/").expect("the comment ends");
        rest = &rest[start + end + 2..];
    }
    plain.push_str(rest);
    let lines = plain.lines().map(|line| line.split("//").next().unwrap_or(""));
    lines.collect::<Vec<_>>().join("\n")
}

/// A text with single blanks.
fn packed(text: &str) -> String {
    text.split_whitespace().collect::<Vec<_>>().join(" ")
}

/// What is written between commas.
fn listed(text: &str) -> impl Iterator<Item = String> + '_ {
    text.split(',').map(packed).filter(|item| !item.is_empty())
}

// ---- C

/// The part of a header that C reads: without preprocessor lines, and without those for C++ alone.
fn for_c(text: &str) -> String {
    let plain = without_comments(text);
    let mut code = String::new();
    for (k, piece) in plain.split("#ifdef __cplusplus").enumerate() {
        let behind = piece.split_once("#endif").map_or("", |(_, behind)| behind);
        code.push_str(if k == 0 { piece } else { behind });
    }
    let lines = code.lines().filter(|line| !line.trim_start().starts_with('#'));
    lines.collect::<Vec<_>>().join("\n")
}

/// The functions of a header: each is `type name(parameters);`, and nothing else there has parentheses.
fn of_header(text: &str) -> Functions {
    let code = for_c(text);
    let mut functions = Functions::new();
    for statement in code.split(';') {
        let Some((front, behind)) = statement.split_once('(') else { continue };
        let parameters = behind.trim_end().strip_suffix(')').expect("the parameters end");
        let (answer, name) = declared(&packed(front));
        let parameters = listed(parameters).map(|item| c_parameter(&item)).collect();
        let answer = c_scalar(&answer).into();
        let before = functions.insert(name.clone(), Signature { parameters, answer });
        assert_eq!(before, None, "{name} is declared twice");
    }
    functions
}

/// The type and the name of a declaration.
fn declared(text: &str) -> (String, String) {
    let at = text.rfind([' ', '*']).unwrap_or_else(|| panic!("no type: {text:?}"));
    (text[..=at].trim().into(), text[at + 1..].into())
}

fn c_scalar(kind: &str) -> &'static str {
    match kind {
        "uint8_t" => "u8",
        "uint16_t" => "u16",
        "uint32_t" => "u32",
        "uint64_t" => "u64",
        "int32_t" => "i32",
        "int64_t" => "i64",
        "size_t" => "usize",
        "double" => "f64",
        "bool" => "bool",
        other => panic!("mapsforge.h has the type {other:?}, which the test does not know"),
    }
}

fn c_parameter(text: &str) -> (String, String) {
    let (plain, access) = match text.strip_prefix("const ") {
        Some(plain) => (plain, "const"),
        None => (text, "mut"),
    };
    if let Some((front, length)) = plain.split_once('[') {
        let (kind, name) = declared(front);
        let length: usize = length.trim_end_matches(']').parse().expect("the array has a length");
        return (name, format!("*{access} [{}; {length}]", c_scalar(&kind)));
    }
    let (kind, name) = declared(plain);
    match kind.strip_suffix('*') {
        Some(target) => (name, format!("*{access} {}", c_scalar(target.trim()))),
        None => {
            assert_eq!(access, "mut", "a number needs no const: {text:?}");
            (name, c_scalar(&kind).into())
        }
    }
}

// ---- Rattle and Rust

/// The functions behind a mark, as `mark name(parameters) -> type`.
fn functions(
    text: &str,
    mark: &str,
    parameter: impl Fn(&str, &str) -> Vec<(String, String)>,
) -> Functions {
    let plain = without_comments(text);
    let mut functions = Functions::new();
    for piece in plain.split(mark).skip(1) {
        let (name, rest) = piece.split_once('(').expect("the function has parameters");
        let (parameters, rest) = rest.split_once(')').expect("the parameters end");
        let answer = rest.trim_start().strip_prefix("->").expect("the function has an answer");
        let answer =
            answer.split(|c: char| c.is_whitespace() || c == ';').find(|word| !word.is_empty());
        let parameters = listed(parameters)
            .flat_map(|item| {
                let (name, kind) = item.split_once(':').expect("a parameter has a type");
                parameter(name.trim(), kind.trim())
            })
            .collect();
        let answer = answer.expect("the answer has a type").into();
        let before = functions.insert(name.trim().into(), Signature { parameters, answer });
        assert_eq!(before, None, "{name} is there twice");
    }
    functions
}

fn of_rust(text: &str) -> Functions {
    functions(text, "pub fn ", |name, kind| vec![(name.into(), kind.into())])
}

/// A slice goes as its address and its length, an array by its address.
fn of_rattle(text: &str) -> Functions {
    functions(text, "pub extern \"C\" fn ", |name, kind| {
        let (access, target) = match (kind.strip_prefix("&mut "), kind.strip_prefix('&')) {
            (Some(target), _) => ("mut", target),
            (None, Some(target)) => ("const", target),
            (None, None) => return vec![(name.into(), kind.into())],
        };
        let inside = target.strip_prefix('[').and_then(|target| target.strip_suffix(']'));
        let inside = inside.unwrap_or_else(|| {
            panic!("lib.rt has the type {kind:?}, which the test does not know")
        });
        if inside.contains(';') {
            return vec![(name.into(), format!("*{access} {target}"))];
        }
        vec![(name.into(), format!("*{access} {inside}")), (format!("{name}_len"), "usize".into())]
    })
}

/// The parameters and clauses of the functions behind a mark, by name.
fn promises(text: &str, mark: &str) -> BTreeMap<String, String> {
    let pieces = text.split(mark).skip(1).map(|piece| {
        let (head, _) = piece.split_once("\n{\n").expect("the function has a body");
        let head = packed(head).replace("( ", "(").replace(", )", ")");
        let (name, rest) = head.split_once('(').expect("the function has parameters");
        (name.to_string(), rest.to_string())
    });
    pieces.collect()
}

/// What is linked promises what the theorems on programs in other languages take from the library `exports`.
#[test]
fn what_is_linked_promises_what_the_library_does() {
    let linked = promises(&text("crates/exports_c/src/lib.rt"), "\npub extern \"C\" fn ");
    assert_eq!(linked.len(), 26);
    assert!(linked.values().all(|promise| promise.contains(" ensures { ")));
    assert_eq!(linked, promises(&text("crates/exports/src/lib.rt"), "\npub fn "));
}

#[test]
fn header_library_and_wrapper_declare_the_same() {
    let sources = Sources::read();
    assert_eq!(of_header(&sources.header).len(), 26);
    let differences = sources.differences();
    assert!(differences.is_empty(), "they differ:\n{}", differences.join("\n"));
}

/// Each of these small changes must be noticed: else the test above compares nothing.
#[test]
fn changes_are_noticed() {
    let edits: [(&str, &str, &str); 43] = [
        ("header", "mapsforge_open(", "mapsforge_opened("),
        ("header", "uint64_t *starts, size_t starts_len, uint8_t *letters", "uint8_t *letters"),
        ("header", "const uint8_t *letters", "uint8_t *letters"),
        ("rattle", "letters: &mut [u8]", "letters: &mut [u64]"),
        ("rattle", "starts: &[u64],\n    letters: &[u8],", "letters: &[u8],\n    starts: &[u64],"),
        ("rust", "starts: *const u64", "starts: *mut u64"),
        ("header", "uint64_t words[34]", "uint64_t words[33]"),
        (
            "header",
            "uint64_t state[8], uint64_t words[22]",
            "uint64_t state[7], uint64_t words[22]",
        ),
        ("rust", "words: *mut [u64; 37]", "words: *mut [u64; 35]"),
        (
            "header",
            "double degrees[6], uint64_t layout[7]",
            "uint64_t layout[7], double degrees[6]",
        ),
        ("header", "const uint64_t layout[7]", "uint64_t layout[7]"),
        ("header", "const uint64_t layout[7], size_t sub_file", "size_t sub_file"),
        ("header", "const uint64_t interval[6]", "uint64_t interval[6]"),
        (
            "header",
            "const uint64_t layout[7], const uint64_t interval[6]",
            "const uint64_t interval[6], const uint64_t layout[7]",
        ),
        ("header", "int32_t x, int32_t y,", "int32_t y, int32_t x,"),
        ("header", "double *latitudes, size_t latitudes_len, ", ""),
        ("header", "uint32_t column", "int32_t column"),
        ("header", "uint64_t mapsforge_stream_decline", "int64_t mapsforge_stream_decline"),
        ("header", "uint64_t mapsforge_stream_decline(uint64_t state[8], uint64_t words[6]);", ""),
        ("rattle", "zoom: u8,\n    state", "zoom: u32,\n    state"),
        ("rattle", "x_min: i32,\n    y_min: i32,", "y_min: i32,\n    x_min: i32,"),
        ("rattle", "interval: &mut [u64; 6]", "interval: &[u64; 6]"),
        ("rattle", "interval: &[u64; 6],\n    sub_file: usize,", "interval: &[u64; 6],"),
        ("rattle", "tags: &mut [u64; 75]", "tags: &mut [u64; 70]"),
        ("rattle", "initial_latitudes: &mut [f64]", "initial_latitudes: &[f64]"),
        ("rattle", "fn mapsforge_sub_file(", "fn mapsforge_subfile("),
        ("rattle", "pub extern \"C\" fn mapsforge_text", "pub fn mapsforge_text"),
        ("rattle", "data_blocks: u64", "blocks: u64"),
        ("rust", "column: *mut [i64; 1]", "column: *mut [i64; 2]"),
        ("rust", "layout: *const [u64; 7]", "layout: *mut [u64; 7]"),
        ("rust", "layout: *const [u64; 7],\n        zoom: u8,", "zoom: u8,"),
        ("rust", "interval: *const [u64; 6]", "interval: *const [u64; 5]"),
        ("rust", "latitudes: *mut f64,\n        latitudes_len: usize,", "latitudes: *mut f64,"),
        (
            "rust",
            "points: *mut [u64; 256],\n        ways: *mut [u64; 256]",
            "ways: *mut [u64; 256],\n        points: *mut [u64; 256]",
        ),
        ("rust", "double_delta: bool", "double_delta: u8"),
        ("header", "int64_t left, int64_t top", "int64_t top, int64_t left"),
        ("header", "bool mapsforge_shares_cell", "uint64_t mapsforge_shares_cell"),
        ("rattle", "column_row: &mut [i64; 2]", "column_row: &mut [i64; 1]"),
        ("rust", "bitmap: u16, mask: u16", "mask: u16, bitmap: u16"),
        ("header", "uint16_t way_tags", "uint32_t way_tags"),
        ("rattle", "classes: &mut [u8]", "classes: &[u8]"),
        ("rust", "ids: *const u64", "ids: *mut u64"),
        ("rattle", "decisions: &[u8]", "decisions: &[u64]"),
    ];
    let sources = Sources::read();
    let before = sources.differences();
    for (which, old, new) in edits {
        let mut edited = sources.clone();
        let text = match which {
            "header" => &mut edited.header,
            "rattle" => &mut edited.rattle,
            _ => &mut edited.rust,
        };
        assert!(text.contains(old), "{which} has no {old:?} to change");
        *text = text.replacen(old, new, 1);
        assert_ne!(edited.differences(), before, "{which}: {old:?} to {new:?} goes unnoticed");
    }
}

// ---- names

/// The body of the first enum.
fn first_enum(text: &str, mark: &str) -> Vec<String> {
    let plain = without_comments(text);
    let body = plain.split(mark).nth(1).and_then(|rest| rest.split('}').next());
    listed(body.expect("there is an enum")).collect()
}

/// The name that C has for a case of an enum of Rattle or Rust.
fn c_name(case: &str) -> String {
    let mut name = String::from("MAPSFORGE");
    for letter in case.chars().take_while(|letter| letter.is_alphabetic()) {
        if letter.is_uppercase() {
            name.push('_');
        }
        name.push(letter.to_ascii_uppercase());
    }
    name
}

/// The refusals of the header, by their numbers.
fn refusals() -> BTreeMap<u64, String> {
    let cases = first_enum(&text("include/mapsforge.h"), "enum {");
    let named = cases.iter().map(|case| {
        let (name, number) = case.split_once(" = ").unwrap_or_else(|| panic!("{case:?}"));
        (number.parse().expect(case), name.to_string())
    });
    named.collect()
}

/// The refusals have the names that the library's source has for them, where 15 is a case of its own, and those of rules
/// are the answers of their check.
#[test]
fn refusals_have_the_librarys_names() {
    let source = text("crates/error/src/lib.rt");
    let mut cases = first_enum(&source, "pub enum Refusal {");
    cases.insert(14, "TooShort".into());
    assert!(source.contains("LentRefusal::Short(_) => 15,"));
    let of_rules = first_enum(&text("crates/showing/src/lib.rt"), "pub enum RulesRefusal {");
    // A case with two values is listed in two pieces.
    let of_rules = of_rules.into_iter().filter(|case| case.contains("Rules"));
    let numbered = (1..).zip(cases).chain((22..).zip(of_rules));
    assert_eq!(refusals(), numbered.map(|(number, case)| (number, c_name(&case))).collect());
}

/// And those that the wrapper has.
#[test]
fn refusals_have_the_wrappers_names() {
    let known = (1..64)
        .map(|number| (number, Refusal::check(number, &[]).unwrap_err()))
        .filter(|(_, refusal)| !matches!(refusal, Refusal::Other(_)))
        .map(|(number, refusal)| (number, c_name(&format!("{refusal:?}"))));
    assert_eq!(known.collect::<BTreeMap<_, _>>(), refusals());
}

/// The names of words and their numbers, from lines `START NAME BETWEEN NUMBER`.
fn names(text: &str, start: &str, between: &[&str]) -> BTreeMap<String, usize> {
    let mut names = BTreeMap::new();
    for line in without_comments(text).lines() {
        let Some(line) = line.strip_prefix(start) else { continue };
        let split = between.iter().find_map(|between| line.split_once(between));
        // What names no number is no word: `MAPSFORGE_H`.
        let Some((name, number)) = split else { continue };
        let number = number.trim().trim_end_matches(';');
        let number = number.parse().unwrap_or_else(|_| panic!("{name} is no number: {number:?}"));
        assert_eq!(names.insert(name.to_string(), number), None, "{name} is there twice");
    }
    names
}

fn names_of_header(text: &str) -> BTreeMap<String, usize> {
    names(text, "#define MAPSFORGE_", &[" "])
}

fn names_of_wrapper() -> BTreeMap<String, usize> {
    names(&text("host/src/word.rs"), "pub const ", &[": usize = ", ": u64 = "])
}

#[test]
fn header_and_wrapper_have_the_same_names_of_words() {
    let header = text("include/mapsforge.h");
    assert_eq!(names_of_header(&header), names_of_wrapper());
    assert!(names_of_header(&header).len() > 150);
    // A word more, or another number, is noticed.
    for (old, new) in [("NEXT_WATER 20", "NEXT_WATER 19"), ("NEXT_WATER 20", "NEXT_SEA 20")] {
        assert_ne!(names_of_header(&header.replacen(old, new, 1)), names_of_wrapper());
    }
}

/// A name that nothing reads or checks words by could have any number.
#[test]
fn each_name_of_a_word_is_used() {
    let mut rust = String::new();
    for folder in ["host/src", "host/src/rules", "host/tests"] {
        for file in std::fs::read_dir(repository(folder)).unwrap() {
            let path = file.unwrap().path();
            if path.extension().is_some_and(|end| end == "rs") && !path.ends_with("word.rs") {
                rust += &std::fs::read_to_string(path).unwrap();
            }
        }
    }
    let name = |text: &str| text.chars().take_while(|c| *c == '_' || c.is_alphanumeric()).collect();
    let used: BTreeSet<String> = rust.split("word::").skip(1).map(name).collect();
    let unused: Vec<_> =
        names_of_wrapper().into_keys().filter(|name| !used.contains(name)).collect();
    assert!(unused.is_empty(), "nothing uses {unused:?}");
}

/// A C program reads a map by the header, and sees what the wrapper sees.
#[test]
fn a_c_program_sees_the_same() {
    let program = program("host/tests/header.c", C);
    let map = map_path("islands.map");
    let run = Command::new(program).arg(&map).output().expect("the program runs");
    assert!(run.status.success(), "{}", String::from_utf8_lossy(&run.stderr));
    assert_eq!(String::from_utf8_lossy(&run.stdout), as_wrapped(&MapFile::open(map).unwrap()));
}

/// What tests/header.c prints, by the wrapper.
fn as_wrapped(file: &MapFile) -> String {
    let map = file.map().unwrap();
    let sub_file = map.sub_file(2).unwrap();
    let (grid, tile) = (sub_file.grid(), sub_file.collect(10).unwrap());
    let mut stream = sub_file.stream(10, 13).unwrap();
    let (mut ways, mut nodes) = (0, 0);
    let plain = loop {
        match stream.next().unwrap() {
            Step::Point(_) => (),
            Step::Way(_) => {
                ways += 1;
                nodes += stream.accept().unwrap().blocks.iter().map(Vec::len).sum::<usize>();
            }
            Step::End(end) => break end.plain,
        }
    };
    let out_of_turn = u8::from(stream.decline() == Err(Refusal::OutOfTurn));
    let (header, row, town) = (map.header(), tile.rows()[0], tile.point(0).unwrap());
    let tags: Vec<_> = town.tags[..town.tag_ids.len()]
        .iter()
        .map(|tag| format!("tag {}={}\n", tag.key, tag.value))
        .collect();
    [
        format!("listed {} and {} tags", map.starts().len(), map.letters().len()),
        format!("version {}", header.version),
        format!("size {}", header.file_size),
        // Enough digits to tell any two numbers apart, and these need no exponent.
        format!("south {:.15}", header.bounding_box.south),
        format!("sub files {}", map.intervals().len()),
        format!("columns {} to {}, rows {} to {}", grid.x_min, grid.x_max, grid.y_min, grid.y_max),
        format!(
            "base zoom {}, {} tiles",
            sub_file.interval().base_zoom,
            sub_file.tile_count().unwrap()
        ),
        format!("too short 1\nneeds {} places", tile.point_count() + tile.way_count()),
        format!(
            "tile {} points, {} ways, exact {}, plain {}",
            tile.point_count(),
            tile.way_count(),
            u8::from(tile.exact()),
            u8::from(tile.plain())
        ),
        format!("row 0: {}+{}", row.0, row.1),
        tags.concat() + "name " + &town.name.expect("the town has a name"),
        format!("streamed {ways} ways, {nodes} nodes, plain {}", u8::from(plain)),
        format!("out of turn {out_of_turn}\n"),
    ]
    .join("\n")
}
