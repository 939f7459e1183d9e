//! Writes into OUT_DIR the root that the Rust's folder lacks, and its tile.rs with the caller's grid. Says where the general next is that the
//! driver links beside our reader.

use std::path::{Path, PathBuf};
use std::{env, fs, process};

/// The modules taken as they are; tile.rs is the one that is changed.
const MODULES: [&str; 11] =
    ["error", "io", "utils", "tag", "types", "math", "header", "blocks", "poi", "way", "visit"];

const DEFAULT_FOLDER: &str = "mapsforge-rs";

const TOTAL_TILES: &str =
    "    pub fn calculate_total_tiles(bounding_box: &BoundingBox, zoom: u8) -> u32 {\n";
const GET_TILES: &str =
    "    pub fn get_tiles(lat_deg: f64, lon_deg: f64, zoom: u8) -> (i32, i32) {\n";
const GET_COLUMN: &str = "    pub fn get_tiles_column(lon_deg: f64, zoom: u8) -> i32 {\n";
const METHOD_END: &str = "    }\n";

/// The latitude half of `get_tiles`, which needs a tangent and a logarithm.
const ROW_LINE: &str = "        let y = Self::mercator_y(lat_deg * PI / 180.0, n) as i32;\n";
const PAIR_LINE: &str = "        (x, y)\n";
const COLUMN_LINE: &str = "        x\n";

const GRID_TILES: &str = "        crate::grid::tiles()\n";
const GRID_CORNER: &str = "        crate::grid::next_corner()\n";

fn main() {
    println!("cargo::rerun-if-changed=build.rs");
    println!("cargo::rerun-if-env-changed=MAPSFORGE_RS");
    let rust = rust_folder();
    let out = PathBuf::from(env::var_os("OUT_DIR").expect("cargo gives OUT_DIR"));
    let tile = tile_with_grid(&source(&rust.join("tile.rs")));
    write(&out.join("tile.rs"), &tile);
    write(&out.join("reader.rs"), &root(&rust, &out));
    if env::var_os("CARGO_FEATURE_BOTH").is_some() {
        find_general_next();
    }
}

/// It stands where host/build.rs finds our reader.
fn find_general_next() {
    println!("cargo::rerun-if-env-changed=MAPSFORGE_LIB");
    let package = env::var_os("CARGO_MANIFEST_DIR").expect("cargo gives the package's folder");
    let folder = match env::var_os("MAPSFORGE_LIB") {
        Some(named) => PathBuf::from(named),
        None => Path::new(&package).join("../target/staticlib"),
    };
    println!("cargo::rerun-if-changed={}", folder.join("libgeneral_next.a").display());
    println!("cargo::rustc-link-search=native={}", folder.display());
}

/// The folder of the Rust; a relative one counts from this package's folder.
fn rust_folder() -> PathBuf {
    let named = env::var_os("MAPSFORGE_RS").unwrap_or_else(|| DEFAULT_FOLDER.into());
    fs::canonicalize(&named).unwrap_or_else(|e| {
        give_up(&format!(
            "the Rust is not at {}: {e}; name its folder by MAPSFORGE_RS or compare/run --rust",
            Path::new(&named).display()
        ))
    })
}

/// The crate's root: what the missing lib.rs gives to the modules.
fn root(rust: &Path, out: &Path) -> String {
    let mut text = String::from("extern crate alloc;\n");
    text += "pub type Result<T> = core::result::Result<T, error::MapforgeError>;\n";
    for name in MODULES {
        let path = rust.join(format!("{name}.rs"));
        source(&path); // a missing module is named here, not by the compiler
        text += &module(name, &path);
    }
    text + &module("tile", &out.join("tile.rs"))
}

fn module(name: &str, path: &Path) -> String {
    let Some(path) = path.to_str() else { give_up(&format!("{} is not UTF-8", path.display())) };
    format!("#[path = {path:?}]\npub mod {name};\n")
}

/// tile.rs with `calculate_total_tiles` and `get_tiles` answered from the grid that the caller lends.
/// The longitude half of `get_tiles` stays, as `get_tiles_column`.
fn tile_with_grid(tile: &str) -> String {
    let (before, _, after) = around_body(tile, TOTAL_TILES);
    let tile = format!("{before}{TOTAL_TILES}{GRID_TILES}{after}");
    let (before, body, after) = around_body(&tile, GET_TILES);
    let column = replace_once(&replace_once(body, ROW_LINE, ""), PAIR_LINE, COLUMN_LINE);
    format!("{before}{GET_COLUMN}{column}{METHOD_END}\n{GET_TILES}{GRID_CORNER}{after}")
}

/// The text before a method's head, the method's body, and the text from its closing brace on.
fn around_body<'a>(text: &'a str, head: &str) -> (&'a str, &'a str, &'a str) {
    let (before, rest) = split_once_only(text, head);
    let end = format!("\n{METHOD_END}");
    let Some(at) = rest.find(&end) else {
        give_up(&format!("no end found in tile.rs of: {}", head.trim()))
    };
    let (body, after) = rest.split_at(at + 1);
    (before, body, after)
}

fn replace_once(text: &str, old: &str, new: &str) -> String {
    let (before, after) = split_once_only(text, old);
    format!("{before}{new}{after}")
}

/// Splits at the one place where `part` stands; a Rust that was rewritten there is not guessed at.
fn split_once_only<'a>(text: &'a str, part: &str) -> (&'a str, &'a str) {
    match text.matches(part).count() {
        1 => text.split_once(part).expect("it was counted"),
        n => give_up(&format!(
            "tile.rs should have this text once, it has it {n} times: {}",
            part.trim()
        )),
    }
}

fn source(path: &Path) -> String {
    println!("cargo::rerun-if-changed={}", path.display());
    fs::read_to_string(path)
        .unwrap_or_else(|e| give_up(&format!("cannot read {}: {e}", path.display())))
}

fn write(path: &Path, text: &str) {
    fs::write(path, text)
        .unwrap_or_else(|e| give_up(&format!("cannot write {}: {e}", path.display())));
}

fn give_up(why: &str) -> ! {
    eprintln!("compare/build.rs: {why}");
    process::exit(1)
}
