//! Prints the answers of the Rust map reader, for the runs that hold the port against it, or compares the two
//! in one process.

mod answer;
mod differences;
mod figures;
mod leaves;
mod maps;
mod random;
mod records;
#[cfg(feature = "both")]
mod scale;
mod source;
mod tiles;

use std::env;
use std::io::{self, ErrorKind};
use std::path::Path;
use std::process::ExitCode;

const HELP: &str = "\
compare/run [--rust FOLDER] COMMAND ARGS...

  leaves-exhaustive   digests of the leaves over all inputs of 1 and 2 bytes, and over all texts of 3
  leaves-sample DIR   writes DIR/stdin, records of operation and input, and DIR/stdout, their answers and those digests
  maps-sample DIR     the same two files for crafted maps: opening them, whole, cut and damaged
  index-sample DIR    the same two files for crafted maps: index and grid, tags, columns
  maps-records FILE DIR, index-records FILE DIR
                      the same two files for one map
  scale [--cases N] [--seed S] [--threads T] [--quick] [--only K] [MAP...]
                      our library and the Rust in one process: crafted maps, those of maps/ and the maps named, first whole
                      and undamaged, then cut off at each length, then N damaged copies, by the words of their own headers
                      and by others; every answer, word and lent entry, fetches also by altered lists of places; fails on a
                      difference.
                      --quick is a fixed run of about a minute with fewer cuts; it, and any run of as many cases, also fails
                      if a refusal does not come at all. --only looks at case K alone. Every next is held to the general next too
  quick [--cases N] [--seed S] [--quick] [--only K] [MAP...]
                      our library's next, which has quick readers, against the general next, which has none: every pair of
                      bytes, every length and every letter of some points and ways, and N cases by chance, from the same maps
                      and made up, with other bytes, lengths, letters, layouts and states; fails on a difference, and if a kind
                      of answer does not come. --quick is a fixed run of some seconds, --only looks at case K alone
  book [--cases N] [MAP...]
                      our library's stream against document 01's book, on all tiles of the same maps; at least N long lists
  zooming [--cases N] [--seed S] [--quick] [--only K] [MAP...]
                      our library's streams at all pairs of zooms, on all tiles of the same maps and on N damaged copies
                      of tiles, many with wrong stored sizes: one that ends well says all that comes at a lower zoom;
                      fails on a difference. --quick is a fixed run of some seconds, --only looks at copy K alone
  altered [--cases N] [--seed S] [--quick] [MAP...]
                      our library's streams by at least N random lists of calls on the tiles of the same maps, and on copies
                      with other bytes in ways that the list declines untried: every answer must be the same. Copies altered
                      where it shows are controls; fails on a difference, and if no control of a kind shows.
                      --quick is a fixed run of some seconds
  window [--cases N] [--seed S] [--quick] [--only K]
                      which tiles and cells a window touches: our library's answers against walks over the window's sub tiles
                      and over the grid's tiles, at every limit and in N random cases, and which ways share a cell; fails on
                      a difference, and if a kind of window does not come. --quick is a fixed run of some seconds, --only
                      looks at random case K alone
  rules [--cases N] [--seed S] [--quick] [--only K] [MAP...]
                      our library's check of showing rules, and what they show, against the driver's own model: tables at the
                      limits, N by chance, and the ways of streams of the same maps; fails on a difference. How long the
                      largest tables take is printed. --quick is a fixed run of some seconds, --only looks at table K alone
  wanted [--cases N] [--seed S] [--quick] [--only K] [MAP...]
                      what our library says a tile's stream will want, against what the Rust's own visit gives, on all tiles of
                      the same maps and on N damaged copies of tiles, at all zooms of a tile, by lists of decisions: as long as the
                      ways, shorter and longer. It is refused as our stream is; with lists of just these lengths that stream never
                      meets 15, and with one that is shorter it does; so does the stream that goes by a window and rules, asked by
                      what these decide. Fails on a difference, and if a kind of question does not come. --quick is a fixed run of
                      some seconds, --only looks at copy K alone
  figures             checks document 01's worked figures; fails on a difference
  help                this text

scale, quick, book, zooming, altered, window, rules and wanted link target/staticlib/libmapsforge.a, which host/library builds first, and
libgeneral_next.a beside it, which `host/library general_next` builds; or those of the folder MAPSFORGE_LIB names.

FOLDER holds the Rust: error.rs, io.rs and so on. By default it is compare/mapsforge-rs.
";

fn main() -> ExitCode {
    let arguments: Vec<String> = env::args().skip(1).collect();
    let arguments: Vec<&str> = arguments.iter().map(String::as_str).collect();
    match run(&arguments) {
        Ok(code) => code,
        // the reader of the output has seen enough, as `head` does
        Err(error) if error.kind() == ErrorKind::BrokenPipe => ExitCode::SUCCESS,
        Err(error) => {
            eprintln!("compare: {error}");
            ExitCode::FAILURE
        }
    }
}

fn run(arguments: &[&str]) -> io::Result<ExitCode> {
    match arguments {
        ["leaves-exhaustive"] => leaves::exhaustive::print()?,
        ["leaves-sample", folder] => leaves::sample::write(Path::new(folder))?,
        ["maps-sample", folder] => maps::sample::write(Path::new(folder), maps::Form::Headers)?,
        ["index-sample", folder] => maps::sample::write(Path::new(folder), maps::Form::Indexes)?,
        ["maps-records", file, folder] => {
            maps::file::write(Path::new(file), Path::new(folder), maps::Form::Headers)?;
        }
        ["index-records", file, folder] => {
            maps::file::write(Path::new(file), Path::new(folder), maps::Form::Indexes)?;
        }
        #[cfg(feature = "both")]
        ["scale", rest @ ..] => {
            return Ok(scale::run(rest)?.unwrap_or_else(misused));
        }
        #[cfg(feature = "both")]
        ["quick", rest @ ..] => {
            return Ok(scale::run_quick(rest)?.unwrap_or_else(misused));
        }
        #[cfg(feature = "both")]
        ["book", rest @ ..] => {
            return Ok(scale::run_book(rest)?.unwrap_or_else(misused));
        }
        #[cfg(feature = "both")]
        ["zooming", rest @ ..] => {
            return Ok(scale::run_zooming(rest)?.unwrap_or_else(misused));
        }
        #[cfg(feature = "both")]
        ["altered", rest @ ..] => {
            return Ok(scale::run_altered(rest)?.unwrap_or_else(misused));
        }
        #[cfg(feature = "both")]
        ["window", rest @ ..] => {
            return Ok(scale::run_window(rest)?.unwrap_or_else(misused));
        }
        #[cfg(feature = "both")]
        ["rules", rest @ ..] => {
            return Ok(scale::run_rules(rest)?.unwrap_or_else(misused));
        }
        #[cfg(feature = "both")]
        ["wanted", rest @ ..] => {
            return Ok(scale::run_wanted(rest)?.unwrap_or_else(misused));
        }
        ["figures"] => return Ok(checked(figures::check())),
        ["help"] => print!("{HELP}"),
        _ => return Ok(misused()),
    }
    Ok(ExitCode::SUCCESS)
}

fn misused() -> ExitCode {
    eprint!("{HELP}");
    ExitCode::from(2)
}

fn checked(good: bool) -> ExitCode {
    if good {
        ExitCode::SUCCESS
    } else {
        ExitCode::FAILURE
    }
}
