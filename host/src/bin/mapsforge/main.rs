//! The command `mapsforge`: looks into Mapsforge maps, checks, compares and draws them.

#![forbid(unsafe_code)]

mod args;
mod at;
mod check;
mod diff;
mod draw;
mod export;
mod geojson;
mod info;
mod input;
mod json;
mod list;
mod output;
mod query;
mod report;
mod result;
mod rules;
mod show;
mod svg;
mod target;
mod tiles;
mod window;

use args::{Args, Choice};
use mapsforge::{Refusal, TilePlace};
use std::io::{self, Write};
use std::process::ExitCode;

const HELP: &str = "\
mapsforge looks into Mapsforge binary maps: checks, compares and draws them.

    mapsforge check MAP...      whether maps can be used: PASS or DO NOT USE
    mapsforge diff OLD NEW      what was added, removed, moved or renamed
    mapsforge report MAP...     verdicts, findings and pictures as a page for a browser
    mapsforge svg MAP TILE      a drawing of a tile, or of a square around a place
    mapsforge rules MAP FILE    whether showing rules can be used
    mapsforge list MAP          the features, by tag or box
    mapsforge at MAP LAT,LON    what is at a place
    mapsforge export MAP        the features as GeoJSON
    mapsforge info MAP          what the header says
    mapsforge tiles MAP         the sub files, their grids and each tile
    mapsforge show MAP TILE     the features of a tile
    mapsforge window MAP ...    the tiles that a window touches, and their touched cells

TILE is SUBFILE:NUMBER, SUBFILE:X,Y or ZOOM/X/Y; `mapsforge tiles MAP` lists them.
MAP is a file, or - for standard input.
`mapsforge COMMAND --help` says more about a command, `mapsforge --version` which this is.
";

/// A command: its name, its help, its options and what it does.
struct Command {
    name: &'static str,
    help: &'static str,
    options: &'static [Choice],
    run: fn(&Args, &mut dyn Write) -> Outcome,
}

const COMMANDS: &[Command] = &[
    Command { name: "check", help: check::HELP, options: check::OPTIONS, run: check::run },
    Command { name: "diff", help: diff::HELP, options: diff::OPTIONS, run: diff::run },
    Command { name: "report", help: report::HELP, options: report::OPTIONS, run: report::run },
    Command { name: "svg", help: svg::HELP, options: svg::OPTIONS, run: svg::run },
    Command { name: "rules", help: rules::HELP, options: rules::OPTIONS, run: rules::run },
    Command { name: "list", help: list::HELP, options: list::OPTIONS, run: list::run },
    Command { name: "at", help: at::HELP, options: at::OPTIONS, run: at::run },
    Command { name: "export", help: export::HELP, options: export::OPTIONS, run: export::run },
    Command { name: "info", help: info::HELP, options: info::OPTIONS, run: info::run },
    Command { name: "tiles", help: tiles::HELP, options: &[], run: tiles::run },
    Command { name: "show", help: show::HELP, options: show::OPTIONS, run: show::run },
    Command { name: "window", help: window::HELP, options: window::OPTIONS, run: window::run },
];

/// Why a command ended early.
pub enum Failure {
    /// A mistake on the command line, or a file that cannot be read or written: status 2.
    Mistake(String),
    /// The map refuses what was asked of it: status 1.
    Refused(String),
    /// The answer could not be written.
    Write(io::Error),
}

impl From<io::Error> for Failure {
    fn from(error: io::Error) -> Failure {
        Failure::Write(error)
    }
}

impl From<Refusal> for Failure {
    fn from(refusal: Refusal) -> Failure {
        Failure::Refused(format!("refused with {}: {refusal}", refusal.number()))
    }
}

impl Failure {
    /// In a sentence.
    pub fn text(&self) -> String {
        match self {
            Failure::Mistake(text) | Failure::Refused(text) => output::clean(text),
            Failure::Write(error) => format!("cannot write: {}", reason(error)),
        }
    }
}

/// The refusal of a call about a tile, which is named where that helps.
pub fn of_tile(place: TilePlace) -> impl Fn(Refusal) -> Failure {
    move |refusal| {
        let told = refusal.of_tile(place.number);
        Failure::Refused(format!("refused with {}: {told}", refusal.number()))
    }
}

/// How a command ended.
#[derive(Clone, Copy, Debug, PartialEq, Eq, PartialOrd, Ord)]
pub enum Status {
    /// All is well.
    Well = 0,
    /// There is something to know of the map.
    Found = 1,
    /// Not everything could be looked at.
    Unseen = 2,
}

impl Status {
    /// Well, or else found.
    pub fn well_if(well: bool) -> Status {
        if well {
            Status::Well
        } else {
            Status::Found
        }
    }
}

/// The outcome of a command that has written what it could read: tells what was refused.
pub fn refused(out: &mut dyn Write, missing: &[Failure]) -> Outcome {
    // What was written before comes first.
    out.flush()?;
    for failure in missing {
        let _ = writeln!(io::stderr(), "mapsforge: {}", failure.text());
    }
    Ok(Status::well_if(missing.is_empty()))
}

/// What a command gives.
pub type Outcome = Result<Status, Failure>;

/// The system's own words, without its number.
pub fn reason(error: &io::Error) -> String {
    let text = error.to_string();
    let end = text.find(" (os error").unwrap_or(text.len());
    let mut letters = text[..end].chars();
    letters.next().map_or(String::new(), |first| first.to_lowercase().chain(letters).collect())
}

/// The words of the command line.
fn words() -> Result<Vec<String>, Failure> {
    let words = std::env::args_os().skip(1).map(|word| {
        word.into_string().map_err(|word| {
            let word = word.to_string_lossy().into_owned();
            Failure::Mistake(format!(
                "{word:?} is not UTF-8: rename the file, or give a link to it"
            ))
        })
    });
    words.collect()
}

fn find(name: &str) -> Result<&'static Command, Failure> {
    COMMANDS.iter().find(|command| command.name == name).ok_or_else(|| {
        Failure::Mistake(format!("there is no command {name:?}: `mapsforge --help` lists them"))
    })
}

fn run(out: &mut dyn Write) -> Outcome {
    let mut words = words()?.into_iter();
    let Some(word) = words.next() else {
        let names: Vec<_> = COMMANDS.iter().map(|command| command.name).collect();
        return Err(Failure::Mistake(format!(
            "name a command: {}; `mapsforge --help` says what each does",
            names.join(", ")
        )));
    };
    let text = match word.as_str() {
        "--version" | "-V" => concat!("mapsforge ", env!("CARGO_PKG_VERSION"), "\n"),
        "--help" | "-h" => HELP,
        "help" => match words.next() {
            Some(name) => find(&name)?.help,
            None => HELP,
        },
        name => {
            let command = find(name)?;
            let args = Args::parse(command.name, command.options, words)?;
            if !args.help() {
                return (command.run)(&args, out);
            }
            command.help
        }
    };
    out.write_all(text.as_bytes())?;
    Ok(Status::Well)
}

fn main() -> ExitCode {
    let mut out = io::BufWriter::new(io::stdout().lock());
    let outcome = run(&mut out);
    let closed = |error: &io::Error| error.kind() == io::ErrorKind::BrokenPipe;
    let status = match (outcome, out.flush()) {
        (Err(Failure::Write(error)), _) if closed(&error) => Status::Well as u8,
        (Err(failure), _) => complain(&failure),
        // Whoever read the answer has seen enough of it; what was found stays found.
        (Ok(status), Err(error)) if closed(&error) => status as u8,
        (Ok(_), Err(error)) => complain(&Failure::Write(error)),
        (Ok(status), Ok(())) => status as u8,
    };
    // What is still in the buffer has nobody to go to.
    std::mem::forget(out);
    ExitCode::from(status)
}

/// Tells why a command failed, and gives its status.
fn complain(failure: &Failure) -> u8 {
    let _ = writeln!(io::stderr(), "mapsforge: {}", failure.text());
    match failure {
        Failure::Refused(_) => Status::Found as u8,
        Failure::Mistake(_) | Failure::Write(_) => Status::Unseen as u8,
    }
}

#[cfg(test)]
mod tests {
    use super::*;

    /// Each option stands in its command's help, and each word of a help that looks like one is one.
    #[test]
    fn help_has_the_options() {
        for command in COMMANDS {
            for option in command.options {
                let long = format!("    {}", option.long);
                let short = option.short.map(|short| format!("    {short}, {}", option.long));
                let told = command.help.contains(&long)
                    || short.is_some_and(|short| command.help.contains(&short));
                assert!(told, "{} does not tell of {}", command.name, option.long);
            }
            let words =
                command.help.split(|letter: char| !letter.is_alphanumeric() && letter != '-');
            for word in words.filter(|word| word.starts_with("--")) {
                let known = command.options.iter().any(|option| option.long == word);
                assert!(known, "{} tells of {word}", command.name);
            }
            assert!(HELP.contains(&format!("    mapsforge {} ", command.name)));
            assert!(command.help.contains("status"), "{} tells its status", command.name);
        }
    }
}
