//! `mapsforge check`

use crate::args::{Args, Choice};
use crate::input::{self, Source};
use crate::json::Value;
use crate::output::{clean, count, position, position_value, tags, Unheard};
use crate::{Failure, Outcome, Status};
use mapsforge::check::{every_tile, FeatureNote, Finding, Padded, Sum, Waste, Watch};
use mapsforge::Map;
use std::io::{self, IsTerminal, Write};
use std::thread;
use std::time::{Duration, Instant};

pub const HELP: &str = "\
mapsforge check MAP... [--json] [--all] [--padding]

Says whether maps can be used. It reads every tile of every sub file, and asks the library
whether the tile collects, whether every stored size is the decoded length, and whether the
first-way offset leads to the end of the points. If all this is so, a list that collects tiles
and a panel that streams them and declines some ways show the same. If not, that is a finding.
It names the feature and its place, what follows for list and panel, and what to do. An index
that is cut off is a finding too, and so is a file of another size than its header says.

MAP is a file, a folder (all files in it and below it that end in .map) or - for standard
input. The last line for each map is PASS or DO NOT USE. The line before it counts what was
read. An empty tile is no finding: the index says that it has no features.

    --json         one document for a program; docs/JSON.md describes it
    --all          all findings of a map, not only the first 100
    --padding      also lists what wastes bytes on numbers, and counts the bytes
    --threads N    use N threads instead of one for each processor

With --padding there is a line for each tile head, point and way of which a number is longer
than it need be, or is minus zero. The library says which they are; how many bytes they waste
is counted from the map's bytes. It is no finding: the map can be used. --all lists all of
them, not only the first 100. A line behind them has the sums.

The status is 0 if all maps pass, 1 if one has findings, 2 if one could not be looked at. It
is the same if nobody reads the output to its end.
";

pub const OPTIONS: &[Choice] = &[
    Choice { long: "--json", short: None, valued: false },
    Choice { long: "--all", short: None, valued: false },
    Choice { long: "--padding", short: None, valued: false },
    Choice { long: "--threads", short: None, valued: true },
];

/// How many findings of a map are shown, and how much that is padded.
const SHOWN: u64 = 100;

pub fn run(args: &Args, out: &mut dyn Write) -> Outcome {
    let sources = input::sources(args.some("a MAP")?);
    let how = How::new(args)?;
    let mut out = Unheard::new(out);
    let mut checked = Vec::new();
    for source in &sources {
        checked.push(if args.has("--json") {
            open_and_look(source, |map| gather(map, &how))
        } else {
            tell(source, &how, &mut out)?
        });
    }
    let status = checked.iter().map(Checked::status).max().unwrap_or(Status::Well);
    if args.has("--json") {
        writeln!(out, "{}", document(&checked, status))?;
    }
    Ok(status)
}

/// How to check.
pub struct How {
    pub shown: u64,
    pub threads: usize,
    pub padding: bool,
}

impl How {
    pub fn new(args: &Args) -> Result<How, Failure> {
        let shown = if args.has("--all") { u64::MAX } else { SHOWN };
        let threads = args.number("--threads", "a number of threads")?;
        let all = || thread::available_parallelism().map_or(1, usize::from);
        let threads = threads.unwrap_or_else(all).max(1);
        Ok(How { shown, threads, padding: args.has("--padding") })
    }
}

/// A map that was checked, or why it was not.
pub struct Checked {
    pub name: String,
    pub result: Result<Seen, String>,
}

/// What was seen of a map.
pub struct Seen {
    pub sub_files: usize,
    pub sum: Sum,
    /// The size of the file.
    pub bytes: u64,
    /// The first findings, where they were kept.
    pub findings: Vec<Finding>,
    /// The first of what is padded, where that was looked for.
    pub padded: Option<Vec<Padded>>,
}

impl Checked {
    pub fn status(&self) -> Status {
        match &self.result {
            Ok(seen) => Status::well_if(seen.sum.findings == 0),
            Err(_) => Status::Unseen,
        }
    }

    pub fn verdict(&self) -> &'static str {
        match self.status() {
            Status::Well => "PASS",
            Status::Found | Status::Unseen => "DO NOT USE",
        }
    }
}

impl Seen {
    /// What was counted, in a sentence.
    pub fn counted(&self) -> String {
        let sum = &self.sum;
        let empty = if sum.empty == 0 { "none".into() } else { sum.empty.to_string() };
        let verdict = match sum.findings {
            0 => "stream and list agree".into(),
            found => count(found, "finding"),
        };
        format!(
            "{} ({empty} empty) in {}, {}, {}: {verdict}",
            count(sum.tiles, "tile"),
            count(self.sub_files as u64, "sub file"),
            count(sum.points, "point"),
            count(sum.ways, "way")
        )
    }
}

impl Seen {
    /// What is padded, in a sentence.
    fn padding(&self) -> String {
        let sum = &self.sum.padding;
        let tiles = count(sum.looked_at, "tile");
        let unread = match self.sum.tiles - sum.looked_at {
            0 => String::new(),
            1 => "; 1 tile that does not collect is not counted".into(),
            more => format!("; {more} tiles that do not collect are not counted"),
        };
        if sum.tiles == 0 {
            return format!("padding: no byte is wasted, all numbers of {tiles} are plain{unread}");
        }
        format!(
            "padding: {} of {} wasted by {}, in {} of {tiles}: {}, {}, {}{unread}",
            count(sum.waste.bytes, "byte"),
            self.bytes,
            numbers(&sum.waste),
            sum.tiles,
            count(sum.heads, "tile head"),
            count(sum.points, "point"),
            count(sum.ways, "way")
        )
    }
}

/// Checks a map.
fn look(map: &Map<'_>, how: &How, watch: &mut impl Watch) -> Seen {
    let sum = every_tile(map, how.threads, watch);
    let (sub_files, bytes) = (map.intervals().len(), map.bytes().len() as u64);
    Seen { sub_files, sum, bytes, findings: Vec::new(), padded: None }
}

/// Opens a map and checks it.
fn open_and_look(source: &Source, look: impl FnOnce(&Map<'_>) -> Seen) -> Checked {
    let result = source.open().and_then(|file| Ok(look(&source.map(&file)?)));
    let result = result.map_err(|failure| failure.text());
    Checked { name: source.name.clone(), result }
}

/// Checks a map, and keeps the first findings.
pub fn gather(map: &Map<'_>, how: &How) -> Seen {
    let padded = how.padding.then(Vec::new);
    let mut kept = Keeping { shown: how.shown, findings: Vec::new(), padded, bar: Bar::default() };
    let seen = look(map, how, &mut kept);
    kept.bar.clear();
    Seen { findings: kept.findings, padded: kept.padded, ..seen }
}

struct Keeping {
    shown: u64,
    findings: Vec<Finding>,
    padded: Option<Vec<Padded>>,
    bar: Bar,
}

/// Keeps what is padded, if it is wanted and not too much.
fn keep(kept: &mut Option<Vec<Padded>>, shown: u64, padded: Padded) {
    if let Some(kept) = kept.as_mut().filter(|kept| (kept.len() as u64) < shown) {
        kept.push(padded);
    }
}

impl Watch for Keeping {
    fn found(&mut self, finding: Finding) {
        if (self.findings.len() as u64) < self.shown {
            self.findings.push(finding);
        }
    }

    fn wanted_padding(&self) -> Option<u64> {
        self.padded.as_ref().map(|_| self.shown)
    }

    fn padded(&mut self, padded: Padded) {
        keep(&mut self.padded, self.shown, padded);
    }

    fn done(&mut self, tiles: u64, all: u64) {
        self.bar.step(tiles, all);
    }
}

/// Writes each finding as it is met, and keeps what is padded.
struct Writing<'o> {
    out: &'o mut dyn Write,
    failed: Option<io::Error>,
    shown: u64,
    met: u64,
    padded: Option<Vec<Padded>>,
    bar: Bar,
}

impl Watch for Writing<'_> {
    fn found(&mut self, finding: Finding) {
        self.met += 1;
        if self.met > self.shown || self.failed.is_some() {
            return;
        }
        self.bar.clear();
        let text = finding_text(self.met, &finding);
        let mut done = self.out.write_all(text.as_bytes());
        // On a terminal each finding is seen as it is met.
        if self.bar.on && done.is_ok() {
            done = self.out.flush();
        }
        self.failed = done.err();
    }

    fn wanted_padding(&self) -> Option<u64> {
        self.padded.as_ref().map(|_| self.shown)
    }

    fn padded(&mut self, padded: Padded) {
        keep(&mut self.padded, self.shown, padded);
    }

    fn done(&mut self, tiles: u64, all: u64) {
        self.bar.step(tiles, all);
    }
}

/// Checks a map, and writes what is found and the verdict.
fn tell(source: &Source, how: &How, out: &mut dyn Write) -> io::Result<Checked> {
    let (bar, padded) = (Bar::default(), how.padding.then(Vec::new));
    let mut writing = Writing { out, failed: None, shown: how.shown, met: 0, padded, bar };
    let checked = open_and_look(source, |map| look(map, how, &mut writing));
    writing.bar.clear();
    let Writing { failed, met, padded, .. } = writing;
    failed.map_or(Ok(()), Err)?;
    if met > how.shown {
        writeln!(out, "... and {} more: --all shows them", met - how.shown)?;
    }
    match &checked.result {
        Ok(seen) => {
            if let Some(padded) = padded {
                tell_padding(seen, &padded, out)?;
            }
            writeln!(out, "{}", seen.counted())?;
        }
        Err(why) => {
            // What was written before comes first.
            out.flush()?;
            let _ = writeln!(io::stderr(), "mapsforge: {why}");
        }
    }
    writeln!(out, "{}: {}", checked.verdict(), clean(&checked.name))?;
    Ok(checked)
}

/// Writes what is padded, a line for each, and the sums.
fn tell_padding(seen: &Seen, padded: &[Padded], out: &mut dyn Write) -> io::Result<()> {
    for padded in padded {
        writeln!(out, "padded: {}", padded_text(padded))?;
    }
    let sum = &seen.sum.padding;
    let more = sum.heads + sum.points + sum.ways - padded.len() as u64;
    if more > 0 {
        writeln!(out, "... and {more} more that are padded: --all shows them")?;
    }
    writeln!(out, "{}", seen.padding())
}

/// What is padded, in a line: where, what, and how much it wastes.
fn padded_text(padded: &Padded) -> String {
    let Padded { covered, tile, waste, .. } = padded;
    let feature = padded.feature.as_ref().map_or("the tile's head".into(), feature_text);
    format!(
        "sub file {}, tile {} ({}/{}/{}), byte {}: {feature}: {} of {} wasted by {}",
        covered.sub_file,
        tile.number,
        covered.base_zoom,
        tile.x,
        tile.y,
        padded.byte,
        count(waste.bytes, "byte"),
        padded.size,
        numbers(waste)
    )
}

/// How many numbers are not plain.
fn numbers(waste: &Waste) -> String {
    let numbers = count(waste.numbers, "number");
    match waste.minus_zeros {
        0 => numbers,
        zeros => format!("{numbers} ({zeros} minus zero)"),
    }
}

/// The feature of a finding, as a person knows it.
pub fn feature_text(feature: &FeatureNote) -> String {
    let mut parts = vec![format!("{} {}", feature.kind.word(), feature.number)];
    if let Some(name) = &feature.name {
        parts[0].push_str(&format!(" \"{}\"", clean(name)));
    }
    if !feature.tags.is_empty() {
        parts.push(tags(&feature.tags));
    }
    parts.extend(feature.position.map(|at| format!("at {}", position(at))));
    parts.extend(feature.zooms.map(|(from, to)| match from == to {
        true => format!("zoom {from}"),
        false => format!("zoom {from} to {to}"),
    }));
    parts.join(", ")
}

/// The place of a finding: where in the map and, unless its feature tells, where on earth.
pub fn place_text(finding: &Finding) -> String {
    let mut place = finding.place();
    let known = finding.feature.as_ref().is_some_and(|feature| feature.position.is_some());
    if let Some(around) = finding.around.filter(|_| !known) {
        place.push_str(&format!(", around {}", position(around)));
    }
    place
}

/// The place of a finding and what is wrong.
fn fact(finding: &Finding) -> String {
    let (place, what) = (place_text(finding), clean(&finding.what()));
    if place.is_empty() {
        return what;
    }
    format!("{place}: {what}")
}

/// A finding for a person: the feature, the place and what is wrong, what follows and what to do.
fn finding_text(number: u64, finding: &Finding) -> String {
    let mut lines = Vec::new();
    lines.extend(finding.feature.as_ref().map(feature_text));
    lines.push(fact(finding));
    lines.push(format!("list:  {}", clean(&finding.collected())));
    lines.push(format!("panel: {}", clean(&finding.streamed())));
    lines.push(format!("do:    {}", finding.remedy()));
    let indent = format!("\n{:4}", "");
    format!("{:<3} {}\n", format!("{number}."), lines.join(&indent))
}

/// The document of `--json`.
fn document(checked: &[Checked], status: Status) -> Value {
    Value::object([
        ("format", Value::text("mapsforge-check")),
        ("version", Value::Whole(1)),
        ("status", Value::Whole(status as u64)),
        ("maps", Value::List(checked.iter().map(map_value).collect())),
    ])
}

fn map_value(checked: &Checked) -> Value {
    let start = Value::object([
        ("map", Value::text(checked.name.clone())),
        ("verdict", Value::text(checked.verdict())),
        ("checked", Value::Bool(checked.result.is_ok())),
    ]);
    let seen = match &checked.result {
        Ok(seen) => seen,
        Err(why) => return start.with("error", Value::text(why.clone())),
    };
    start
        .with("sub_files", Value::Whole(seen.sub_files as u64))
        .with("tiles", Value::Whole(seen.sum.tiles))
        .with("empty_tiles", Value::Whole(seen.sum.empty))
        .with("points", Value::Whole(seen.sum.points))
        .with("ways", Value::Whole(seen.sum.ways))
        .with("finding_count", Value::Whole(seen.sum.findings))
        .with("findings", Value::List(seen.findings.iter().map(finding_value).collect()))
        .with(
            "padding",
            Value::optional(seen.padded.as_ref(), |padded| padding_value(seen, padded)),
        )
}

fn padding_value(seen: &Seen, padded: &[Padded]) -> Value {
    let sum = &seen.sum.padding;
    let whole = Value::Whole;
    Value::object([
        ("looked_at_tiles", whole(sum.looked_at)),
        ("padded_tiles", whole(sum.tiles)),
        ("padded_heads", whole(sum.heads)),
        ("padded_points", whole(sum.points)),
        ("padded_ways", whole(sum.ways)),
        ("numbers", whole(sum.waste.numbers)),
        ("minus_zeros", whole(sum.waste.minus_zeros)),
        ("wasted_bytes", whole(sum.waste.bytes)),
        ("map_bytes", whole(seen.bytes)),
        ("padded", Value::List(padded.iter().map(padded_value).collect())),
    ])
}

fn padded_value(padded: &Padded) -> Value {
    let Padded { covered, tile, waste, .. } = padded;
    let whole = |number: usize| Value::Whole(number as u64);
    Value::object([
        ("sub_file", whole(covered.sub_file)),
        ("tile", whole(tile.number)),
        ("tile_zoom", Value::Whole(covered.base_zoom.into())),
        ("tile_x", Value::Signed(tile.x.into())),
        ("tile_y", Value::Signed(tile.y.into())),
        ("around", Value::optional(padded.around, position_value)),
        ("byte", Value::Whole(padded.byte)),
        ("size", Value::Whole(padded.size)),
        ("numbers", Value::Whole(waste.numbers)),
        ("minus_zeros", Value::Whole(waste.minus_zeros)),
        ("wasted_bytes", Value::Whole(waste.bytes)),
        ("feature", Value::optional(padded.feature.as_ref(), feature_value)),
    ])
}

fn finding_value(finding: &Finding) -> Value {
    let covered = finding.covered;
    let whole = |number: usize| Value::Whole(number as u64);
    Value::object([
        ("kind", Value::text(finding.kind())),
        ("what", Value::text(finding.what())),
        ("list", Value::text(finding.collected())),
        ("panel", Value::text(finding.streamed())),
        ("do", Value::text(finding.remedy())),
        ("sub_file", Value::optional(covered, |covered| whole(covered.sub_file))),
        ("tile", Value::optional(finding.tile, |tile| whole(tile.number))),
        ("tile_zoom", Value::optional(covered, |covered| Value::Whole(covered.base_zoom.into()))),
        ("tile_x", Value::optional(finding.tile, |tile| Value::Signed(tile.x.into()))),
        ("tile_y", Value::optional(finding.tile, |tile| Value::Signed(tile.y.into()))),
        ("around", Value::optional(finding.around, position_value)),
        ("byte", Value::optional(finding.byte, Value::Whole)),
        ("refusal", Value::optional(finding.refusal(), |refusal| Value::Whole(refusal.number()))),
        ("feature", Value::optional(finding.feature.as_ref(), feature_value)),
    ])
}

fn feature_value(feature: &FeatureNote) -> Value {
    Value::object([
        ("kind", Value::text(feature.kind.word())),
        ("number", Value::Whole(feature.number)),
        ("name", Value::optional(feature.name.clone(), Value::Text)),
        ("tags", Value::texts(feature.tags.iter().cloned())),
        ("position", Value::optional(feature.position, position_value)),
        ("min_zoom", Value::optional(feature.zooms, |zooms| Value::Whole(zooms.0.into()))),
        ("max_zoom", Value::optional(feature.zooms, |zooms| Value::Whole(zooms.1.into()))),
    ])
}

/// So many tiles may take a while.
const MANY: u64 = 1000;

/// How far it has come, on a terminal.
pub struct Bar {
    on: bool,
    drawn: bool,
    last: Instant,
}

impl Default for Bar {
    fn default() -> Bar {
        Bar { on: io::stderr().is_terminal(), drawn: false, last: Instant::now() }
    }
}

impl Bar {
    /// Draws it now and then; of a map of many tiles at once.
    fn step(&mut self, done: u64, all: u64) {
        let late = self.last.elapsed() >= Duration::from_millis(100);
        if self.on && (late || !self.drawn && all >= MANY) {
            self.last = Instant::now();
            self.draw(done, all);
        }
    }

    fn draw(&mut self, done: u64, all: u64) {
        let filled = (30 * done / all.max(1)).min(30) as usize;
        let bar = format!("{}{}", "#".repeat(filled), ".".repeat(30 - filled));
        let _ = write!(io::stderr(), "\r[{bar}] {done} of {all} tiles");
        let _ = io::stderr().flush();
        self.drawn = true;
    }

    /// Takes the bar away, so that a line can be written.
    fn clear(&mut self) {
        if self.drawn {
            let _ = write!(io::stderr(), "\r\x1b[K");
            let _ = io::stderr().flush();
            self.drawn = false;
        }
    }
}
