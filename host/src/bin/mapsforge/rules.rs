//! `mapsforge rules`

use crate::args::{Args, Choice};
use crate::input::Source;
use crate::json::Value;
use crate::output::{clean, count, Unheard};
use crate::{reason, result, Failure, Outcome, Status};
use mapsforge::{word, Fault, Map, Refusal, RuleList, Rules};
use std::fs::File;
use std::io::{self, IsTerminal, Read, Write};

pub const HELP: &str = "\
mapsforge rules MAP FILE [--to text|bits] [-o OUTPUT] [--json]
mapsforge rules MAP --new [-o OUTPUT]

Checks showing rules, which say which ways show at which zoom: for each way tag of the map the
rules must name each zoom from 0 to 31 just one time. Tells all that is wrong with them, then
PASS or DO NOT USE. FILE has the rules as text, a line for each, TAG ZOOMS CLASS:

    highway=path   0-13  hidden     # footpaths only when close
    highway=path  14-31  3

or as bits, four bytes for each: way tag id (16 bits), lowest zoom (5), highest zoom (5) and
class (6), the most significant first. A file with a byte 0 is taken for bits. TAG may be @ and
the tag's number, ZOOMS is one zoom or a range, CLASS hidden (0) or a number from 1 to 63.
`mapsforge svg` draws what rules show.

    --new                a table to start from, as text: every way shows at every zoom
    --to text            the rules as text, also if they do not pass
    --to bits            the rules as bits, if they pass
    -o, --output OUTPUT  to this file instead of standard output
    --json               for programs; docs/JSON.md says what is in it

The status is 1 if the rules do not pass, 2 if they cannot be read.
";

pub const OPTIONS: &[Choice] = &[
    Choice { long: "--new", short: None, valued: false },
    Choice { long: "--to", short: None, valued: true },
    Choice { long: "--output", short: Some("-o"), valued: true },
    Choice { long: "--json", short: None, valued: false },
];

/// What is read of a file of rules at the most: no table that passes needs as many.
const MOST: u64 = 1 << 30;
/// How many faults are told.
const TOLD: usize = 100;

/// The form in which rules are to be written.
#[derive(Clone, Copy, PartialEq, Eq)]
enum Form {
    Text,
    Bits,
}

pub fn run(args: &Args, out: &mut dyn Write) -> Outcome {
    let form = match args.value("--to") {
        None => None,
        Some("text") => Some(Form::Text),
        Some("bits") => Some(Form::Bits),
        Some(other) => {
            return Err(args.mistake(&format!("takes text or bits behind --to, not {other:?}")))
        }
    };
    if args.has("--new") {
        if form.is_some() || args.has("--json") {
            return Err(args.mistake("takes --new without --to and --json"));
        }
        return start(args, out);
    }
    if args.has("--output") && form.is_none() {
        return Err(args.mistake("takes --output with --to or --new only"));
    }
    if args.has("--json") && form.is_some() {
        return Err(args.mistake("takes --json or --to, not both"));
    }
    let [path, rules] = args.plain(["a MAP", "a FILE of rules, or --new"])?;
    if (path, rules) == ("-", "-") {
        return Err(args.mistake("takes - for one file, not for both"));
    }
    let source = Source::named(path);
    let file = source.open()?;
    let map = source.map(&file)?;
    let checked = Checked::new(&map, rules)?;
    let mut out = Unheard::new(out);
    match form {
        Some(form) => checked.convert(form, args.value("--output"), source, &mut out)?,
        None if args.has("--json") => writeln!(out, "{}", checked.document())?,
        None => checked.tell(&mut out)?,
    }
    Ok(checked.status())
}

/// Writes a table to start from.
fn start(args: &Args, out: &mut dyn Write) -> Outcome {
    let [path] = args.plain(["a MAP"])?;
    let source = Source::named(path);
    let file = source.open()?;
    let map = source.map(&file)?;
    let text = RuleList::all_shown(&map).to_text(&map);
    result::write(args.value("--output"), &[source], text.as_bytes(), out)?;
    Ok(Status::Well)
}

/// Reads and checks a file of rules; those that do not pass are told and refused.
pub fn passed(map: &Map<'_>, path: &str) -> Result<Rules, Failure> {
    let Checked { list, result, faults, .. } = Checked::new(map, path)?;
    result.map_err(|refusal| {
        let first = faults.first().map_or(refusal.to_string(), |fault| told(&list, fault, map));
        let path = clean(path);
        Failure::Mistake(format!(
            "cannot use {path}: refused with {}: {first}; `mapsforge rules` tells all that is wrong",
            refusal.number()
        ))
    })
}

/// A file's bytes, or standard input's.
fn read(path: &str) -> Result<Vec<u8>, Failure> {
    let unread = |why: &str| Failure::Mistake(format!("cannot read {}: {why}", clean(path)));
    let failed =
        |error: io::Error| unread(&format!("{}: give the path of a file of rules", reason(&error)));
    let mut content = Vec::new();
    let size = if path == "-" {
        if io::stdin().is_terminal() {
            return Err(unread("it is a terminal: send rules to it"));
        }
        io::stdin().lock().take(MOST + 1).read_to_end(&mut content)
    } else {
        File::open(path).and_then(|file| file.take(MOST + 1).read_to_end(&mut content))
    };
    if size.map_err(failed)? as u64 > MOST {
        return Err(unread("it is larger than any rules"));
    }
    if content.starts_with(&crate::input::MAGIC) {
        return Err(unread("it is a map: give the path of a file of rules behind the map's"));
    }
    Ok(content)
}

/// Rules that were looked at.
struct Checked<'m, 'a> {
    map: &'m Map<'a>,
    name: String,
    list: RuleList,
    result: Result<Rules, Refusal>,
    faults: Vec<Fault>,
}

impl<'m, 'a> Checked<'m, 'a> {
    fn new(map: &'m Map<'a>, path: &str) -> Result<Checked<'m, 'a>, Failure> {
        let content = read(path)?;
        let list = RuleList::from_file(&content, map).map_err(|mistake| {
            Failure::Mistake(format!("cannot read {}: {mistake}", clean(path)))
        })?;
        let result = list.check(map);
        let faults = if result.is_err() { list.faults(map) } else { Vec::new() };
        Ok(Checked { map, name: path.into(), list, result, faults })
    }

    fn status(&self) -> Status {
        Status::well_if(self.result.is_ok())
    }

    fn verdict(&self) -> &'static str {
        if self.result.is_ok() {
            "PASS"
        } else {
            "DO NOT USE"
        }
    }

    /// How many rules there are, for how many tags.
    fn counted(&self) -> String {
        let rules = count(self.list.rules().len() as u64, "rule");
        format!("{rules} for {}", count(self.map.way_tags().len() as u64, "way tag"))
    }

    fn tell(&self, out: &mut dyn Write) -> io::Result<()> {
        for (k, fault) in self.faults.iter().take(TOLD).enumerate() {
            writeln!(out, "{:<3} {}", format!("{}.", k + 1), told(&self.list, fault, self.map))?;
        }
        if self.faults.len() > TOLD {
            writeln!(out, "... and {} more", self.faults.len() - TOLD)?;
        }
        writeln!(out, "{}", self.counted())?;
        if let Ok(rules) = &self.result {
            for (lowest, highest, shown) in shown_at(rules) {
                let tags = count(shown, "way tag");
                match lowest == highest {
                    true => writeln!(out, "zoom {lowest}: {tags} shown")?,
                    false => writeln!(out, "zooms {lowest} to {highest}: {tags} shown")?,
                }
            }
        }
        let refused = self.result.as_ref().err().map(|refusal| refusal.number());
        let number = refused.map_or(String::new(), |number| format!(": refused with {number}"));
        writeln!(out, "{}: {}{number}", self.verdict(), clean(&self.name))
    }

    /// Writes the rules in a form. Bits that do not pass are of no use to anybody, but as a text they can be mended.
    fn convert(
        &self,
        form: Form,
        to: Option<&str>,
        map: Source,
        out: &mut dyn Write,
    ) -> Result<(), Failure> {
        let whole = self.list.bytes().len().is_multiple_of(word::RULE_BYTES);
        if whole && (form == Form::Text || self.result.is_ok()) {
            let content = match form {
                Form::Text => self.list.to_text(self.map).into_bytes(),
                Form::Bits => self.list.bytes().to_vec(),
            };
            result::write(to, &[map], &content, out)?;
            out.flush()?;
        }
        // What is wrong goes where it is not taken for rules.
        let mut told = Vec::new();
        if self.result.is_err() {
            self.tell(&mut told)?;
        }
        let _ = io::stderr().write_all(&told);
        Ok(())
    }

    fn document(&self) -> Value {
        let refusal = self.result.as_ref().err();
        Value::object([
            ("format", Value::text("mapsforge-rules")),
            ("version", Value::Whole(1)),
            ("status", Value::Whole(self.status() as u64)),
            ("rules", Value::text(self.name.clone())),
            ("verdict", Value::text(self.verdict())),
            ("refusal", Value::optional(refusal, |refusal| Value::Whole(refusal.number()))),
            ("rule_count", Value::Whole(self.list.rules().len() as u64)),
            ("way_tags", Value::Whole(self.map.way_tags().len() as u64)),
            ("fault_count", Value::Whole(self.faults.len() as u64)),
            ("faults", Value::List(self.faults.iter().map(|fault| self.fault(fault)).collect())),
        ])
    }

    fn fault(&self, fault: &Fault) -> Value {
        let (tag, zooms) = match fault {
            Fault::Length(_) => (None, None),
            Fault::Outside { tag, .. } => (Some(*tag), None),
            Fault::Reversed { lowest, highest, .. } => (None, Some((*lowest, *highest))),
            Fault::Twice { tag, lowest, highest, .. } | Fault::Missing { tag, lowest, highest } => {
                (Some(*tag), Some((*lowest, *highest)))
            }
        };
        let name = tag.and_then(|tag| self.map.way_tags().get(tag.into()));
        let lines = fault.rules().filter_map(|rule| self.list.line(rule));
        let whole = |number: usize| Value::Whole(number as u64);
        Value::object([
            ("refusal", Value::Whole(fault.number())),
            ("what", Value::text(fault.told(self.map))),
            ("tag", Value::optional(tag, |tag| Value::Whole(tag.into()))),
            ("tag_name", Value::optional(name, |name| Value::text(name.text.to_text()))),
            ("min_zoom", Value::optional(zooms, |(lowest, _)| Value::Whole(lowest.into()))),
            ("max_zoom", Value::optional(zooms, |(_, highest)| Value::Whole(highest.into()))),
            ("rule_numbers", Value::List(fault.rules().map(whole).collect())),
            ("lines", Value::List(lines.map(whole).collect())),
        ])
    }
}

/// A fault, with the rules that it is about, in a line.
fn told(list: &RuleList, fault: &Fault, map: &Map<'_>) -> String {
    let place = |rule: usize| match list.line(rule) {
        Some(line) => format!("line {line}"),
        None => format!("rule {rule} (byte {})", rule * word::RULE_BYTES),
    };
    let rules: Vec<String> = fault.rules().map(place).collect();
    let advice = match fault {
        Fault::Twice { .. } => ": leave only one of them",
        Fault::Missing { .. } => ": add a rule",
        Fault::Length(_) | Fault::Outside { .. } | Fault::Reversed { .. } => "",
    };
    let sentence = clean(&fault.told(map));
    match &rules[..] {
        [] => format!("{sentence}{advice}"),
        [one] => format!("{one}: {sentence}{advice}"),
        [some @ .., last] => format!("{sentence}, by {} and {last}{advice}", some.join(", ")),
    }
}

/// The zooms in stretches with as many tags that show.
fn shown_at(rules: &Rules) -> Vec<(usize, usize, u64)> {
    let mut stretches: Vec<(usize, usize, u64)> = Vec::new();
    for zoom in 0..word::ZOOMS {
        let classes = rules.classes().iter().skip(zoom).step_by(word::ZOOMS);
        let shown = classes.filter(|&&class| usize::from(class) != word::HIDDEN).count() as u64;
        match stretches.last_mut() {
            Some((_, highest, same)) if *same == shown => *highest = zoom,
            _ => stretches.push((zoom, zoom, shown)),
        }
    }
    stretches
}
