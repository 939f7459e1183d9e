//! `mapsforge diff`

use crate::args::{Args, Choice};
use crate::input::Source;
use crate::json::Value;
use crate::output::{clean, count, name, position, position_value, tags, Unheard};
use crate::{Failure, Outcome, Status};
use mapsforge::diff::{self, Change, Changes, Item, Side, Unread, Wanted};
use mapsforge::{Map, Name, TagFilter};
use std::io::{self, Write};

pub const HELP: &str = "\
mapsforge diff OLD NEW [--tag TAGS] [--zoom ZOOM] [--same] [--json]

Says what changed from one map to another: what was added, removed, moved (and by how many
metres), renamed or retagged. The maps are read side by side, tile by tile, at one zoom, and
every way is decoded.

    --tag TAGS     only features with one of these tags, KEY[=VALUE],...
    --zoom ZOOM    compare at this zoom, by default the highest that both maps have
    --same         list what is the same too
    --json         one document for a program; docs/JSON.md describes it

The status is 0 if nothing changed, 1 if something did, 2 if not everything could be read.
";

pub const OPTIONS: &[Choice] = &[
    Choice { long: "--tag", short: Some("-t"), valued: true },
    Choice { long: "--zoom", short: Some("-z"), valued: true },
    Choice { long: "--same", short: None, valued: false },
    Choice { long: "--json", short: None, valued: false },
];

pub fn run(args: &Args, out: &mut dyn Write) -> Outcome {
    let words = args.plain(["an OLD map", "a NEW map"])?;
    let given: Option<u8> = args.number("--zoom", "a number from 0 to 255")?;
    let filters = args.tags("--tag")?;
    let sources = words.map(Source::named);
    let files = [sources[0].open()?, sources[1].open()?];
    let (old, new) = (sources[0].map(&files[0])?, sources[1].map(&files[1])?);
    let zoom = given.or_else(|| highest(&old).min(highest(&new))).unwrap_or(0);
    let mut out = Unheard::new(out);
    let mut report = Report { same: Vec::new(), failed: None };
    let (kept, json) = (args.has("--same"), args.has("--json"));
    let wanted = Wanted { zoom, tags: &filters };
    let changes = diff::maps(&old, &new, wanted, &mut |item| {
        if kept && json {
            report.same.push(item_value(item));
        } else if kept && report.failed.is_none() {
            report.failed = writeln!(out, "same      {}", told(item, true)).err();
        }
    })?;
    report.failed.map_or(Ok(()), Err)?;
    let Some(changes) = changes else {
        return Err(Failure::Mistake(format!(
            "one of the maps has no sub file for zoom {zoom}: `mapsforge info` lists them"
        )));
    };
    let status = status(&changes);
    if json {
        let start = Value::object([
            ("format", Value::text("mapsforge-diff")),
            ("version", Value::Whole(1)),
            ("status", Value::Whole(status as u64)),
            ("old", Value::text(sources[0].name.clone())),
            ("new", Value::text(sources[1].name.clone())),
            ("zoom", Value::Whole(zoom.into())),
            ("tags", Value::texts(filters.iter().map(TagFilter::to_string))),
        ]);
        writeln!(out, "{}", document(start, &changes, kept.then_some(report.same)))?;
    } else {
        lines(&changes, &mut out)?;
        summary(&changes, zoom, &filters, &mut out)?;
    }
    out.flush()?;
    for unread in &changes.unread {
        let _ = writeln!(io::stderr(), "mapsforge: {}", unread_text(&sources, unread));
    }
    Ok(status)
}

struct Report {
    same: Vec<Value>,
    failed: Option<io::Error>,
}

/// The highest zoom of a map.
fn highest(map: &Map<'_>) -> Option<u8> {
    map.intervals().iter().map(|interval| interval.max_zoom).max()
}

fn status(changes: &Changes) -> Status {
    match (changes.unread.is_empty(), changes.same_features()) {
        (false, _) => Status::Unseen,
        (true, same) => Status::well_if(same),
    }
}

fn unread_text(sources: &[Source; 2], unread: &Unread) -> String {
    let source = &sources[usize::from(unread.side == Side::New)];
    let refusal = unread.refusal;
    format!(
        "cannot read tile {} of {}: refused with {}: {}",
        unread.place.number,
        clean(&source.name),
        refusal.number(),
        refusal.of_tile(unread.place.number)
    )
}

/// Metres as a person says them.
pub fn metres(number: f64) -> String {
    if number < 9.95 {
        return format!("{number:.1} m");
    }
    format!("{number:.0} m")
}

/// A feature in a line, with its place or without.
fn told(item: &Item, placed: bool) -> String {
    let mut text = item.kind.word().to_string();
    if let Some(stored) = &item.name {
        text.push(' ');
        text.push_str(&name(stored));
    }
    if let Some(number) = &item.rest.house_number {
        text.push_str(&format!(" house number \"{}\"", clean(number)));
    }
    text.push_str(&format!(" ({})", tags(&item.rest.tags)));
    if let Some(at) = item.position().filter(|_| placed) {
        text.push_str(&format!(" at {}", position(at)));
    }
    text
}

fn from_to(change: &Change) -> String {
    let at = |item: &Item| item.position().map(position).unwrap_or_default();
    format!("from {} to {}", at(&change.old), at(&change.new))
}

fn lines(changes: &Changes, out: &mut dyn Write) -> io::Result<()> {
    for change in &changes.moved {
        let by = metres(change.metres);
        writeln!(out, "moved     {} by {by}, {}", told(&change.new, false), from_to(change))?;
    }
    for change in &changes.renamed {
        let old = change.old.name.as_deref().map_or("no name".into(), name);
        writeln!(out, "renamed   {}, before {old}{}", told(&change.new, true), moved_too(change))?;
    }
    for change in &changes.retagged {
        let old = tags(&change.old.rest.tags);
        let new = told(&change.new, true);
        writeln!(out, "retagged  {new}, before ({old}){}", moved_too(change))?;
    }
    for item in &changes.removed {
        writeln!(out, "removed   {}", told(item, true))?;
    }
    for item in &changes.added {
        writeln!(out, "added     {}", told(item, true))?;
    }
    Ok(())
}

fn moved_too(change: &Change) -> String {
    if change.metres < 0.2 {
        return String::new();
    }
    format!(", moved by {}", metres(change.metres))
}

fn summary(
    changes: &Changes,
    zoom: u8,
    filters: &[TagFilter],
    out: &mut dyn Write,
) -> io::Result<()> {
    let tags: Vec<_> = filters.iter().map(TagFilter::to_string).collect();
    let tags = if tags.is_empty() { String::new() } else { format!(", {}", tags.join(" or ")) };
    let same = count(changes.same, "feature");
    if changes.same_features() {
        return writeln!(out, "zoom {zoom}{}: no change, {same}", clean(&tags));
    }
    writeln!(
        out,
        "zoom {zoom}{}: {same} the same, {} moved, {} renamed, {} retagged, {} removed, {} added",
        clean(&tags),
        changes.moved.len(),
        changes.renamed.len(),
        changes.retagged.len(),
        changes.removed.len(),
        changes.added.len()
    )
}

fn item_value(item: &Item) -> Value {
    let text = |text: &Option<String>| Value::optional(text.clone(), Value::Text);
    let first = item.name.as_deref().map(|stored| Name::new(stored).first().to_string());
    Value::object([
        ("kind", Value::text(item.kind.word())),
        ("name", text(&first)),
        ("house_number", text(&item.rest.house_number)),
        ("reference", text(&item.rest.reference)),
        ("tags", Value::texts(item.rest.tags.iter().cloned())),
        ("position", Value::optional(item.position(), position_value)),
    ])
}

fn change_value(change: &Change) -> Value {
    Value::object([
        ("old", item_value(&change.old)),
        ("new", item_value(&change.new)),
        ("metres", Value::Decimal(change.metres, 1)),
    ])
}

fn unread_value(unread: &Unread) -> Value {
    let side = match unread.side {
        Side::Old => "old",
        Side::New => "new",
    };
    Value::object([
        ("map", Value::text(side)),
        ("tile", Value::Whole(unread.place.number as u64)),
        ("refusal", Value::Whole(unread.refusal.number())),
    ])
}

fn document(start: Value, changes: &Changes, same: Option<Vec<Value>>) -> Value {
    let items = |list: &[Item]| Value::List(list.iter().map(item_value).collect());
    let pairs = |list: &[Change]| Value::List(list.iter().map(change_value).collect());
    let unread = Value::List(changes.unread.iter().map(unread_value).collect());
    start
        .with("same_count", Value::Whole(changes.same))
        .with("same", Value::optional(same, Value::List))
        .with("moved", pairs(&changes.moved))
        .with("renamed", pairs(&changes.renamed))
        .with("retagged", pairs(&changes.retagged))
        .with("removed", items(&changes.removed))
        .with("added", items(&changes.added))
        .with("unread", unread)
}
