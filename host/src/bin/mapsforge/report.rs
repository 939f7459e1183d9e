//! `mapsforge report`

use crate::args::{Args, Choice};
use crate::check::{feature_text, gather, place_text, Checked, How as Checking};
use crate::draw::escape;
use crate::draw::part::{declined, Drawing, How, Part};
use crate::input::{self, Source};
use crate::output::{clean, count, date, position, short, tags, Unheard};
use crate::query::Query;
use crate::{result, Failure, Outcome, Status};
use mapsforge::check::Finding;
use mapsforge::{Map, MapFile, Placed, Position, SubFile, TagFilter, TilePlace};
use std::fmt::Write as _;
use std::io::{self, Write};
use std::time::SystemTime;

pub const HELP: &str = "\
mapsforge report MAP... -o FILE [--must-show TAGS] [--decline TAGS] [--all]

Writes a page for a browser, in one file that needs nothing else. It has the verdict on each
map, the findings as a table, pictures of each finding's tile as a list and as a panel show it,
and the features that must be shown, with their positions and pictures. MAP is as for check.

    -o, --output FILE    the page; without this, it goes to standard output
    --must-show TAGS     list the features with one of these tags, KEY[=VALUE],...
    --decline TAGS       what the panel declines, by default highway,building
    --zoom ZOOM          the zoom of what must be shown, by default the map's highest
    --language LANGUAGE  names in pictures in this language, where the map has them
    --all                all findings and pictures, not only the first 100 and 12 of a map

The status is that of check; it is 1 too if a map has no feature that must be shown.
";

pub const OPTIONS: &[Choice] = &[
    Choice { long: "--output", short: Some("-o"), valued: true },
    Choice { long: "--must-show", short: None, valued: true },
    Choice { long: "--decline", short: None, valued: true },
    Choice { long: "--zoom", short: Some("-z"), valued: true },
    Choice { long: "--language", short: None, valued: true },
    Choice { long: "--all", short: None, valued: false },
];

/// How many pictures of a kind a map has.
const PICTURES: usize = 12;
/// The side of the square around what must be shown, and how much of it is put into one.
const SQUARE: f64 = 800.0;
const TOGETHER: f64 = 300.0;

pub fn run(args: &Args, out: &mut dyn Write) -> Outcome {
    let sources = input::sources(args.some("a MAP")?);
    let asked = Asked::new(args)?;
    let sections: Vec<_> = sources.iter().map(|source| Section::new(source, &asked)).collect();
    let status = sections.iter().map(|section| section.status).max().unwrap_or(Status::Well);
    let page = page(&sections);
    let mut out = Unheard::new(out);
    let to = args.value("--output");
    result::write(to, &sources, page.as_bytes(), &mut out)?;
    for section in &sections {
        for complaint in &section.complaints {
            let _ = writeln!(io::stderr(), "mapsforge: {}", clean(complaint));
        }
        if to.is_some_and(|to| to != "-") {
            writeln!(out, "{}: {}", section.checked.verdict(), clean(&section.checked.name))?;
        }
    }
    Ok(status)
}

/// What is asked for.
struct Asked {
    checking: Checking,
    zoom: Option<u8>,
    how: How,
    pictures: usize,
}

impl Asked {
    fn new(args: &Args) -> Result<Asked, Failure> {
        let how = How {
            collected: true,
            streamed: true,
            declined: declined(args.tags("--decline")?),
            required: args.tags("--must-show")?,
            language: args.value("--language").map(String::from),
        };
        let pictures = if args.has("--all") { usize::MAX } else { PICTURES };
        let zoom = args.number("--zoom", "a number from 0 to 255")?;
        Ok(Asked { checking: Checking::new(args)?, zoom, how, pictures })
    }

    fn required(&self) -> String {
        let tags: Vec<_> = self.how.required.iter().map(TagFilter::to_string).collect();
        tags.join(" or ")
    }
}

/// A map in the report.
struct Section {
    checked: Checked,
    status: Status,
    complaints: Vec<String>,
    /// Pictures and lists behind the findings, as HTML.
    body: String,
}

impl Section {
    fn new(source: &Source, asked: &Asked) -> Section {
        let name = source.name.clone();
        let opened = source.open().and_then(|file| Section::of_map(source, &file, asked));
        opened.unwrap_or_else(|failure| Section {
            checked: Checked { name, result: Err(failure.text()) },
            status: Status::Unseen,
            complaints: vec![failure.text()],
            body: String::new(),
        })
    }

    fn of_map(source: &Source, file: &MapFile, asked: &Asked) -> Result<Section, Failure> {
        let map = source.map(file)?;
        let seen = gather(&map, &asked.checking);
        let (pictures, clear) =
            (finding_pictures(&map, &seen.findings, asked), seen.findings.is_empty());
        let checked = Checked { name: source.name.clone(), result: Ok(seen) };
        let status = checked.status();
        let mut section = Section { checked, status, complaints: Vec::new(), body: pictures };
        if !asked.how.required.is_empty() {
            section.required(&map, asked);
        } else if clear {
            section.body.push_str(&overview(&map, asked));
        }
        Ok(section)
    }

    /// The features that must be shown: a table, and pictures of their surroundings.
    fn required(&mut self, map: &Map<'_>, asked: &Asked) {
        let query = Query { zoom: asked.zoom, tags: asked.how.required.clone(), bounds: None };
        let mut found: Vec<(String, Option<Position>, String)> = Vec::new();
        let missing = query.each(map, |sub_file, place, feature| {
            let mut row = String::new();
            required_row(sub_file, place, &feature, &mut row);
            found.push((shown(&feature), feature.position(), row));
            Ok(())
        });
        found.sort_by_cached_key(|(name, ..)| ordered(name));
        let rows: String = found.iter().map(|(.., row)| row.as_str()).collect();
        let places: Vec<(String, Position)> =
            found.into_iter().filter_map(|(name, at, _)| Some((name, at?))).collect();
        let missing = missing.unwrap_or_else(|failure| vec![failure]);
        self.complaints.extend(missing.iter().map(Failure::text));
        let tags = asked.required();
        let _ = writeln!(self.body, "<h3>What must be shown: {}</h3>", escape(&tags));
        if places.is_empty() {
            self.status = self.status.max(Status::Found);
            let text = format!("the map has no feature with {tags}");
            let _ = writeln!(self.body, "<p class=\"bad\">{}</p>", escape(&text));
            self.complaints.push(format!("{}: {text}", self.checked.name));
            return;
        }
        if !missing.is_empty() {
            self.status = self.status.max(Status::Found);
        }
        let _ = writeln!(
            self.body,
            "<table class=\"required\"><thead><tr><th>Feature</th><th>Tags</th>\
             <th>Position</th><th>Tile</th></tr></thead><tbody>\n{rows}</tbody></table>"
        );
        self.body.push_str(&surroundings(map, &places, asked));
    }
}

/// By what names are sorted: in the order of the alphabet, but numbers in them by their size.
fn ordered(name: &str) -> Vec<(u64, String)> {
    let mut parts: Vec<(u64, String)> = Vec::new();
    for run in name.as_bytes().chunk_by(|one, other| one.is_ascii_digit() == other.is_ascii_digit())
    {
        let text = String::from_utf8_lossy(run).into_owned();
        parts.push((text.parse().unwrap_or(u64::MAX), text));
    }
    parts
}

/// A feature's name, if it has one.
fn shown(feature: &Placed<'_>) -> String {
    feature.shown_name().map_or("without a name".into(), clean)
}

fn required_row(
    sub_file: &SubFile<'_, '_>,
    place: TilePlace,
    feature: &Placed<'_>,
    rows: &mut String,
) {
    let name = shown(feature);
    let at = feature.position().map_or("no nodes".into(), position);
    let kind = feature.kind.word();
    row(
        &[
            ("Feature", format!("{kind} <b>{}</b>", escape(&name))),
            ("Tags", escape(&tags(&feature.tag_texts()))),
            ("Position", escape(&at)),
            ("Tile", escape(&short(sub_file, place))),
        ],
        rows,
    );
}

/// A row of a table; each cell has its heading too, for windows in which it stands below the others.
fn row(cells: &[(&str, String)], rows: &mut String) {
    rows.push_str("<tr>");
    for (heading, text) in cells {
        let _ = write!(rows, "<td data-of=\"{heading}\">{text}</td>");
    }
    rows.push_str("</tr>\n");
}

/// Both pictures of each tile that has a finding.
fn finding_pictures(map: &Map<'_>, findings: &[Finding], asked: &Asked) -> String {
    let mut tiles: Vec<(usize, TilePlace)> = Vec::new();
    for finding in findings {
        if let (Some(covered), Some(tile)) = (finding.covered, finding.tile) {
            if !tiles.contains(&(covered.sub_file, tile)) {
                tiles.push((covered.sub_file, tile));
            }
        }
    }
    let mut html = String::new();
    for &(number, place) in tiles.iter().take(asked.pictures) {
        let Ok(sub_file) = map.sub_file(number) else { continue };
        // What must be shown has pictures of its own.
        let how = How { required: Vec::new(), ..asked.how.clone() };
        if let Ok(drawing) = Part::tile(sub_file, place, None).draw(&how) {
            let name = crate::output::tile(&sub_file, place);
            figure(&format!("{name}, as a list and as a panel show it"), &drawing, &mut html);
        }
    }
    left_out(tiles.len(), asked, &mut html);
    html
}

/// Says how many pictures are not there.
fn left_out(all: usize, asked: &Asked, html: &mut String) {
    if all > asked.pictures {
        let more = count((all - asked.pictures) as u64, "picture");
        let _ = writeln!(html, "<p>... and {more} more: --all draws them.</p>");
    }
}

/// Pictures of places, those that are close to each other in one.
fn surroundings(map: &Map<'_>, places: &[(String, Position)], asked: &Asked) -> String {
    let how = How { streamed: false, ..asked.how.clone() };
    let mut groups: Vec<Vec<&(String, Position)>> = Vec::new();
    for place in places {
        let near = |group: &&mut Vec<_>| middle(group).metres_to(place.1) <= TOGETHER;
        match groups.iter_mut().find(near) {
            Some(group) => group.push(place),
            None => groups.push(vec![place]),
        }
    }
    let mut html = String::from("<div class=\"figures\">\n");
    for group in groups.iter().take(asked.pictures) {
        let drawing = Part::around(map, middle(group), SQUARE, asked.zoom);
        if let Ok(drawing) = drawing.and_then(|part| part.draw(&how)) {
            let names: Vec<_> = group.iter().map(|(name, _)| name.as_str()).collect();
            let title =
                format!("{}: {SQUARE} metres around {}", names.join(", "), position(middle(group)));
            figure(&title, &drawing, &mut html);
        }
    }
    html.push_str("</div>\n");
    left_out(groups.len(), asked, &mut html);
    html
}

fn middle(group: &[&(String, Position)]) -> Position {
    let count = group.len().max(1) as f64;
    let sum =
        group.iter().fold((0.0, 0.0), |sum, (_, at)| (sum.0 + at.latitude, sum.1 + at.longitude));
    Position { latitude: sum.0 / count, longitude: sum.1 / count }
}

/// A picture of where the map starts, so that a person sees what map it is.
fn overview(map: &Map<'_>, asked: &Asked) -> String {
    let covered = map.header().bounding_box;
    let at = map.header().start_position.unwrap_or(Position {
        latitude: (covered.south + covered.north) / 2.0,
        longitude: (covered.west + covered.east) / 2.0,
    });
    let how = How { streamed: false, ..asked.how.clone() };
    let mut html = String::new();
    let drawing = Part::around(map, at, 2.0 * SQUARE, asked.zoom);
    if let Ok(drawing) = drawing.and_then(|part| part.draw(&how)) {
        figure(&format!("Around {}", position(at)), &drawing, &mut html);
    }
    html
}

/// Pictures with what is to be said of them.
fn figure(title: &str, drawing: &Drawing<'_>, html: &mut String) {
    let _ = writeln!(html, "<figure><figcaption>{}</figcaption>", escape(title));
    html.push_str("<div class=\"pictures\">\n");
    drawing.apart().for_each(|svg| html.push_str(&svg));
    html.push_str("</div>\n");
    if !drawing.below.is_empty() {
        html.push_str("<ul>\n");
        for line in &drawing.below {
            let _ = writeln!(html, "<li>{}</li>", escape(line.trim()));
        }
        html.push_str("</ul>\n");
    }
    html.push_str("</figure>\n");
}

const STYLE: &str = "\
:root{font-family:system-ui,sans-serif;line-height:1.45;color:#222;background:#fff}\
body{margin:0}main{max-width:110rem;margin:0 auto;padding:1rem 1.5rem 3rem}\
h1{font-size:1.6rem}h2{font-size:1.25rem;overflow-wrap:anywhere;border-top:2px solid #ccc;padding-top:1rem}\
h3{font-size:1.05rem}.verdict{display:inline-block;padding:.15em .6em;border-radius:.3em;color:#fff;font-weight:bold}\
.pass{background:#1a7a3a}.fail{background:#c00000}.bad{color:#c00000;font-weight:bold}\
table{border-collapse:collapse;width:100%}th,td{border:1px solid #ccc;padding:.4em .6em;text-align:left;vertical-align:top;overflow-wrap:anywhere}\
th{background:#f0f0f0;white-space:nowrap}figure{margin:1.5rem 0}figcaption{font-weight:bold;margin-bottom:.5rem}\
.pictures{display:flex;flex-wrap:wrap;align-items:flex-start;gap:1rem}.pictures>svg{flex:1 1 28rem;min-width:0;max-width:64rem;width:100%;height:auto;border:1px solid #ccc}\
.made{color:#666}.figures{display:grid;grid-template-columns:repeat(auto-fit,minmax(min(100%,34rem),1fr));gap:0 1rem}\
@media(min-width:50.01rem){td[data-of=Feature],td[data-of=Where]{min-width:9rem}td[data-of=Position],td[data-of=Tile],td[data-of=Verdict]{white-space:nowrap}}\
@media(max-width:50rem){main{padding:.5rem .8rem 2rem}thead{display:none}table,tbody,tr,td{display:block}\
tr{border:1px solid #ccc;margin-bottom:.8rem}td{border:0}td::before{content:attr(data-of) \": \";font-weight:bold}\
.pictures>svg{flex-basis:100%}}";

/// The whole page.
fn page(sections: &[Section]) -> String {
    let now = SystemTime::now().duration_since(SystemTime::UNIX_EPOCH);
    let made = now.map_or(0, |since| since.as_millis() as u64);
    let mut html = format!(
        "<!DOCTYPE html>\n<html lang=\"en\">\n<head>\n<meta charset=\"utf-8\">\n\
         <meta name=\"viewport\" content=\"width=device-width, initial-scale=1\">\n\
         <title>Maps: {}</title>\n<style>{STYLE}</style>\n</head>\n<body>\n<main>\n\
         <h1>Can these maps be used?</h1>\n<p class=\"made\">mapsforge {}, {}</p>\n",
        escape(&whole(sections)),
        env!("CARGO_PKG_VERSION"),
        date(made)
    );
    html.push_str("<table class=\"maps\"><thead><tr><th>Map</th><th>Verdict</th><th>What was read</th></tr></thead><tbody>\n");
    for (k, section) in sections.iter().enumerate() {
        let name = escape(&section.checked.name);
        row(
            &[
                ("Map", format!("<a href=\"#map-{k}\">{name}</a>")),
                ("Verdict", verdict(&section.checked)),
                ("What was read", escape(&counted(&section.checked))),
            ],
            &mut html,
        );
    }
    html.push_str("</tbody></table>\n");
    for (k, section) in sections.iter().enumerate() {
        section_html(k, section, &mut html);
    }
    html.push_str("</main>\n</body>\n</html>\n");
    html
}

/// The verdict on all maps.
fn whole(sections: &[Section]) -> String {
    let failed = sections.iter().filter(|section| section.status != Status::Well).count() as u64;
    match failed {
        0 => "PASS".into(),
        _ => format!("DO NOT USE {}", count(failed, "map")),
    }
}

fn verdict(checked: &Checked) -> String {
    let class = if checked.status() == Status::Well { "pass" } else { "fail" };
    format!("<span class=\"verdict {class}\">{}</span>", checked.verdict())
}

fn counted(checked: &Checked) -> String {
    match &checked.result {
        Ok(seen) => seen.counted(),
        Err(why) => why.clone(),
    }
}

fn section_html(k: usize, section: &Section, html: &mut String) {
    let checked = &section.checked;
    let _ = writeln!(
        html,
        "<section id=\"map-{k}\">\n<h2>{} {}</h2>\n<p>{}</p>",
        escape(&checked.name),
        verdict(checked),
        escape(&counted(checked))
    );
    if let Ok(seen) = &checked.result {
        if !seen.findings.is_empty() {
            findings_html(&seen.findings, seen.sum.findings, html);
        }
    }
    html.push_str(&section.body);
    html.push_str("</section>\n");
}

fn findings_html(findings: &[Finding], all: u64, html: &mut String) {
    html.push_str(
        "<table class=\"findings\"><thead><tr><th>No.</th><th>Feature</th><th>Where</th>\
         <th>What is wrong</th><th>List</th><th>Panel</th><th>What to do</th></tr></thead><tbody>\n",
    );
    for (k, finding) in findings.iter().enumerate() {
        let feature = finding.feature.as_ref().map_or("–".into(), feature_text);
        row(
            &[
                ("No.", (k + 1).to_string()),
                ("Feature", escape(&feature)),
                ("Where", escape(&place_text(finding))),
                ("What is wrong", escape(&finding.what())),
                ("List", escape(&finding.collected())),
                ("Panel", escape(&finding.streamed())),
                ("What to do", escape(&finding.remedy())),
            ],
            html,
        );
    }
    html.push_str("</tbody></table>\n");
    let shown = findings.len() as u64;
    if all > shown {
        let _ = writeln!(
            html,
            "<p>... and {} more: --all shows them.</p>",
            count(all - shown, "finding")
        );
    }
}

#[cfg(test)]
mod tests {
    use super::ordered;

    #[test]
    fn names_are_sorted_as_people_do() {
        let mut names =
            ["Ramp 10", "Ramp 2 b", "Ramp 2", "Øya", "A", "Ramp", "7", "without a name"];
        names.sort_by_cached_key(|name| ordered(name));
        let sorted = ["7", "A", "Ramp", "Ramp 2", "Ramp 2 b", "Ramp 10", "without a name", "Øya"];
        assert_eq!(names, sorted);
    }
}
