//! A scene as SVG.

use super::labels::{Badge, Entry, Label, Labels, BADGE};
use super::scene::{Drawn, Look, Scene, Stopped};
use super::style::{self, Mark, Style};
use super::{escape, Pixel, SIZE};
use crate::output::{clean, position};
use mapsforge::SubFile;
use std::fmt::Write;

const RED: &str = "#d00000";
const INK: &str = "#333333";
/// The height of a line of text under a picture.
const LINE: f64 = 17.0;
/// The letters of such a line.
const LETTERS: f64 = 12.0;
/// The room around texts.
const EDGE: f64 = 10.0;

/// A picture with what stands above and below it.
pub struct Picture<'a> {
    pub scene: Scene<'a>,
    pub labels: Labels,
    /// A line above it.
    pub heading: Option<String>,
    /// Whether it lacks what the other one has.
    pub lacks: bool,
    /// Lines below it, in red.
    pub notes: Vec<String>,
    /// Where a window is in it: its corner, width and height.
    pub frame: Option<(Pixel, Pixel)>,
}

/// What is said of a tile that was not read to its end.
pub fn stopped(sub_file: &SubFile<'_, '_>, stopped: &Stopped) -> String {
    let (points, ways) = stopped.come;
    let tile = crate::output::short(sub_file, stopped.tile);
    let told = stopped.refusal.of_tile(stopped.tile.number);
    let number = stopped.refusal.number();
    let after = match (points, ways) {
        (0, 0) => String::new(),
        (points, 0) => format!(" behind point {}", points.saturating_sub(1)),
        (_, ways) => format!(" at way {}", ways - 1),
    };
    format!("tile {tile} is refused with {number}{after}, and nothing more of it is drawn: {told}")
}

/// A whole SVG of pictures side by side.
pub fn svg(title: &str, pictures: &[Picture<'_>], below: &[String]) -> String {
    let gap = 16.0;
    let width = pictures.len() as f64 * (SIZE + gap) - gap;
    let tallest = pictures.iter().map(Picture::height).fold(0.0, f64::max);
    let lines = wrapped_all(below, width - 2.0 * EDGE);
    let below = if lines.is_empty() { 0.0 } else { lines.len() as f64 * LINE + 2.0 * EDGE };
    let height = tallest + below;
    let mut svg = String::new();
    let _ = write!(
        svg,
        "<svg xmlns=\"http://www.w3.org/2000/svg\" width=\"{width}\" height=\"{height}\" \
         viewBox=\"0 0 {width} {height}\" font-family=\"sans-serif\">\n\
         <title>{}</title>\n<rect width=\"{width}\" height=\"{height}\" fill=\"#ffffff\"/>\n",
        escape(title)
    );
    for (k, picture) in pictures.iter().enumerate() {
        let _ = writeln!(svg, "<g transform=\"translate({} 0)\">", k as f64 * (SIZE + gap));
        picture.draw(&mut svg);
        svg.push_str("</g>\n");
    }
    let differ = pictures.iter().any(Picture::differs);
    text_lines(&lines, tallest + EDGE, if differ { RED } else { INK }, &mut svg);
    svg.push_str("</svg>\n");
    svg
}

/// Texts in lines of a width.
fn wrapped_all(texts: &[String], width: f64) -> Vec<String> {
    texts.iter().flat_map(|text| wrapped(text, width)).collect()
}

/// A text in lines of a width. What is indented goes on indented.
fn wrapped(text: &str, width: f64) -> Vec<String> {
    let most = (width / (LETTERS * 0.6)).floor().max(8.0) as usize;
    let mut lines = Vec::new();
    let mut line = String::new();
    for word in text.split(' ') {
        let longer = line.chars().count() + 1 + word.chars().count() > most;
        if longer && !line.trim().is_empty() {
            lines.push(std::mem::replace(&mut line, "   ".into()));
        }
        if !line.is_empty() {
            line.push(' ');
        }
        line.push_str(word);
    }
    lines.push(line);
    lines
}

fn text_lines(lines: &[String], top: f64, ink: &str, svg: &mut String) {
    for (k, line) in lines.iter().enumerate() {
        let y = top + (k as f64 + 0.75) * LINE;
        let _ = writeln!(
            svg,
            "<text x=\"{EDGE}\" y=\"{y:.1}\" font-size=\"{LETTERS}\" fill=\"{ink}\" \
             xml:space=\"preserve\">{}</text>",
            escape(line)
        );
    }
}

impl Picture<'_> {
    /// Whether something in it is not in the other one.
    fn differs(&self) -> bool {
        self.scene.features.iter().any(|drawn| drawn.look == Look::Differs)
    }

    fn heading_height(&self) -> f64 {
        if self.heading.is_some() {
            38.0
        } else {
            0.0
        }
    }

    fn notes(&self) -> Vec<String> {
        wrapped_all(&self.notes, SIZE - 2.0 * EDGE)
    }

    /// That tiles are empty, so that nobody looks for what was not drawn.
    fn empty(&self) -> Vec<String> {
        let tiles = self.scene.grounds.len();
        let which = match self.scene.empty {
            0 => return Vec::new(),
            1 if tiles == 1 => "The tile is".into(),
            1 => format!("1 of {tiles} tiles is"),
            some => format!("{some} of {tiles} tiles are"),
        };
        vec![format!("{which} empty: by the map's index, it has no features there.")]
    }

    fn notes_height(&self) -> f64 {
        match self.notes().len() + self.empty().len() {
            0 => 0.0,
            lines => lines as f64 * LINE + EDGE,
        }
    }

    fn height(&self) -> f64 {
        let legend = legend_columns(&self.labels.legend);
        let lines = legend.iter().map(Vec::len).max().unwrap_or(0);
        let legend = if lines == 0 { 0.0 } else { lines as f64 * LINE + 2.0 * EDGE };
        self.heading_height() + SIZE + self.notes_height() + legend
    }

    fn draw(&self, svg: &mut String) {
        if let Some(heading) = &self.heading {
            let _ = writeln!(
                svg,
                "<text x=\"{EDGE}\" y=\"25\" font-size=\"17\" font-weight=\"bold\" \
                 fill=\"{}\">{}</text>",
                if self.lacks { RED } else { INK },
                escape(heading)
            );
        }
        let top = self.heading_height();
        // What goes beyond the picture is cut off by an SVG in the SVG.
        let _ = writeln!(svg, "<svg y=\"{top}\" width=\"{SIZE}\" height=\"{SIZE}\">");
        self.draw_grounds(svg);
        svg.push_str("<g stroke-linejoin=\"round\" stroke-linecap=\"round\">\n");
        self.draw_ways(svg);
        self.draw_differences(svg);
        for point in self.scene.features.iter().filter(|drawn| drawn.is_point()) {
            draw_mark(point, svg);
        }
        svg.push_str("</g>\n");
        self.draw_frame(svg);
        self.draw_labels(svg);
        svg.push_str("</svg>\n");
        let (notes, below) = (self.notes(), top + SIZE + EDGE / 2.0);
        text_lines(&notes, below, RED, svg);
        text_lines(&self.empty(), below + notes.len() as f64 * LINE, INK, svg);
        self.draw_legend(top + SIZE + self.notes_height() + EDGE, svg);
    }

    fn draw_grounds(&self, svg: &mut String) {
        // Where no tile is, nothing is known.
        let _ = writeln!(svg, "<rect width=\"{SIZE}\" height=\"{SIZE}\" fill=\"#dddddd\"/>");
        for ((x, y), side, sea) in &self.scene.grounds {
            let colour = if *sea { style::SEA } else { style::LAND };
            // A little wider, so that no seam shows.
            let side = side + 0.5;
            let _ = writeln!(
                svg,
                "<rect x=\"{x:.1}\" y=\"{y:.1}\" width=\"{side:.1}\" height=\"{side:.1}\" \
                 fill=\"{colour}\"/>"
            );
        }
    }

    /// Beyond the window there is only what reaches into it.
    fn draw_frame(&self, svg: &mut String) {
        if let Some(((x, y), (width, height))) = self.frame {
            let _ = writeln!(
                svg,
                "<rect x=\"{x:.1}\" y=\"{y:.1}\" width=\"{width:.1}\" height=\"{height:.1}\" \
                 fill=\"none\" stroke=\"{INK}\" stroke-width=\"2\" stroke-dasharray=\"8 5\"/>"
            );
        }
    }

    /// Widths of lines, by the picture's scale. A tile of 1024 pixels has the scale of two zooms more.
    fn scale(&self) -> f64 {
        1.2f64.powf(self.scene.view.zoom() - 13.0).clamp(0.35, 2.2)
    }

    /// Areas first, then layer by layer the lines, their casings beneath them, then buildings.
    fn draw_ways(&self, svg: &mut String) {
        let ways = self.scene.features.iter().filter(|drawn| !drawn.is_point());
        let mut styled: Vec<(&Drawn<'_>, Style)> =
            ways.map(|way| (way, style::of_way(&way.tags, way.closed()))).collect();
        styled.sort_by_key(|(way, style)| (style.fill.is_none(), way.feature.layer, style.rank));
        let (areas, lines): (Vec<_>, Vec<_>) =
            styled.into_iter().partition(|(_, style)| style.fill.is_some() && style.rank < 60);
        // Buildings lie above roads.
        let (roofs, lines): (Vec<_>, Vec<_>) =
            lines.into_iter().partition(|(_, style)| style.rank >= 60);
        for (way, style) in &areas {
            self.draw_way(way, style, svg);
        }
        for layer in lines.chunk_by(|a, b| a.0.feature.layer == b.0.feature.layer) {
            for (way, style) in layer {
                if let Some(casing) = style.casing {
                    let width = style.width + 2.0;
                    let beneath = Style { stroke: Some(casing), width, dash: None, ..*style };
                    self.draw_way(way, &beneath, svg);
                }
            }
            for (way, style) in layer {
                self.draw_way(way, style, svg);
            }
        }
        for (way, style) in &roofs {
            self.draw_way(way, style, svg);
        }
    }

    fn draw_way(&self, way: &Drawn<'_>, style: &Style, svg: &mut String) {
        path(way, style.fill.is_some(), svg);
        let _ = write!(svg, " fill=\"{}\"", style.fill.unwrap_or("none"));
        if style.fill.is_some() {
            svg.push_str(" fill-rule=\"evenodd\"");
        }
        if let Some(stroke) = style.stroke {
            let width = style.width * self.scale();
            let _ = write!(svg, " stroke=\"{stroke}\" stroke-width=\"{width:.1}\"");
        }
        if let Some(dash) = style.dash {
            let _ = write!(svg, " stroke-dasharray=\"{dash}\" stroke-linecap=\"butt\"");
        }
        if way.look == Look::Pale {
            svg.push_str(" opacity=\"0.3\"");
        }
        svg.push_str("/>\n");
    }

    /// What the other reading does not have, in red above everything.
    fn draw_differences(&self, svg: &mut String) {
        let differ = self.scene.features.iter().filter(|drawn| drawn.look == Look::Differs);
        for drawn in differ {
            if let Some((x, y)) = drawn.at().filter(|_| drawn.is_point()) {
                let _ = writeln!(
                    svg,
                    "<circle cx=\"{x:.1}\" cy=\"{y:.1}\" r=\"12\" fill=\"none\" \
                     stroke=\"{RED}\" stroke-width=\"4\"/>"
                );
                continue;
            }
            let style = style::of_way(&drawn.tags, drawn.closed());
            let filled = style.fill.is_some();
            path(drawn, filled, svg);
            let fill = if filled { RED } else { "none" };
            let width = (style.width * self.scale()).max(4.0);
            let _ = writeln!(
                svg,
                " fill=\"{fill}\" fill-opacity=\"0.25\" fill-rule=\"evenodd\" stroke=\"{RED}\" \
                 stroke-width=\"{width:.1}\"/>"
            );
        }
    }

    fn draw_labels(&self, svg: &mut String) {
        svg.push_str("<g stroke=\"#555555\" stroke-width=\"0.8\">\n");
        let labels = self.labels.labels.iter().map(|label| (label.area.middle, label.leads_to));
        let badges = self.labels.badges.iter().map(|badge| (badge.at, badge.leads_to));
        for ((x, y), leads_to) in labels.chain(badges) {
            if let Some((to_x, to_y)) = leads_to {
                let _ = writeln!(svg, "<path d=\"M{x:.1} {y:.1}L{to_x:.1} {to_y:.1}\"/>");
            }
        }
        // A white rim keeps names legible on any ground.
        svg.push_str("</g>\n<g text-anchor=\"middle\" stroke-linejoin=\"round\" ");
        svg.push_str("paint-order=\"stroke\" stroke=\"#ffffff\" ");
        svg.push_str("stroke-opacity=\"0.85\" stroke-width=\"3\">\n");
        self.labels.labels.iter().for_each(|label| draw_label(label, svg));
        svg.push_str("</g>\n<g text-anchor=\"middle\" font-size=\"10\">\n");
        self.labels.badges.iter().for_each(|badge| draw_badge(badge, svg));
        svg.push_str("</g>\n");
    }

    fn draw_legend(&self, top: f64, svg: &mut String) {
        let columns = legend_columns(&self.labels.legend);
        for (k, lines) in columns.iter().enumerate() {
            let _ = writeln!(svg, "<g transform=\"translate({:.1} 0)\">", k as f64 * SIZE / 3.0);
            text_lines(lines, top, INK, svg);
            svg.push_str("</g>\n");
        }
    }
}

fn path(way: &Drawn<'_>, filled: bool, svg: &mut String) {
    let _ = write!(svg, "<path d=\"");
    for nodes in &way.lines {
        for (k, (x, y)) in nodes.iter().enumerate() {
            let _ = write!(svg, "{}{x:.1} {y:.1}", if k == 0 { "M" } else { "L" });
        }
        if filled {
            svg.push('Z');
        }
    }
    svg.push('"');
}

fn draw_mark(point: &Drawn<'_>, svg: &mut String) {
    let Some((x, y)) = point.at() else { return };
    let _ = match style::of_point(&point.tags) {
        Mark::Dot(colour, radius) => writeln!(
            svg,
            "<circle cx=\"{x:.1}\" cy=\"{y:.1}\" r=\"{radius}\" fill=\"{colour}\" \
             stroke=\"#ffffff\" stroke-width=\"1\"/>"
        ),
        Mark::Triangle(colour) => writeln!(
            svg,
            "<path d=\"M{:.1} {:.1}l7 12h-14Z\" fill=\"{colour}\" stroke=\"#ffffff\" \
             stroke-width=\"1\"/>",
            x,
            y - 7.0
        ),
        Mark::Name(_) => Ok(()),
    };
}

fn draw_label(label: &Label, svg: &mut String) {
    let (x, y) = label.area.middle;
    let down = label.size * 0.35;
    let _ = write!(svg, "<text font-size=\"{}\" fill=\"{}\"", label.size, label.ink);
    if label.area.turn == 0.0 {
        let _ = write!(svg, " x=\"{x:.1}\" y=\"{:.1}\"", y + down);
    } else {
        let turn = label.area.turn;
        let _ = write!(
            svg,
            " transform=\"translate({x:.1} {y:.1}) rotate({turn:.1})\" y=\"{down:.1}\""
        );
    }
    let _ = writeln!(svg, ">{}</text>", escape(&label.text));
}

fn draw_badge(badge: &Badge, svg: &mut String) {
    let (x, y) = badge.at;
    let _ = writeln!(
        svg,
        "<circle cx=\"{x:.1}\" cy=\"{y:.1}\" r=\"{:.1}\" fill=\"#ffffff\" stroke=\"#555555\" \
         stroke-width=\"0.8\"/><text x=\"{x:.1}\" y=\"{:.1}\" fill=\"#333333\">{}</text>",
        BADGE / 2.0,
        y + 3.5,
        badge.number
    );
}

/// The legend in three columns.
fn legend_columns(legend: &[Entry]) -> Vec<Vec<String>> {
    let width = SIZE / 3.0 - 2.0 * EDGE;
    let entries: Vec<Vec<String>> = legend
        .iter()
        .map(|entry| {
            let text = clean(&entry.text);
            let line = match (entry.number, entry.at) {
                (Some(number), _) => format!("{number}  {text}"),
                (None, Some(at)) => format!("{text} (no room at {})", position(at)),
                (None, None) => text,
            };
            wrapped(&line, width)
        })
        .collect();
    let lines: usize = entries.iter().map(Vec::len).sum();
    let tallest = lines.div_ceil(3);
    let mut columns: Vec<Vec<String>> = Vec::new();
    for entry in entries {
        match columns.last_mut() {
            Some(column) if column.len() < tallest => column.extend(entry),
            _ => columns.push(entry),
        }
    }
    columns
}
