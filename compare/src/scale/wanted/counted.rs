//! What must be wanted, counted from the Rust's own visit of the tile; where it parts from document 01, from the model's.

use mapsforge_rs::grid;
use mapsforge_rs::types::MapFile;

use super::super::check::{caught, Checked};
use super::super::known::told;
use super::Question;
use crate::answer::Answer;
use crate::source::Source;
use crate::tiles::delivery::Delivery;
use crate::tiles::feature::{Head, Point, Text, Way};
use crate::tiles::rust;

pub struct Counted {
    /// Points, accepted ways, most blocks, most nodes, longest text; or the refusal.
    pub figures: Result<[u64; 5], Answer>,
    pub by_the_rust: bool,
    /// Whether a text is no UTF-8: the Rust gives it as the empty one, and its size is the model's.
    pub ill_formed: bool,
}

impl Counted {
    pub fn of(file: &mut MapFile<Source>, question: &Question) -> Checked<Self> {
        let (ask, zoom) = (question.ask, question.zoom);
        let mut model = Visit::by(question);
        let port = ask.opened(file).stream(&ask.at, zoom, &mut model);
        let ill_formed = port.ill_formed > 0;
        if port.parting.is_some() {
            let figures = model.figures(&port.answer, port.longest);
            return Ok(Counted { figures, by_the_rust: false, ill_formed });
        }
        let mut visit = Visit::by(question);
        grid::lend(ask.at.grid);
        let end = caught(|| rust::visit(file, &ask.at, zoom, &mut visit))?;
        let end = told(end, port.answer)?;
        // behind the last text of a feature that is refused, the model has read more than is delivered
        if end[0] == 0 && !ill_formed && visit.text != port.longest {
            let (rust, model) = (visit.text, port.longest);
            return Err(format!("the longest text: the Rust's {rust}, the model's {model}"));
        }
        let text = if ill_formed { port.longest } else { visit.text };
        Ok(Counted { figures: visit.figures(&end, text), by_the_rust: true, ill_formed })
    }
}

/// Counts what a stream delivers, and finds the largest.
struct Visit<'a> {
    question: &'a Question<'a>,
    heads: usize,
    points: u64,
    ways: u64,
    blocks: u64,
    nodes: u64,
    text: u64,
}

impl<'a> Visit<'a> {
    fn by(question: &'a Question<'a>) -> Self {
        Visit { question, heads: 0, points: 0, ways: 0, blocks: 0, nodes: 0, text: 0 }
    }

    fn figures(&self, end: &Answer, text: u64) -> Result<[u64; 5], Answer> {
        if end[0] != 0 {
            return Err(end.clone());
        }
        Ok([self.points, self.ways, self.blocks, self.nodes, text])
    }

    fn texts(&mut self, texts: &[&Option<Text>]) {
        let lengths = texts.iter().filter_map(|text| text.as_ref()).map(|text| text.len() as u64);
        self.text = lengths.fold(self.text, u64::max);
    }
}

impl Delivery for Visit<'_> {
    fn point(&mut self, point: Point) {
        self.points += 1;
        self.texts(&[&point.name, &point.house_number]);
    }

    fn head(&mut self, _head: Head) -> bool {
        self.heads += 1;
        self.question.accepts(self.heads - 1)
    }

    fn way(&mut self, way: Way) {
        self.ways += 1;
        self.blocks = self.blocks.max(way.blocks.len() as u64);
        let nodes: usize = way.blocks.iter().map(|block| block.nodes.len()).sum();
        self.nodes = self.nodes.max(nodes as u64);
        self.texts(&[&way.name, &way.house_number, &way.reference]);
    }
}
