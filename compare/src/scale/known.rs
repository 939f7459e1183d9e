//! What must come of a tile and of a stream: the Rust's own, or where it parts from document 01 the
//! model's.

use mapsforge_rs::grid;
use mapsforge_rs::types::MapFile;

use super::check::{caught, Check, Checked, Reason};
use super::library::Ask;
use crate::answer::{as_the_rust, Answer};
use crate::differences::tile::{Cause, Parting, Port};
use crate::random::Random;
use crate::source::Source;
use crate::tiles::delivery::Delivery;
use crate::tiles::feature::{Collected, Head, Point, Text, Way};
use crate::tiles::{rust, Address};

/// A tile that collects, or the refusal.
pub type Tile = Result<Collected, Answer>;

pub fn tile(check: &mut Check, file: &mut MapFile<Source>, ask: &Ask) -> Checked<Tile> {
    let at = &ask.at;
    let (model, parting) = ask.opened(file).fetched(at);
    if let Some(reason) = model_alone(ask, parting.as_ref()) {
        check.settle(reason);
        return Ok(model);
    }
    grid::lend(at.grid);
    check.by_the_rust += 1;
    let mut rust = match (caught(|| rust::fetched(file, at))?, &model) {
        (Ok(rust), Ok(_)) => rust,
        (Err(rust), Err(model)) => return told(rust, model.clone()).map(Err),
        (Ok(_), Err(model)) => return Err(format!("the Rust collects, the model: {model:x?}")),
        (Err(rust), Ok(_)) => return Err(format!("the model collects, the Rust: {rust:x?}")),
    };
    if let Ok(model) = model {
        (rust.signatures, rust.places) = (model.signatures, model.places);
        said_by_the_model(&mut rust.tile, model.tile)?;
    }
    Ok(Ok(rust))
}

/// Why the model answers in place of the Rust, if it does.
fn model_alone(ask: &Ask, parting: Option<&Parting>) -> Option<Reason> {
    if !ask.as_named {
        return Some(Reason::Listed);
    }
    parting.map(|parting| Reason::Tile(parting.cause))
}

/// What must come where the Rust answers and the model too. "In comparing, both new ones count as the
/// Rust's `Source`": whether it is 1, 19 or 20, and at which place, the model says.
pub fn told(rust: Answer, model: Answer) -> Checked<Answer> {
    if rust == as_the_rust(&model) {
        return Ok(model);
    }
    Err(format!("the Rust answers {rust:x?}, the model {model:x?}"))
}

/// The Rust does not compare sizes, does not say whether numbers are plain, and trims signatures: these are the model's.
fn said_by_the_model(
    rust: &mut crate::tiles::feature::Tile,
    model: crate::tiles::feature::Tile,
) -> Checked {
    (rust.exact, rust.padded) = (model.exact, model.padded);
    signature(&mut rust.signature, model.signature)?;
    for (rust, model) in rust.points.iter_mut().zip(model.points) {
        rust.plain = model.plain;
        signature(&mut rust.signature, model.signature)?;
    }
    for (rust, model) in rust.ways.iter_mut().zip(model.ways) {
        (rust.plain, rust.head_plain) = (model.plain, model.head_plain);
        signature(&mut rust.signature, model.signature)?;
    }
    Ok(())
}

fn signature(rust: &mut Option<Text>, stored: Option<Text>) -> Checked {
    if *rust != stored.as_ref().map(trimmed) {
        return Err(format!("a signature: the Rust's {rust:x?}, the model's {stored:x?}"));
    }
    *rust = stored;
    Ok(())
}

/// A signature as the Rust gives it.
fn trimmed(signature: &Text) -> Text {
    String::from_utf8_lossy(signature).trim().into()
}

/// Which ways a stream accepts.
#[derive(Clone)]
pub struct Plan {
    pub policy: Policy,
    /// Ways whose accept was refused, and which are then declined.
    pub declined: Vec<usize>,
}

#[derive(Clone, Copy, Debug)]
pub enum Policy {
    All,
    None,
    /// All but every third.
    TwoOfThree,
    /// By the bits of numbers that start here.
    Random(u64),
}

impl Plan {
    pub fn of(policy: Policy) -> Self {
        Plan { policy, declined: Vec::new() }
    }

    /// Whether way number `k` of the stream is accepted.
    pub fn accepts(&self, k: usize) -> bool {
        let wanted = match self.policy {
            Policy::All => true,
            Policy::None => false,
            Policy::TwoOfThree => k % 3 < 2,
            Policy::Random(seed) => Random::new(seed ^ (k as u64 + 1) << 20 | 1).below(2) == 0,
        };
        wanted && !self.declined.contains(&k)
    }
}

/// What a stream delivers, one behind the other.
pub enum Event {
    Point(Point),
    Head(Head),
    Way(Way),
}

/// The events of a stream, and how it ends: 0, sub file and water mark, or a refusal.
pub struct Script {
    pub plan: Plan,
    pub events: Vec<Event>,
    pub end: Answer,
    /// Whether the stream opens; if not, its end is the refusal.
    pub opens: bool,
    /// Whether its tile is marked empty.
    pub empty: bool,
    /// The places of its texts, in their order.
    pub texts: Vec<u64>,
    /// By the model: whether all numbers of the tile's head are plain, and all that the stream reads to its end.
    pub head_plain: bool,
    pub plain: bool,
    heads: usize,
}

impl Script {
    /// What must come of a stream at a zoom.
    pub fn of(
        check: &mut Check,
        file: &mut MapFile<Source>,
        ask: &Ask,
        zoom: u8,
        plan: &Plan,
    ) -> Checked<Self> {
        let (opened, at) = (ask.opened(file), &ask.at);
        let mut model = Script::new(plan);
        let Port { answer, parting, texts, plain, .. } = opened.stream(at, zoom, &mut model);
        (model.end, model.texts, model.plain) = (answer, texts, plain);
        model.head_plain = opened.head_plain(at).unwrap_or(false);
        model.opens = opened.unopened(at).is_none();
        model.empty = parting.is_some_and(|parting| parting.cause == Cause::Empty);
        if let Some(reason) = model_alone(ask, parting.as_ref()) {
            check.settle(reason);
            if let Some(parting) = parting.filter(|_| ask.as_named) {
                model.same_before(file, at, zoom, &parting)?;
            }
            return Ok(model);
        }
        let mut rust = Script::new(plan);
        check.by_the_rust += 1;
        rust.visit(file, at, zoom)?;
        rust.end = told(rust.end, model.end)?;
        (rust.opens, rust.texts) = (model.opens, model.texts);
        (rust.head_plain, rust.plain) = (model.head_plain, model.plain);
        rust.events.iter_mut().zip(model.events).for_each(|(rust, model)| rust.complete(model));
        Ok(rust)
    }

    fn visit(&mut self, file: &mut MapFile<Source>, at: &Address, zoom: u8) -> Checked {
        grid::lend(at.grid);
        self.end = caught(|| rust::visit(file, at, zoom, self))?;
        Ok(())
    }

    /// What the model delivers before a bad number is also the Rust's: it is refused there, by 1, if the
    /// map ends there. A map read backwards would be refused earlier.
    fn same_before(
        &self,
        file: &mut MapFile<Source>,
        at: &Address,
        zoom: u8,
        parting: &Parting,
    ) -> Checked {
        let map = file.reader.map();
        let numbers = matches!(parting.cause, Cause::Number | Cause::Coordinate);
        let Some(front) = usize::try_from(parting.place).ok().and_then(|end| map.get(..end)) else {
            return Ok(());
        };
        if !numbers || !parting.untouched {
            return Ok(());
        }
        file.reader = Source::new(front);
        let mut rust = Script::new(&self.plan);
        let visited = rust.visit(file, at, zoom);
        file.reader = Source::new(map);
        visited?;
        let same = |(rust, model): (&Event, &Event)| rust.is(model);
        let all = rust.events.len() == self.events.len() && rust.end == [1];
        if all && rust.events.iter().zip(&self.events).all(same) {
            return Ok(());
        }
        Err(format!("before {} the Rust and the model deliver other features", parting.place))
    }

    fn new(plan: &Plan) -> Self {
        let (events, end, texts) = (Vec::new(), Answer::new(), Vec::new());
        Script {
            plan: plan.clone(),
            events,
            end,
            opens: false,
            empty: false,
            texts,
            head_plain: false,
            plain: false,
            heads: 0,
        }
    }
}

impl Event {
    /// Whether it is what the model has, but for what the Rust does not say in a stream.
    fn is(&self, model: &Event) -> bool {
        match (self, model) {
            (Event::Point(rust), Event::Point(model)) => {
                *rust == Point { signature: None, plain: None, ..model.clone() }
            }
            (Event::Head(rust), Event::Head(model)) => {
                rust.bitmap == model.bitmap && rust.ids == model.ids
            }
            (Event::Way(rust), Event::Way(model)) => {
                let nodes = |way: &Way| -> Vec<_> {
                    way.blocks.iter().map(|block| block.nodes.clone()).collect()
                };
                let fields = |way: &Way| Way {
                    signature: None,
                    double: false,
                    blocks: Vec::new(),
                    plain: None,
                    head_plain: None,
                    ..way.clone()
                };
                nodes(rust) == nodes(model) && fields(rust) == fields(model)
            }
            _ => false,
        }
    }

    /// The Rust says a layer only of an accepted way, and of nothing whether it is plain.
    fn complete(&mut self, model: Event) {
        match (self, model) {
            (Event::Point(rust), Event::Point(model)) => rust.plain = model.plain,
            (Event::Head(rust), Event::Head(model)) => {
                (rust.layer, rust.plain) = (model.layer, model.plain);
            }
            (Event::Way(rust), Event::Way(model)) => {
                (rust.plain, rust.head_plain) = (model.plain, model.head_plain);
            }
            // told where they are compared
            _ => {}
        }
    }
}

impl Delivery for Script {
    fn point(&mut self, point: Point) {
        self.events.push(Event::Point(point));
    }

    fn head(&mut self, head: Head) -> bool {
        let accepts = self.plan.accepts(self.heads);
        self.heads += 1;
        self.events.push(Event::Head(head));
        accepts
    }

    fn way(&mut self, way: Way) {
        self.events.push(Event::Way(way));
    }
}
