//! A stream of our library by a rule and with given lists, and all that it delivers.

use super::super::lent::Fronts;
use super::super::library::{self, Accept, Ask, Next, State, WORD};
use super::given::Given;
use super::rules::Rule;

/// What a next gives besides the end.
const POINT: u64 = 0;
const HEAD: u64 = 1;

/// A stream that ended well: no call was refused.
pub struct Stream {
    pub points: Vec<Next>,
    pub ways: Vec<Way>,
    pub end: Next,
}

/// A way's head, and its body if it was accepted.
pub struct Way {
    pub head: Next,
    pub body: Option<Body>,
}

/// What an accept gives, and the lists behind it.
pub struct Body {
    pub accept: Accept,
    pub lists: Fronts,
}

/// The call that was refused first, and the refusal's number.
pub type Refusal = (&'static str, u64);

pub type Ended = Result<Stream, Refusal>;

/// A stream that is under way.
struct Run<'a> {
    ask: &'a Ask<'a>,
    rule: Rule,
    given: &'a Given,
    state: State,
    accepts: usize,
}

pub fn stream(ask: &Ask, zoom: u8, rule: Rule, given: &Given) -> Ended {
    let mut run = Run { ask, rule, given, state: [WORD; 8], accepts: 0 };
    let opened = library::stream_open(ask, ask.at.sub_file, zoom, &mut run.state);
    answered("open", opened.number)?;
    let (mut points, mut ways) = (Vec::new(), Vec::new());
    loop {
        let next = library::stream_next(ask, &mut run.state);
        answered("next", next.got.number)?;
        match next.got.words[6] {
            POINT => points.push(next),
            HEAD => ways.push(run.way(next)?),
            _ => return Ok(Stream { points, ways, end: next }),
        }
    }
}

impl Run<'_> {
    fn way(&mut self, head: Next) -> Result<Way, Refusal> {
        let (bitmap, ids) = (head.got.words[18] as u16, head.got.words[7] as usize);
        if self.rule.accepts(bitmap, &head.ids[..ids]) {
            let body = Some(self.accept()?);
            return Ok(Way { head, body });
        }
        answered("decline", library::stream_decline(&mut self.state))?;
        Ok(Way { head, body: None })
    }

    fn accept(&mut self) -> Result<Body, Refusal> {
        let mut lists = self.given.lists(self.accepts);
        self.accepts += 1;
        let accept = library::stream_accept(self.ask.map, &mut self.state, lists.lists().nodes);
        answered("accept", accept.got.number)?;
        Ok(Body { accept, lists })
    }
}

fn answered(call: &'static str, number: u64) -> Result<(), Refusal> {
    if number == 0 {
        return Ok(());
    }
    Err((call, number))
}

impl Stream {
    pub fn accepted(&self) -> usize {
        self.ways.iter().filter(|way| way.body.is_some()).count()
    }

    /// Whether its ways are those of another stream, by their heads.
    pub fn has_ways_of(&self, other: &Stream) -> bool {
        let same =
            |(a, b): (&Way, &Way)| a.head.got.words == b.head.got.words && a.head.ids == b.head.ids;
        self.ways.len() == other.ways.len() && self.ways.iter().zip(&other.ways).all(same)
    }
}
