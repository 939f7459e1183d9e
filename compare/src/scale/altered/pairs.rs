//! The same calls on a map and on a copy of it.

use super::super::alike::Alike;
use super::super::book::lists::Call;
use super::super::check::{Call as Kind, Check, Checked};
use super::super::lent::Fronts;
use super::super::library::{self, Ask, State, WORD};
use super::calls::{List, Step};

/// A tile's stream at a zoom, and the copy.
pub struct Pair<'a> {
    pub ask: Ask<'a>,
    pub copy: &'a [u8],
    pub zoom: u8,
}

impl Pair<'_> {
    /// Opening, the stream's opening and each call must give the same on the copy as on the map.
    pub fn same(&self, check: &mut Check, list: &List) -> Checked {
        self.opening(check)?;
        let mut alike = Alike { check, maps: [self.copy, self.ask.map] };
        let mut states = self.streams(alike.check)?;
        for (k, step) in list.steps.iter().enumerate() {
            let place = |why| format!("call {k}: {why}");
            self.step(&mut alike, step, k, &mut states).map_err(place)?;
            let [copied, state] = &states;
            alike.check.words("the state", copied, state).map_err(place)?;
        }
        Ok(())
    }

    fn opening(&self, check: &mut Check) -> Checked {
        let [copied, open] = [self.copy, self.ask.map].map(library::opened);
        check.got(Kind::Open, &copied.got, open.got.number, &open.got.words)?;
        check.floats("degrees", &copied.degrees, &open.degrees)?;
        check.words("layout", &copied.layout, &open.layout)?;
        check.words("starts", &copied.lists.starts, &open.lists.starts)?;
        check.same("letters", &copied.lists.letters, &open.lists.letters)?;
        let interval = |map| library::interval(map, &open.layout, self.ask.at.sub_file as usize);
        let [copied, given] = [self.copy, self.ask.map].map(interval);
        check.got(Kind::Interval, &copied.got, given.got.number, &given.got.words)?;
        check.words("interval", &copied.interval, &given.interval)
    }

    /// The states of the two streams, the copy's first.
    fn streams(&self, check: &mut Check) -> Checked<[State; 2]> {
        let mut states = [[WORD; 8]; 2];
        let mut open = |k: usize, map| {
            let ask = Ask { map, ..self.ask };
            library::stream_open(&ask, ask.at.sub_file, self.zoom, &mut states[k])
        };
        let (copied, opened) = (open(0, self.copy), open(1, self.ask.map));
        check.same("a stream that opens", opened.number, 0)?;
        check.got(Kind::StreamOpen, &copied, opened.number, &opened.words)?;
        check.words("the state at first", &states[0], &states[1])?;
        Ok(states)
    }

    /// The number of the map's answer is the one that the model says.
    fn step(&self, alike: &mut Alike, step: &Step, k: usize, states: &mut [State; 2]) -> Checked {
        let [copied, state] = states;
        let (copy, map) = (self.copy, self.ask.map);
        match step.call {
            Call::Next => {
                let next = library::stream_next(&self.ask, state);
                alike.check.same("a next by the model", next.got.number, step.number)?;
                let on_copy = Ask { map: copy, ..self.ask };
                alike.next(&library::stream_next(&on_copy, copied), &next)
            }
            Call::Accept(_) => {
                // each accept has lists with a word of their own
                let mut lists = [(); 2].map(|()| Fronts::holding(WORD ^ k as u64, step.lengths));
                let [copied_lists, own] = &mut lists;
                let accept = library::stream_accept(map, state, own.lists().nodes);
                alike.check.same("an accept by the model", accept.got.number, step.number)?;
                let ours = library::stream_accept(copy, copied, copied_lists.lists().nodes);
                alike.accept(&ours, &accept)?;
                alike.lists(copied_lists, own)
            }
            Call::Decline => {
                let number = library::stream_decline(state);
                alike.check.same("a decline by the model", number, step.number)?;
                let ours = library::stream_decline(copied);
                alike.check.call(Kind::StreamDecline, ours);
                alike.check.same("a decline", ours, number)
            }
        }
    }
}
