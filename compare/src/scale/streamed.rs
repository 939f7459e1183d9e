//! Streams, with lists that are too short and calls out of turn thrown in.

use mapsforge_rs::types::MapFile;

use super::check::{Call, Check, Checked, Said};
use super::collected::{padded, placed};
use super::general;
use super::known::{Event, Plan, Script};
use super::lent::{suffice, Fronts, Lengths, Lent};
use super::library::{self, degrees, kept_but, Accept, Ask, Got, Next, State, SIGNED, WORD};
use crate::answer::Answer;
use crate::random::Random;
use crate::source::Source;
use crate::tiles::feature::{Head, Point, Way};

/// A tile's stream at a zoom, and what to call at random beside it.
pub struct Question<'a> {
    pub ask: Ask<'a>,
    /// The sub file's number that is handed in: the end answers it, and it says nothing else.
    pub number: u64,
    pub zoom: u8,
    /// One in so many places has a call that must be refused.
    pub refused_calls: usize,
}

/// A run of our stream.
struct Run<'a, 'b> {
    question: &'a Question<'a>,
    state: State,
    check: &'b mut Check,
    lent: &'b mut Lent,
    random: &'b mut Random,
    /// The places of the stream's texts.
    texts: Vec<u64>,
    /// How many texts came so far.
    text: usize,
    /// Wish 6: whether all numbers "that the stream has read for it in calls not refused" are plain, those of the tile's head
    /// at first; and whether those of the last way's head are.
    plain: bool,
    head_plain: bool,
}

/// Streams a tile by a plan to its end.
pub fn stream(
    check: &mut Check,
    lent: &mut Lent,
    file: &mut MapFile<Source>,
    question: &Question,
    plan: &Plan,
    random: &mut Random,
) -> Checked {
    let script = Script::of(check, file, &question.ask, question.zoom, plan)?;
    let (state, texts, plain) = ([WORD; 8], Vec::new(), script.head_plain);
    let head_plain = true;
    let mut run = Run { question, state, check, lent, random, texts, text: 0, plain, head_plain };
    if !script.opens {
        return run.unopened(&script.end);
    }
    let opened = run.open();
    run.check.got(Call::StreamOpen, &opened, 0, &[WORD; 6])?;
    run.stated(false)?;
    if script.empty {
        run.at_end(&script.end)?;
    }
    run.all(file, script)
}

impl Run<'_, '_> {
    fn open(&mut self) -> Got<6> {
        let Question { ask, number, zoom, .. } = self.question;
        library::stream_open(ask, *number, *zoom, &mut self.state)
    }

    /// "On a refusal the state keeps its words."
    fn unopened(mut self, refusal: &Answer) -> Checked {
        let ours = self.open();
        self.check.refused(Call::StreamOpen, &ours, refusal)?;
        self.check.words("the state of a stream that does not open", &self.state, &[WORD; 8])
    }

    /// What a state says besides counts and places: whether a way waits, the sub file's number, the water mark, and whether
    /// what was read is plain, and the waiting way's head.
    fn stated(&mut self, waits: bool) -> Checked {
        let [waiting, .., fourth, water, number, plain] = self.state;
        self.check.same("whether a way waits", waiting, u64::from(waits))?;
        self.check.same("the state's sub file", number, self.question.number)?;
        self.check.same("whether the water mark is one", water < 2, true)?;
        self.check.same("whether what was read is plain", plain, u64::from(self.plain))?;
        let head_plain = if waits { u64::from(self.head_plain) } else { fourth };
        self.check.same("whether the waiting way's head is", fourth, head_plain)
    }

    /// The header file, of an empty tile: "nothing is to come, and both places are 0".
    fn at_end(&mut self, end: &Answer) -> Checked {
        let state = [0, 0, 0, 0, 0, end[2], self.question.number, 1];
        self.check.words("the state of an empty tile", &self.state, &state)
    }

    /// All events, and the end twice.
    fn all(&mut self, file: &mut MapFile<Source>, mut script: Script) -> Checked {
        let (mut at, mut heads) = (0, 0);
        self.texts = std::mem::take(&mut script.texts);
        while let Some(event) = script.events.get(at) {
            self.out_of_turn()?;
            at += 1;
            let head = match event {
                Event::Point(point) => {
                    self.point(point)?;
                    continue;
                }
                Event::Head(head) => head,
                Event::Way(_) => return Err("the Rust gives a way without a head".into()),
            };
            self.head(head)?;
            self.next_while_waiting()?;
            heads += 1;
            if !script.plan.accepts(heads - 1) {
                self.decline()?;
                continue;
            }
            match script.events.get(at) {
                Some(Event::Way(way)) => {
                    same_head(head, way)?;
                    self.accept(way)?;
                    at += 1;
                }
                // the way cannot be decoded: it still waits, and can be declined
                _ => {
                    self.refused_accepts(&script.end)?;
                    let mut plan = script.plan.clone();
                    plan.declined.push(heads - 1);
                    let Question { ask, zoom, .. } = self.question;
                    script = Script::of(self.check, file, ask, *zoom, &plan)?;
                    self.texts = std::mem::take(&mut script.texts);
                    self.decline()?;
                }
            }
        }
        if script.end[0] == 0 {
            // by all that the model has read in one go, declined bodies left out
            self.check.same("whether all that was read is plain", self.plain, script.plain)?;
        }
        self.out_of_turn()?;
        self.end(&script.end)?;
        self.out_of_turn()?;
        self.end(&script.end)
    }

    /// Notes whether the numbers of a call that is not refused are plain; gives the word for it.
    fn noted(&mut self, of: Said, plain: Option<bool>) -> Checked<u64> {
        let plain = plain.ok_or("the model does not say whether it is plain")?;
        self.plain &= plain;
        self.check.said(of, plain);
        Ok(u64::from(plain))
    }

    /// The next, and the state before it.
    fn next(&mut self) -> Checked<(Next, State)> {
        let before = self.state;
        let read = self.question.ask.read();
        let next = general::next(self.check, &read, &mut self.state, WORD)?;
        Ok((next, before))
    }

    /// A streamed feature has no signature.
    fn point(&mut self, point: &Point) -> Checked {
        let (ours, _) = self.next()?;
        let plain = self.noted(Said::StreamedPoint, point.plain)?;
        self.stated(false)?;
        let mut words: [u64; 22] = kept_but(6, &[0; 12]);
        words[21] = plain;
        words[7] = point.ids.len() as u64;
        self.parts(&mut words, 11, &point.name)?;
        self.parts(&mut words, 14, &point.house_number)?;
        words[17] = u64::from(point.elevation.is_some());
        self.check.got(Call::StreamNext, &ours.got, 0, &words)?;
        let metres = i64::from(point.elevation.unwrap_or(0));
        self.check.same("a point's layer", ours.signed, [point.layer as i64 - 5, metres])?;
        self.check.floats("a point's position", &ours.degrees, &point.position)?;
        self.check.words("a point's ids", &ours.ids, &padded::<15>(&point.ids))
    }

    fn head(&mut self, head: &Head) -> Checked {
        let (ours, _) = self.next()?;
        let plain = self.noted(Said::Head, head.plain)?;
        self.head_plain = plain != 0;
        self.stated(true)?;
        let layer = head.layer.ok_or("the model has no such head")?;
        let mut words: [u64; 22] = kept_but(6, &[1, head.ids.len() as u64]);
        words[21] = plain;
        words[18] = u64::from(head.bitmap);
        self.check.got(Call::StreamNext, &ours.got, 0, &words)?;
        self.check.same("a head's layer", ours.signed, [layer as i64 - 5, SIGNED[1]])?;
        self.check.floats("a head's position", &ours.degrees, &degrees::<2>())?;
        self.check.words("a head's ids", &ours.ids, &padded::<15>(&head.ids))
    }

    /// The end with the sub file's number and the water mark, or the refusal, which leaves the stream where
    /// it was. The Rust's number is the one by which it was asked.
    fn end(&mut self, end: &Answer) -> Checked {
        let (ours, before) = self.next()?;
        let mut words: [u64; 22] = kept_but(0, &end[1..]);
        if let [0, sub_file, water] = end[..] {
            self.check.same("the Rust's sub file", self.question.ask.at.sub_file, sub_file)?;
            self.check.said(Said::End, self.plain);
            words = kept_but(19, &[self.question.number, water, u64::from(self.plain)]);
            words[6] = 2;
        }
        self.check.got(Call::StreamNext, &ours.got, end[0], &words)?;
        nothing(self.check, &ours)?;
        self.check.words("the state at the end", &self.state, &before)
    }

    /// At random: next while a way waits.
    fn next_while_waiting(&mut self) -> Checked {
        if self.random.below(self.question.refused_calls) > 0 {
            return Ok(());
        }
        let (ours, before) = self.next()?;
        self.check.refused(Call::StreamNext, &ours.got, &[16])?;
        nothing(self.check, &ours)?;
        self.check.words("the state of a next out of turn", &self.state, &before)
    }

    /// At random: accept and decline while no way waits.
    fn out_of_turn(&mut self) -> Checked {
        if self.random.below(self.question.refused_calls) > 0 {
            return Ok(());
        }
        let lengths = self.random.lengths(&[1, 2, 2, 0, 0, 0]);
        self.refused_accept(lengths, &[16])?;
        let before = self.state;
        let number = library::stream_decline(&mut self.state);
        self.check.call(Call::StreamDecline, number);
        self.check.same("a decline out of turn", number, 16)?;
        self.check.words("the state of a decline out of turn", &self.state, &before)
    }

    fn decline(&mut self) -> Checked {
        let number = library::stream_decline(&mut self.state);
        self.check.call(Call::StreamDecline, number);
        self.check.same("a decline", number, 0)?;
        self.stated(false)
    }

    fn accept(&mut self, way: &Way) -> Checked {
        let fronts = Fronts::of_way(way);
        let needed = fronts.lengths();
        let lengths = self.random.lengths(&needed);
        if !suffice(&lengths, &needed) {
            let lists = needed.map(|length| length as u64);
            self.refused_accept(lengths, &[&[15], &lists[..]].concat())?;
            self.next_while_waiting()?;
        }
        let lengths = self.random.enough(&needed);
        let ours = self.call_accept(lengths);
        let plain = self.noted(Said::Accepted, way.plain)?;
        self.stated(false)?;
        self.body(&ours, way, &needed, plain)?;
        self.lent.check(self.check, lengths, &fronts)
    }

    fn body(&mut self, ours: &Accept, way: &Way, needed: &Lengths, plain: u64) -> Checked {
        let mut words: [u64; 19] = kept_but(6, &[needed[0] as u64, needed[1] as u64]);
        words[18] = plain;
        self.parts(&mut words, 8, &way.name)?;
        self.parts(&mut words, 11, &way.house_number)?;
        self.parts(&mut words, 14, &way.reference)?;
        words[17] = u64::from(way.label.is_some());
        self.check.got(Call::StreamAccept, &ours.got, 0, &words)?;
        self.check.floats("a label position", &ours.degrees, &way.label.unwrap_or_default())
    }

    /// A way that cannot be decoded is refused again and again, whatever is lent.
    fn refused_accepts(&mut self, refusal: &Answer) -> Checked {
        for _ in 0..2 {
            let lengths = self.random.lengths(&[1, 2, 2, 0, 0, 0]);
            self.refused_accept(lengths, refusal)?;
            self.next_while_waiting()?;
        }
        Ok(())
    }

    /// "A refused call leaves the way waiting and the lists alone."
    fn refused_accept(&mut self, lengths: Lengths, refusal: &[u64]) -> Checked {
        let before = self.state;
        let ours = self.call_accept(lengths);
        self.check.refused(Call::StreamAccept, &ours.got, refusal)?;
        self.check.floats("a refused accept's label", &ours.degrees, &degrees::<2>())?;
        self.check.words("the state of a refused accept", &self.state, &before)?;
        self.lent.check(self.check, lengths, &Fronts::default())
    }

    fn call_accept(&mut self, lengths: Lengths) -> Accept {
        let nodes = self.lent.lists(lengths).nodes;
        library::stream_accept(self.question.ask.map, &mut self.state, nodes)
    }

    /// The three words of a part, from the word `at` on.
    fn parts(&mut self, words: &mut [u64], at: usize, text: &Option<Vec<u8>>) -> Checked {
        let place = text.as_ref().and_then(|_| self.texts.get(self.text).copied());
        self.text += usize::from(text.is_some());
        let part = placed(self.check, self.question.ask.map, text, place)?;
        words[at..at + 3].copy_from_slice(&part);
        Ok(())
    }
}

/// Of the end or a refused next, all but its words is as it was lent.
pub fn nothing(check: &mut Check, ours: &Next) -> Checked {
    check.same("no layer", ours.signed, SIGNED)?;
    check.floats("no position", &ours.degrees, &degrees::<2>())?;
    check.words("no ids", &ours.ids, &[WORD; 15])
}

/// The head's layer is the model's; the Rust says it with the way.
fn same_head(head: &Head, way: &Way) -> Checked {
    if head.layer == Some(way.layer) {
        return Ok(());
    }
    Err(format!("a way's layer + 5: the Rust's {}, the model's {:?}", way.layer, head.layer))
}
