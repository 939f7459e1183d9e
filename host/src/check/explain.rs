//! What and where a fault is, by a walk through the tile with its stream. The places are those of the stream's state.

use super::{Cause, Declined, Fault, FeatureNote, Finding, Met, Report, Spot};
use crate::{
    Kind, Lists, Name, Part, Position, Refusal, Step, Stream, SubFile, TilePlace, WayHead,
};

/// The findings of a tile: at least one for each of its faults.
pub fn explain(sub_file: &SubFile<'_, '_>, report: &Report) -> Vec<Finding> {
    let tile = Faulty { sub_file: *sub_file, place: report.place };
    report.faults.iter().flat_map(|fault| tile.explain(*fault)).collect()
}

/// A tile that has a fault.
struct Faulty<'m, 'a> {
    sub_file: SubFile<'m, 'a>,
    place: TilePlace,
}

impl<'m, 'a> Faulty<'m, 'a> {
    fn explain(&self, fault: Fault) -> Vec<Finding> {
        match fault {
            Fault::Refused(refusal) => vec![self.refused(refusal)],
            Fault::Stream(refusal) => vec![self.finding(Cause::Stream { refusal })],
            Fault::Offset { leads_to, points_end } => {
                let cause = Cause::Offset { leads_to, points_end };
                vec![Finding { byte: Some(leads_to), ..self.finding(cause) }]
            }
            Fault::Sizes => {
                let found = self.sizes();
                if found.is_empty() {
                    return vec![self.finding(Cause::Sizes)];
                }
                found
            }
        }
    }

    fn finding(&self, cause: Cause) -> Finding {
        Finding::of_tile(cause, &self.sub_file, self.place)
    }

    fn stream(&self) -> Result<Stream<'m, 'a>, Refusal> {
        self.sub_file.stream(self.place.number, self.sub_file.interval().max_zoom)
    }

    /// A feature of which only its number is known.
    fn unread(&self, kind: Kind, number: u64) -> FeatureNote {
        let zooms = zooms(&self.sub_file, self.place, kind, number);
        FeatureNote { kind, number, name: None, tags: Vec::new(), position: None, zooms }
    }

    /// Where a tile that does not collect is refused: a stream that accepts everything meets the same.
    fn refused(&self, refusal: Refusal) -> Finding {
        let at = |spot, byte, feature| Finding {
            byte,
            feature,
            ..self.finding(Cause::Refused { refusal, spot })
        };
        // The tile's entry, or the next one.
        if let Refusal::IndexCutOff(byte) = refusal {
            return at(Spot::Entry, Some(byte), None);
        }
        let number = self.place.number;
        let Ok(entry) = self.sub_file.entry(number) else {
            return at(Spot::Entry, self.sub_file.entry_place(number), None);
        };
        let Ok(mut stream) = self.stream() else {
            return at(Spot::Head, Some(entry.place), None);
        };
        let (mut points, mut ways) = (0, 0);
        while let Some(before) = stream.to_come() {
            match stream.next() {
                Ok(Step::Point(_)) => points += 1,
                Ok(Step::Way(head)) => {
                    if stream.accept().is_err() {
                        let note =
                            FeatureNote { tags: tags(&head), ..self.unread(Kind::Way, ways) };
                        return at(Spot::Way(ways), Some(before.next_way), Some(note));
                    }
                    ways += 1;
                }
                Ok(Step::End(_)) => break,
                Err(_) if before.points > 0 => {
                    let note = self.unread(Kind::Point, points);
                    return at(Spot::Point(points), Some(before.next_point), Some(note));
                }
                Err(_) => {
                    let note = self.unread(Kind::Way, ways);
                    return at(Spot::Way(ways), Some(before.next_way), Some(note));
                }
            }
        }
        at(Spot::Tile, Some(entry.place), None)
    }

    /// The ways whose stored size is not their decoded length, as far as the walk comes.
    fn sizes(&self) -> Vec<Finding> {
        let mut findings = Vec::new();
        let Ok(mut stream) = self.stream() else {
            return findings;
        };
        let mut lists = Lists::default();
        let mut way = 0;
        while let Some(before) = stream.to_come() {
            match stream.next() {
                Ok(Step::Point(_)) => continue,
                Ok(Step::Way(head)) => {
                    let declined = stream.clone();
                    let Ok(body) = stream.accept_with(&mut lists) else { break };
                    let Some(after) = stream.to_come() else { break };
                    if declined.past() != Some(after.next_way) {
                        let note = FeatureNote {
                            name: first_form(body.name),
                            tags: tags(&head),
                            position: first_node(&self.sub_file, self.place, &lists, body.blocks.1),
                            ..self.unread(Kind::Way, way)
                        };
                        let ends = (before.next_way, after.next_way);
                        findings.push(self.size(note, ends, declined, stream.clone()));
                    }
                    way += 1;
                }
                _ => break,
            }
        }
        findings
    }

    /// A wrong size: of a way between two places, from the streams that wait at it and that have accepted it.
    fn size(
        &self,
        feature: FeatureNote,
        (start, end): (u64, u64),
        waiting: Stream<'m, 'a>,
        accepted: Stream<'m, 'a>,
    ) -> Finding {
        let debug = self.sub_file.map().header().debug();
        let at = start.saturating_add(if debug { 32 } else { 0 });
        let data = behind_number(self.sub_file.map().bytes(), at);
        let stored = waiting.past().unwrap_or(u64::MAX).saturating_sub(data);
        let declined = Declined { comes: declined(waiting), due: met(accepted) };
        let cause = Cause::Size { stored, decoded: end.saturating_sub(data), declined };
        let found = self.finding(cause);
        let around = feature.position.or(found.around);
        Finding { byte: Some(at), feature: Some(feature), around, ..found }
    }
}

/// The zooms at which a feature shows: from the lowest at which the tile's stream has so many.
pub(super) fn zooms(
    sub_file: &SubFile<'_, '_>,
    place: TilePlace,
    kind: Kind,
    number: u64,
) -> Option<(u8, u8)> {
    let interval = sub_file.interval();
    let from = (interval.min_zoom..=interval.max_zoom).find(|&zoom| {
        let stream = sub_file.stream(place.number, zoom).ok();
        let to_come = stream.and_then(|stream| stream.to_come());
        to_come.is_some_and(|to_come| match kind {
            Kind::Point => to_come.points > number,
            Kind::Way => to_come.ways > number,
        })
    });
    from.map(|from| (from, interval.max_zoom))
}

/// A way's first node, of the lists that it was decoded into.
pub(super) fn first_node(
    sub_file: &SubFile<'_, '_>,
    place: TilePlace,
    lists: &Lists,
    nodes: usize,
) -> Option<Position> {
    let (latitude, longitude) = (lists.latitudes.first()?, lists.longitudes.first()?);
    let offset = crate::Offset { latitude: *latitude, longitude: *longitude };
    (nodes > 0).then_some(sub_file.corner(place).ok()? + offset)
}

/// The place behind a number: its last byte alone has no top bit.
fn behind_number(map: &[u8], at: u64) -> u64 {
    let rest = usize::try_from(at).ok().and_then(|at| map.get(at..)).unwrap_or(&[]);
    at + rest.iter().take_while(|&&byte| byte & 0x80 != 0).count() as u64 + 1
}

fn tags(head: &WayHead<'_, '_>) -> Vec<String> {
    head.tags().map(|tag| tag.text.to_text()).collect()
}

pub(super) fn first_form(name: Option<Part<'_>>) -> Option<String> {
    let name = name.and_then(Part::as_str).map(|name| Name::new(name).first());
    name.filter(|name| !name.is_empty()).map(String::from)
}

/// What a stream comes to if it declines the way that waits.
fn declined(mut stream: Stream<'_, '_>) -> Met {
    match stream.decline() {
        Ok(()) => met(stream),
        Err(refusal) => Met::Refused(refusal),
    }
}

/// What a stream comes to next.
fn met(mut stream: Stream<'_, '_>) -> Met {
    match stream.next() {
        Ok(Step::Way(head)) => {
            let name = stream.accept().ok().and_then(|body| first_form(body.name));
            Met::Way { name, tags: tags(&head) }
        }
        Ok(_) => Met::End,
        Err(refusal) => Met::Refused(refusal),
    }
}
