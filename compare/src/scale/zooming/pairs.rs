//! Pairs of zooms of a tile: what a stream at the richer zoom says of that at the lower one.

use super::super::alike::Alike;
use super::super::check::{Check, Checked};
use super::super::library::Ask;
use super::super::whole;
use super::given::Given;
use super::rules::{Rule, RULES};
use super::streams::{stream, Ended, Refusal, Stream, Way};
use super::tally::Tally;
use crate::answer::Answer;
use crate::differences::tile::Opened;
use crate::random::Random;

/// A tile, and the zooms of its sub file's interval and beside it.
struct Tile<'a> {
    opened: Opened<'a>,
    ask: &'a Ask<'a>,
    zooms: Vec<u8>,
    /// The points and ways that the zoom table counts up to each of them, by document 01's model.
    counted: Vec<Result<[u128; 2], Answer>>,
}

/// All pairs of a tile's zooms, by all rules.
pub fn of_tile(tally: &mut Tally, opened: Opened, ask: &Ask, random: &mut Random) -> Checked {
    let zooms = whole::zooms(opened.header, &ask.at);
    let counted = zooms.iter().map(|&zoom| opened.counted(&ask.at, zoom)).collect();
    let tile = Tile { opened, ask, zooms, counted };
    let before = tally.pairs();
    let all = tile.by_rule(tally, Rule::All, random)?;
    for rule in RULES {
        let streams = tile.by_rule(tally, rule, random)?;
        streams.iter().zip(&all).for_each(|(stream, all)| tally.beside_all(stream, all));
    }
    if tally.pairs() > before {
        tally.tile(ask, opened.is_empty(&ask.at));
    }
    Ok(())
}

impl Tile<'_> {
    /// The streams of all zooms with the same lists, of which each pair is compared.
    fn by_rule(&self, tally: &mut Tally, rule: Rule, random: &mut Random) -> Checked<Vec<Ended>> {
        let given = Given::of(self.opened, &self.ask.at, &self.zooms, rule, random);
        let of_zoom = |&zoom| stream(self.ask, zoom, rule, &given);
        let streams: Vec<Ended> = self.zooms.iter().map(of_zoom).collect();
        for (k, richer) in streams.iter().enumerate() {
            tally.stream(richer, k);
            let Ok(richer) = richer else { continue };
            let high = self.zooms[k];
            let place = |why| format!("rule {rule:?}, zoom {high}: {why}");
            self.counts(&mut tally.check, k, richer).map_err(place)?;
            for (j, lower) in streams[..k].iter().enumerate() {
                let low = self.zooms[j];
                let place = |why| format!("rule {rule:?}, zoom {low} by zoom {high}: {why}");
                let [low, high] = self.pair(&mut tally.check, lower, richer).map_err(place)?;
                tally.plain_ends(low, high);
                tally.pair(&self.counted[j], &self.counted[k]);
            }
        }
        Ok(streams)
    }

    /// A stream that ends well delivers as many points and ways as the zoom table counts; so does each of
    /// the lower ones, which come before it.
    fn counts(&self, check: &mut Check, k: usize, stream: &Stream) -> Checked {
        let delivered = [stream.points.len(), stream.ways.len()].map(|count| count as u128);
        check.same("points and ways", &Ok(delivered), &self.counted[k])
    }

    /// The stream at the lower zoom opens and ends well too, says the same at its end, but that it may be plain where the richer
    /// one is not, and delivers exactly the first points and ways of the richer one. Answers what the two ends say of that.
    fn pair(&self, check: &mut Check, lower: &Ended, richer: &Stream) -> Checked<[u64; 2]> {
        let refused = |(call, number): &Refusal| format!("{call} is refused: {number}");
        let lower = lower.as_ref().map_err(refused)?;
        let mut alike = Alike { check, maps: [self.ask.map; 2] };
        first("point", &lower.points, &richer.points, |lower, richer| alike.next(lower, richer))?;
        first("way", &lower.ways, &richer.ways, |lower, richer| way(&mut alike, lower, richer))?;
        // what is read at the lower zoom is read at the richer one too
        let plain = [&lower.end, &richer.end].map(|end| end.got.words[21]);
        alike.check.same("a plain end of all at the richer zoom alone", plain == [0, 1], false)?;
        let mut end = richer.end.clone();
        end.got.words[21] = plain[0];
        alike.next(&lower.end, &end).map_err(|why| format!("the end's {why}"))?;
        Ok(plain)
    }
}

/// The features of the lower zoom are the first of the richer one.
fn first<T>(
    what: &str,
    lower: &[T],
    richer: &[T],
    mut same: impl FnMut(&T, &T) -> Checked,
) -> Checked {
    for (k, lower) in lower.iter().enumerate() {
        let missing = || format!("{what} {k} does not come at the richer zoom");
        let richer = richer.get(k).ok_or_else(missing)?;
        same(lower, richer).map_err(|why| format!("{what} {k}, {why}"))?;
    }
    Ok(())
}

fn way(alike: &mut Alike, lower: &Way, richer: &Way) -> Checked {
    alike.next(&lower.head, &richer.head)?;
    alike.check.same("whether it is accepted", lower.body.is_some(), richer.body.is_some())?;
    let (Some(lower), Some(richer)) = (&lower.body, &richer.body) else { return Ok(()) };
    alike.accept(&lower.accept, &richer.accept)?;
    alike.lists(&lower.lists, &richer.lists)
}
