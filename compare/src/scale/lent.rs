//! Lists and a buffer that are lent: they hold a pattern before each call, and every entry is looked at
//! behind it.

use super::check::{Check, Checked};
use super::library::{degree, Lists, Nodes, BYTE, WORD};
use crate::random::Random;
use crate::tiles::feature::{Block, Feature, Fetched, Way};

/// Of node counts, latitudes, longitudes, initial latitudes and longitudes, and the buffer.
pub type Lengths = [usize; 6];

/// So many entries behind each list are looked at too, although they are not lent.
const BEHIND: usize = 4;

/// Lists that hold the pattern between the calls.
#[derive(Default)]
pub struct Lent {
    counts: Vec<u64>,
    floats: [Vec<f64>; 4],
    buffer: Vec<u8>,
}

/// What a call writes to the fronts.
#[derive(Default)]
pub struct Fronts {
    pub counts: Vec<u64>,
    pub floats: [Vec<f64>; 4],
    pub buffer: Vec<u8>,
}

impl Lent {
    /// The fronts of these lengths.
    pub fn lists(&mut self, lengths: Lengths) -> Lists<'_> {
        let [counts, a, b, c, d, buffer] = lengths;
        hold(&mut self.counts, counts, WORD);
        self.floats.iter_mut().zip([a, b, c, d]).for_each(|(list, n)| hold(list, n, degree()));
        hold(&mut self.buffer, buffer, BYTE);
        let [latitudes, longitudes, initial_latitudes, initial_longitudes] = &mut self.floats;
        let nodes = Nodes {
            counts: &mut self.counts[..counts],
            latitudes: &mut latitudes[..a],
            longitudes: &mut longitudes[..b],
        };
        Lists {
            nodes,
            initial_latitudes: &mut initial_latitudes[..c],
            initial_longitudes: &mut initial_longitudes[..d],
            buffer: &mut self.buffer[..buffer],
        }
    }

    /// That the fronts are written and no other entry is. The pattern is restored.
    pub fn check(&mut self, check: &mut Check, lengths: Lengths, written: &Fronts) -> Checked {
        list(check, "node counts", &mut self.counts, lengths[0], &written.counts, WORD, |x| x)?;
        const NAMES: [&str; 4] =
            ["latitudes", "longitudes", "initial latitudes", "initial longitudes"];
        for k in 0..NAMES.len() {
            let (ours, theirs) = (&mut self.floats[k], &written.floats[k]);
            list(check, NAMES[k], ours, lengths[k + 1], theirs, degree(), f64::to_bits)?;
        }
        list(check, "buffer", &mut self.buffer, lengths[5], &written.buffer, BYTE, u64::from)
    }

    /// The same of a call of which it is not known what it writes to the fronts.
    pub fn check_behind(&mut self, check: &mut Check, lengths: Lengths) -> Checked {
        let [counts, floats @ .., buffer] = lengths;
        let front = |k: usize| self.floats[k][..floats[k]].to_vec();
        let fronts = Fronts {
            counts: self.counts[..counts].to_vec(),
            floats: [0, 1, 2, 3].map(front),
            buffer: self.buffer[..buffer].to_vec(),
        };
        self.check(check, lengths, &fronts)
    }
}

/// Makes a list long enough for its front and what is behind it.
fn hold<T: Copy>(list: &mut Vec<T>, length: usize, pattern: T) {
    if list.len() < length + BEHIND {
        list.resize(length + BEHIND, pattern);
    }
}

fn list<T: Copy>(
    check: &mut Check,
    what: &str,
    ours: &mut [T],
    lent: usize,
    written: &[T],
    pattern: T,
    word: impl Fn(T) -> u64,
) -> Checked {
    let shown = (lent + BEHIND).min(ours.len());
    check.values += shown as u64;
    let theirs = |k: usize| word(*written.get(k).unwrap_or(&pattern));
    let wrong = (0..shown).find(|&k| word(ours[k]) != theirs(k));
    if let Some(k) = wrong {
        let (ours, theirs) = (word(ours[k]), theirs(k));
        return Err(format!(
            "{what}, {lent} lent, entry {k}: ours {ours:x}, it should be {theirs:x}"
        ));
    }
    ours[..written.len()].fill(pattern);
    Ok(())
}

impl Fronts {
    /// Lists of these lengths that hold a word, and a buffer.
    pub fn holding(word: u64, lengths: Lengths) -> Self {
        let [counts, a, b, c, d, buffer] = lengths;
        Fronts {
            counts: vec![word; counts],
            floats: [a, b, c, d].map(|length| vec![f64::from_bits(word); length]),
            buffer: vec![BYTE; buffer],
        }
    }

    pub fn lists(&mut self) -> Lists<'_> {
        let [latitudes, longitudes, initial_latitudes, initial_longitudes] = &mut self.floats;
        let nodes = Nodes { counts: &mut self.counts, latitudes, longitudes };
        Lists { nodes, initial_latitudes, initial_longitudes, buffer: &mut self.buffer }
    }

    /// A streamed way's three lists.
    pub fn of_way(way: &Way) -> Self {
        Fronts::of_blocks(&way.blocks)
    }

    pub fn of_blocks(blocks: &[Block]) -> Self {
        let mut fronts = Fronts::default();
        for block in blocks {
            fronts.counts.push(block.nodes.len() as u64);
            fronts.floats[0].extend(block.nodes.iter().map(|node| node[0]));
            fronts.floats[1].extend(block.nodes.iter().map(|node| node[1]));
        }
        fronts
    }

    /// A fetched feature's five lists and its texts.
    pub fn of_fetched(fetched: &Fetched) -> Self {
        let buffer = fetched.texts.all().flat_map(|text| text.text.iter().copied()).collect();
        let Feature::Way(way) = fetched.feature else {
            return Fronts { buffer, ..Fronts::default() };
        };
        let mut fronts = Fronts { buffer, ..Fronts::of_way(way) };
        fronts.floats[2].extend(way.blocks.iter().map(|block| block.initial[0]));
        fronts.floats[3].extend(way.blocks.iter().map(|block| block.initial[1]));
        fronts
    }

    /// The lengths that it needs.
    pub fn lengths(&self) -> Lengths {
        let [a, b, c, d] = self.floats.each_ref().map(Vec::len);
        [self.counts.len(), a, b, c, d, self.buffer.len()]
    }
}

/// Whether lists of these lengths are long enough.
pub fn suffice(lent: &Lengths, needed: &Lengths) -> bool {
    lent.iter().zip(needed).all(|(lent, needed)| lent >= needed)
}

impl Random {
    /// Lists that are long enough, each exactly or by a few entries more.
    pub fn enough(&mut self, needed: &Lengths) -> Lengths {
        needed.map(|needed| needed + [0, 0, 1, self.below(9), self.below(70)][self.below(5)])
    }

    /// Lists of no entries, one short, exact or longer.
    pub fn lengths(&mut self, needed: &Lengths) -> Lengths {
        match self.below(4) {
            0 => [0; 6],
            1 => {
                let mut lengths = self.enough(needed);
                let list = self.below(lengths.len());
                lengths[list] = needed[list].saturating_sub(1);
                lengths
            }
            2 => self.enough(needed),
            _ => needed.map(|needed| match self.below(5) {
                0 => 0,
                1 => needed.saturating_sub(1),
                2 => needed + 1 + self.below(8),
                3 => self.below(needed + 1),
                _ => needed,
            }),
        }
    }
}
