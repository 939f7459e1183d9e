//! Collected tiles and fetched features.

use super::check::{Call, Check, Checked, Said};
use super::known::Tile;
use super::lent::{suffice, Fronts, Lengths, Lent};
use super::library::{
    self, degrees, kept_but, Ask, Collect, Fetch, PlaceList, Places, BEHIND, SIGNED, WORD,
};
use super::opening::part;
use crate::random::Random;
use crate::tiles::feature::{Feature, Fetched, TagText, Text};

/// The most tags of a feature.
const TAGS: usize = 15;
/// The words of a tag's string.
const TAG_WORDS: usize = 5;
/// Up to so many features all lists of places are lent that are too short.
const ALL_SHORT: usize = 8;

/// Collects a tile with a list of places that has so many entries; and the list, with some behind it.
fn collect_to(ask: &Ask, length: usize) -> (Collect, Vec<u64>) {
    let mut places = vec![WORD; length + BEHIND];
    let ours = library::collect(ask, &mut places[..length]);
    (ours, places)
}

/// A refused collecting leaves rows and list alone.
fn not_collected(check: &mut Check, ask: &Ask, length: usize, refusal: &[u64]) -> Checked {
    let (ours, places) = collect_to(ask, length);
    check.refused(Call::Collect, &ours.got, refusal)?;
    check.words("points of no tile", &ours.points, &[WORD; 256])?;
    check.words("ways of no tile", &ours.ways, &[WORD; 256])?;
    check.words("places of no tile", &places, &vec![WORD; places.len()])
}

/// Collects a tile, to lists that are too short and then to one that is not, and compares every word, the zoom table and
/// every entry of the list. The list is for fetches; it may be longer than there are features.
pub fn collect(
    check: &mut Check,
    ask: &Ask,
    known: &Tile,
    random: &mut Random,
) -> Checked<PlaceList> {
    let (known_starts, tile) = match known {
        Ok(known) => (&known.places, &known.tile),
        Err(refusal) => {
            not_collected(check, ask, random.below(9), refusal)?;
            return Ok(PlaceList::default());
        }
    };
    let needed = known_starts.len();
    for length in random.too_short(needed) {
        check.places.short += 1;
        not_collected(check, ask, length, &[15, needed as u64, 0, 0, 0, 0, 0])?;
    }
    let length = needed + [0, 0, 1, random.below(9)][random.below(4)];
    let (ours, places) = collect_to(ask, length);
    let mut expected = vec![WORD; places.len()];
    expected[..needed].copy_from_slice(known_starts);
    let (mut points, mut ways) = ([WORD; 256], [WORD; 256]);
    for (k, [row_points, row_ways]) in tile.table.iter().enumerate() {
        (points[k], ways[k]) = (*row_points, *row_ways);
    }
    let counts = [tile.table.len(), tile.points.len(), tile.ways.len()].map(|n| n as u64);
    let padded = tile.padded.ok_or("the model does not say what is padded")?;
    check.said(Said::Collected, padded == 0);
    check.padded_numbers += padded;
    let mut words = [WORD; 15];
    words[6..9].copy_from_slice(&placed(check, ask.map, &tile.signature, known_place(known, 0))?);
    words[9] = counts[0];
    words[10] = tile.first_way;
    let said = [tile.exact, padded == 0].map(u64::from);
    words[11..15].copy_from_slice(&[counts[1], counts[2], said[0], said[1]]);
    check.got(Call::Collect, &ours.got, 0, &words)?;
    check.words("points of the zoom table", &ours.points, &points)?;
    check.words("ways of the zoom table", &ours.ways, &ways)?;
    check.places.starts += needed as u64;
    check.words("places of features", &places, &expected)?;
    let starts = places[..length].to_vec();
    Ok(PlaceList { starts, points: counts[1], ways: counts[2] })
}

/// The place of the signature of the tile, or of feature `k - 1`.
fn known_place(known: &Tile, k: usize) -> Option<u64> {
    known.as_ref().ok().and_then(|known| known.signatures.get(k).copied())
}

/// The words of a part at a place, where its bytes must be.
pub fn placed(
    check: &mut Check,
    map: &[u8],
    text: &Option<Text>,
    place: Option<u64>,
) -> Checked<[u64; 3]> {
    let Some(text) = text else { return Ok([0; 3]) };
    let place = place.ok_or("the model does not say where a part is")?;
    stored_part(check, map, &[1, place, text.len() as u64], &Some(text.clone()))
}

/// The words of a part, which are ours once its bytes are those that must come.
pub fn stored_part(
    check: &mut Check,
    map: &[u8],
    ours: &[u64],
    text: &Option<Text>,
) -> Checked<[u64; 3]> {
    let Some(text) = text else { return Ok([0; 3]) };
    let bytes = part(map, ours[1], ours[2]);
    check.same("a part of the map", bytes, Some(text.as_slice()))?;
    Ok([1, ours[1], ours[2]])
}

/// Fetches feature `k` by the list that collecting filled, and at times by one that does not have it. A tile that does not
/// collect has an empty list.
pub fn fetch(
    check: &mut Check,
    lent: &mut Lent,
    ask: &Ask,
    (known, places): (&Tile, &PlaceList),
    k: u64,
    random: &mut Random,
) -> Checked {
    let of = places.lend();
    let tile = known.as_ref().ok();
    let fetched = tile.zip(usize::try_from(k).ok()).and_then(|(tile, k)| tile.get(k));
    let Some(fetched) = fetched else {
        return not_fetched(check, lent, ask, of, k, &[17], random);
    };
    let question = Question { ask, of, k };
    delivered(check, lent, &question, &fetched, known_place(known, k as usize + 1), random)?;
    if random.below(4) > 0 {
        return Ok(());
    }
    // "a number at or above the count or the list's length is 17, before reading"
    let shorter = Places { starts: &of.starts[..random.below(k as usize + 1)], ..of };
    not_fetched(check, lent, ask, shorter, k, &[17], random)?;
    let points = random.below(k as usize + 1) as u64;
    let fewer = Places { points, ways: k - points, ..of };
    not_fetched(check, lent, ask, fewer, k, &[17], random)
}

/// What a fetch is asked for.
pub struct Question<'a> {
    pub ask: &'a Ask<'a>,
    pub of: Places<'a>,
    pub k: u64,
}

/// A feature that is fetched to lists of random lengths; where they are too short, to long ones behind that.
pub fn delivered(
    check: &mut Check,
    lent: &mut Lent,
    question: &Question,
    fetched: &Fetched,
    signature_place: Option<u64>,
    random: &mut Random,
) -> Checked {
    let Question { ask, of, k } = *question;
    let fronts = Fronts::of_fetched(fetched);
    let needed = fronts.lengths();
    let lengths = random.lengths(&needed);
    if !suffice(&lengths, &needed) {
        let lists = needed.map(|length| length as u64);
        let refusal = [&[15], &lists[..]].concat();
        refuse(check, lent, question, lengths, &refusal)?;
    }
    let lengths = random.enough(&needed);
    let ours = library::fetch(ask, of, k, lent.lists(lengths));
    feature(check, ask.map, &ours, fetched, signature_place)?;
    lent.check(check, lengths, &fronts)
}

/// A fetch that is refused whatever lists are lent.
pub fn not_fetched(
    check: &mut Check,
    lent: &mut Lent,
    ask: &Ask,
    of: Places,
    k: u64,
    refusal: &[u64],
    random: &mut Random,
) -> Checked {
    let lengths = random.lengths(&[1, 2, 2, 1, 1, 3]);
    refuse(check, lent, &Question { ask, of, k }, lengths, refusal)
}

/// A refused fetch leaves the lists and the buffer alone.
fn refuse(
    check: &mut Check,
    lent: &mut Lent,
    question: &Question,
    lengths: Lengths,
    refusal: &[u64],
) -> Checked {
    let Question { ask, of, k } = *question;
    let ours = library::fetch(ask, of, k, lent.lists(lengths));
    check.refused(Call::Fetch, &ours.got, refusal)?;
    nothing(check, &ours)?;
    lent.check(check, lengths, &Fronts::default())
}

/// The other words of a refused fetch.
pub fn nothing(check: &mut Check, ours: &Fetch) -> Checked {
    check.same("a refused fetch's layer", ours.signed, SIGNED)?;
    check.floats("a refused fetch's degrees", &ours.degrees, &degrees::<2>())?;
    check.words("a refused fetch's ids", &ours.ids, &[WORD; TAGS])?;
    check.words("a refused fetch's tags", &ours.tags, &[WORD; TAGS * TAG_WORDS])
}

/// Every field of a fetched feature but its lists. A point has no words of a way, and a way no elevation.
fn feature(
    check: &mut Check,
    map: &[u8],
    ours: &Fetch,
    fetched: &Fetched,
    signature_place: Option<u64>,
) -> Checked {
    let mut words: [u64; 37] = kept_but(6, &[0; 23]);
    let unsaid = "the model does not say whether it is plain";
    let (ids, signature, layer, metres, degrees) = match fetched.feature {
        Feature::Point(point) => {
            words[29] = u64::from(point.elevation.is_some());
            let plain = point.plain.ok_or(unsaid)?;
            words[35] = u64::from(plain);
            check.said(Said::FetchedPoint, plain);
            let metres = i64::from(point.elevation.unwrap_or(0));
            (&point.ids, &point.signature, point.layer, metres, point.position)
        }
        Feature::Way(way) => {
            let nodes: usize = way.blocks.iter().map(|block| block.nodes.len()).sum();
            words[6] = 1;
            let (plain, head) = (way.plain.ok_or(unsaid)?, way.head_plain.ok_or(unsaid)?);
            check.said(Said::FetchedWay, plain);
            words[30..37].copy_from_slice(&[
                u64::from(way.bitmap),
                u64::from(way.double),
                way.blocks.len() as u64,
                nodes as u64,
                u64::from(way.label.is_some()),
                u64::from(plain),
                u64::from(head),
            ]);
            (&way.ids, &way.signature, way.layer, SIGNED[1], way.label.unwrap_or_default())
        }
    };
    words[7] = ids.len() as u64;
    words[8..11].copy_from_slice(&placed(check, map, signature, signature_place)?);
    for (k, text) in fetched.texts.others.iter().enumerate() {
        if let Some(text) = text {
            words[11 + 6 * k] = 1;
            words[12 + 6 * k..17 + 6 * k].copy_from_slice(&tag_words(text));
        }
    }
    check.got(Call::Fetch, &ours.got, 0, &words)?;
    check.same("a fetched layer and elevation", ours.signed, [layer as i64 - 5, metres])?;
    check.floats("a fetched position", &ours.degrees, &degrees)?;
    check.words("fetched ids", &ours.ids, &padded::<TAGS>(ids))?;
    let tags: Vec<u64> = fetched.texts.of_ids.iter().flat_map(tag_words).collect();
    check.words("fetched tags", &ours.tags, &padded::<{ TAGS * TAG_WORDS }>(&tags))
}

/// Its size in the buffer, and of its tag the lengths and the hashes of key and value.
fn tag_words(TagText { text, tag }: &TagText) -> [u64; TAG_WORDS] {
    let [key, value, key_hash, value_hash] = *tag;
    [text.len() as u64, key, value, key_hash, value_hash]
}

/// The ids, and zeros behind them.
pub fn padded<const N: usize>(ids: &[u64]) -> [u64; N] {
    let mut words = [0; N];
    words[..ids.len()].copy_from_slice(ids);
    words
}

impl Random {
    /// Lengths of lists that are too short for so many places: all of a few, else some of them.
    fn too_short(&mut self, needed: usize) -> Vec<usize> {
        if needed <= ALL_SHORT {
            return (0..needed).collect();
        }
        vec![0, self.below(needed), needed - 1]
    }
}
