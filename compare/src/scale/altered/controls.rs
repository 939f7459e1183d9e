//! Bytes that are looked at, so that a change of them should show. Some of them show in one kind of answer alone: if
//! that is not compared, no such control shows.

use super::super::damage::Damage;
use super::bytes::Bytes;
use super::calls::List;
use crate::differences::header_parts;
use crate::differences::tile::{StreamParts, WayParts};
use crate::maps::writer::PROJECTION;
use crate::random::Random;

#[derive(Clone, Copy)]
pub enum Control {
    Entry,
    /// The tile's own offset in it: the tile is then marked empty.
    NextEntry,
    /// Of features that came.
    Point,
    Head,
    Accepted,
    Tried,
    /// Only in what opening gives: in its degrees, and in the lists of tags.
    Box,
    TagLetter,
    /// Only in a text's bytes.
    PointText,
    WayText,
    /// Only in the words of a head.
    Bitmap,
    /// Only in the lists.
    LastNode,
    /// Only in the state, since no way follows.
    LastSize,
}

/// In the order of their numbers.
pub const CONTROLS: [Control; 13] = [
    Control::Entry,
    Control::NextEntry,
    Control::Point,
    Control::Head,
    Control::Accepted,
    Control::Tried,
    Control::Box,
    Control::TagLetter,
    Control::PointText,
    Control::WayText,
    Control::Bitmap,
    Control::LastNode,
    Control::LastSize,
];

impl Control {
    /// A change of its bytes, if there are such after a list of calls.
    pub fn damage(
        self,
        map: &[u8],
        parts: &StreamParts,
        list: &List,
        random: &mut Random,
    ) -> Option<Damage> {
        match self {
            Control::NextEntry => random.marked(map, &parts.entry, parts.next_entry.as_ref()?),
            Control::TagLetter => random.one_bit(map, &letters(map)),
            _ => random.one_bit(map, &self.stretches(parts, list)),
        }
    }

    /// Where its bytes are, after a list of calls.
    fn stretches(self, parts: &StreamParts, list: &List) -> Vec<Bytes> {
        let (points, heads) = (&parts.points[..list.points], &parts.ways[..list.heads]);
        let of = |numbers: &[usize]| numbers.iter().map(|&k| &parts.ways[k]).collect::<Vec<_>>();
        let (accepted, tried) = (of(&list.accepted), of(&list.tried));
        let all: Vec<Bytes> = match self {
            Control::Entry => vec![parts.entry.clone()],
            Control::NextEntry => parts.next_entry.iter().cloned().collect(),
            Control::Point => points.iter().map(|point| point.bytes.clone()).collect(),
            Control::Head => heads.iter().map(|way| way.head.clone()).collect(),
            Control::Accepted => accepted.iter().map(|way| way.rest.clone()).collect(),
            Control::Tried => tried.iter().map(|way| way.rest.clone()).collect(),
            Control::Box => vec![PROJECTION - 18..PROJECTION - 2],
            Control::TagLetter => Vec::new(),
            Control::PointText => points.iter().flat_map(|point| point.texts.clone()).collect(),
            Control::WayText => accepted.iter().flat_map(|way| way.texts.clone()).collect(),
            Control::Bitmap => heads.iter().map(|way| way.bitmap.clone()).collect(),
            Control::LastNode => accepted.iter().filter_map(|way| last_node(way)).collect(),
            Control::LastSize => last_size(parts, list).into_iter().collect(),
        };
        all.into_iter().filter(|stretch| !stretch.is_empty()).collect()
    }

    /// Whether enough of those that were made showed. Those that show in one answer alone nearly always do, but for
    /// features that lie over each other; of the others some byte may say nothing.
    pub fn is_good(self, [made, shown]: [u64; 2]) -> bool {
        match self {
            Control::Point | Control::Head | Control::Accepted | Control::Tried => shown > 0,
            _ => 2 * shown > made,
        }
    }

    pub fn name(self) -> &'static str {
        match self {
            Control::Entry => "the tile's entry",
            Control::NextEntry => "the next entry (the tile is marked empty)",
            Control::Point => "a point",
            Control::Head => "a way's head",
            Control::Accepted => "behind the head of an accepted way",
            Control::Tried => "of one that was declined after an accept",
            Control::Box => "the bounding box (shows in opening)",
            Control::TagLetter => "the letter of a tag (in the lists)",
            Control::PointText => "a point's text (in its bytes)",
            Control::WayText => "an accepted way's text (in its bytes)",
            Control::Bitmap => "a head's bitmap (in the words)",
            Control::LastNode => "an accepted way's last node (in the lists)",
            Control::LastSize => "the last way's stored size (in the state)",
        }
    }
}

/// The letters of the header's tags by which values are skipped.
fn letters(map: &[u8]) -> Vec<Bytes> {
    let texts = header_parts(map).map_or(Vec::new(), |parts| parts.texts);
    let letter = |text: Bytes| {
        let mark = map[text.clone()].windows(2).position(|pair| pair == b"=%")?;
        let at = text.start + mark + 2;
        (at < text.end && b"bhifs".contains(&map[at])).then_some(at..at + 1)
    };
    texts.into_iter().filter_map(letter).collect()
}

/// The last byte of a way whose last block has nodes.
fn last_node(way: &WayParts) -> Option<Bytes> {
    let block = way.way.blocks.last()?;
    (!block.nodes.is_empty()).then_some(way.rest.end - 1..way.rest.end)
}

/// The stored size of the last way, if its head came.
fn last_size(parts: &StreamParts, list: &List) -> Option<Bytes> {
    let last = parts.ways.last().filter(|_| list.heads == parts.ways.len())?;
    Some(last.size.clone())
}
