//! Ways, with each field before their data blocks at its limits.

use super::writer::{Value, Way};
use super::{values, with_ways, Maps, TEXTS, WAY_TAGS};

pub fn add(maps: &mut Maps) {
    maps.add_tiles(&with_ways(&flags(0)));
    maps.add_tiles(&with_ways(&flags(3)));
    maps.add_tiles(&with_ways(&[tag_counts(), letters(), texts()].concat()));
    maps.add_tiles(&with_ways(&[bad_ids(), layers(), bitmaps()].concat()));
}

/// Every combination of the optional fields and the delta forms, with some of the reserved bits.
fn flags(reserved: u8) -> Vec<Way> {
    let field = |chosen: usize, text: &[u8]| (chosen != 0).then(|| text.to_vec());
    let way = |k: usize| Way {
        flags: reserved,
        name: field(k & 32, b"Kai"),
        house_number: field(k & 16, b"7b"),
        reference: field(k & 8, b"E 39"),
        label: (k & 4 != 0).then_some([-64, 63]),
        data_blocks: (k & 2 != 0).then_some(1),
        double: k & 1 != 0,
        ..Way::of(vec![[-1_000, 70_000], [5, -6], [5, 6]])
    };
    (0..64).map(way).collect()
}

fn with_tags(ids: &[u64]) -> Way {
    let values = values(&WAY_TAGS, ids);
    Way { tags: ids.to_vec(), values, ..Way::of(vec![[1, 2], [3, 4]]) }
}

/// 0 to 15 tags without a value.
fn tag_counts() -> Vec<Way> {
    (0..=15).map(|count| with_tags(&vec![7; count])).collect()
}

/// Each tag alone, several values at once, the same one twice, and texts of each length.
fn letters() -> Vec<Way> {
    let last = WAY_TAGS.len() as u64 - 1;
    let mut ways: Vec<Way> = (0..=last).map(|id| with_tags(&[id])).collect();
    let several: [&[u64]; 4] =
        [&[0, 1, 2, 3, 4], &[8, 9, 6, 5, 3], &[0, 0], &[4, 3, 2, 1, 0, 4, 3, 2, 1, 0, 10]];
    ways.extend(several.map(with_tags));
    ways.extend(
        [0, 1, 127, 128, 300]
            .map(|length| Way { values: vec![Value::Text(vec![0x80; length])], ..with_tags(&[0]) }),
    );
    ways
}

/// Ids past the last tag, also of a point's; a declined way is refused too.
fn bad_ids() -> Vec<Way> {
    let past = WAY_TAGS.len() as u64;
    let ids = [vec![past], vec![past + 2], vec![past - 1, past], vec![0, past, past + 1]];
    let far = [1 << 32, (1 << 63) - 1].map(|id| vec![id]);
    ids.into_iter().chain(far).map(|ids| with_tags(&ids)).collect()
}

fn layers() -> Vec<Way> {
    (0..16).map(|layer| Way { layer, ..Way::of(vec![[0, 0]]) }).collect()
}

fn bitmaps() -> Vec<Way> {
    let bitmaps = [0, 1, 0x00FF, 0x0100, 0x7FFF, 0x8000];
    bitmaps.map(|bitmap| Way { bitmap, ..Way::of(vec![[0, 0]]) }).to_vec()
}

/// Each kind of text in each of the three places.
fn texts() -> Vec<Way> {
    let way = |place: usize, text: &[u8]| {
        let texts = [0, 1, 2].map(|k| (k == place).then(|| text.to_vec()));
        let [name, house_number, reference] = texts;
        Way { name, house_number, reference, ..Way::of(vec![[0, 0], [1, 0]]) }
    };
    (0..3).flat_map(|place| TEXTS.map(|text| way(place, text))).collect()
}
