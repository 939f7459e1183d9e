//! Tables of rules: at the limits, and by chance.

use crate::random::Random;

pub type Table = (&'static str, u16, Vec<u8>);

fn rule(tag: usize, lowest: usize, highest: usize, class: usize) -> [u8; 4] {
    let bits = (tag as u32) << 16 | (lowest as u32) << 11 | (highest as u32) << 6 | class as u32;
    bits.to_be_bytes()
}

/// Each tag's zooms in so many parts, which divide 32.
fn whole(tags: usize, parts: usize) -> Vec<u8> {
    let long = 32 / parts;
    let of_tag = |tag| {
        (0..parts)
            .flat_map(move |part| rule(tag, part * long, part * long + long - 1, (tag + part) % 64))
    };
    (0..tags).flat_map(of_tag).collect()
}

pub fn largest(parts: usize) -> Vec<u8> {
    whole(65535, parts)
}

/// The cells between which stretches of tags may end, and the first and last ones.
const TAGS: [u16; 14] = [0, 1, 2, 255, 256, 257, 511, 512, 513, 1023, 1024, 1025, 65534, 65535];

pub fn limits() -> Vec<Table> {
    let mut tables: Vec<Table> = Vec::new();
    for tags in TAGS {
        let count = usize::from(tags);
        let table = whole(count, 4);
        tables.push(("whole", tags, table.clone()));
        tables.push(("backwards", tags, table.chunks(4).rev().flatten().copied().collect()));
        tables.push(("no rule", tags, Vec::new()));
        for length in 1..4 {
            tables.push(("a length", tags, [&table[..], &[0; 3][..length]].concat()));
        }
        tables.push((
            "a tag behind the last",
            tags,
            [&table[..], &rule(count.min(65535), 0, 31, 1)].concat(),
        ));
        tables.push(("reversed", tags, [&table[..], &rule(0, 1, 0, 1)].concat()));
        if count == 0 {
            continue;
        }
        // a table of the largest maps takes its time
        let (at, zooms) = if count < 2000 {
            (vec![0, count / 2, count - 1], &[0, 7, 8, 31][..])
        } else {
            (vec![count - 1], &[31][..])
        };
        for tag in at {
            for &zoom in zooms {
                let named = [&table[..], &rule(tag, zoom, zoom, 63)].concat();
                tables.push(("an overlap", tags, named));
                let missing = table.chunks(4).filter(|bytes| {
                    let part = zoom / 8 * 8;
                    **bytes != rule(tag, part, part + 7, (tag + zoom / 8) % 64)
                });
                let missing: Vec<u8> = missing.flatten().copied().collect();
                let both = [&missing[..], &rule(count - 1, 24, 24, 1)].concat();
                tables.push(("a gap", tags, missing));
                tables.push(("a gap and an overlap", tags, both));
            }
        }
    }
    tables.push(("many rules of one cell", 1, rule(0, 5, 5, 1).repeat(70_000)));
    tables.push(("many rules of one tag", 300, rule(299, 0, 31, 1).repeat(300)));
    tables
}

/// A number of tags and rules for them, most with some faults, in any order.
pub fn by_chance(random: &mut Random) -> (u16, Vec<u8>) {
    let tags = match random.below(20) {
        0 => [255, 256, 257, 512, 513][random.below(5)],
        1 => random.below(900),
        _ => random.below(7),
    };
    let mut rules = Vec::new();
    for tag in 0..tags {
        let mut zoom = 0;
        while zoom < 32 {
            let highest = (zoom + random.below(32)).min(31);
            rules.push(rule(tag, zoom, highest, random.below(4) * 21));
            zoom = highest + 1;
        }
    }
    for _ in 0..[0, 0, 1, 1, 2, 5][random.below(6)] {
        fault(&mut rules, tags, random);
    }
    for k in (1..rules.len()).rev() {
        rules.swap(k, random.below(k + 1));
    }
    let mut bytes = rules.concat();
    match random.below(25) {
        0 => bytes.truncate(bytes.len() - random.below(bytes.len().min(4) + 1)),
        1 => bytes.extend((0..random.below(4)).map(|_| 0)),
        _ => (),
    }
    (tags as u16, bytes)
}

/// Takes a rule out, doubles one, adds one, or alters some bits of one.
fn fault(rules: &mut Vec<[u8; 4]>, tags: usize, random: &mut Random) {
    if rules.is_empty() {
        return rules.push(rule(random.below(tags + 1), random.below(32), random.below(32), 1));
    }
    let at = random.below(rules.len());
    match random.below(5) {
        0 => drop(rules.swap_remove(at)),
        1 => rules.push(rules[at]),
        2 => {
            let zoom = random.below(32);
            rules.push(rule(random.below(tags + 1), zoom, zoom + random.below(32 - zoom), 2));
        }
        3 => rules[at][2] ^= 1 << random.below(8),
        _ => rules[at][random.below(4)] ^= 1 << random.below(8),
    }
}
