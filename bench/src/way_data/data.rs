//! Way data of a stated shape, the same in every run.

#[path = "../../../compare/src/random.rs"]
#[allow(dead_code)]
mod random;

use random::Random;

const SEED: u64 = 88172645463325252;

/// One data block: its blocks, the nodes of each, and the most bytes of a number.
pub struct Shape {
    pub name: &'static str,
    pub blocks: usize,
    pub nodes: usize,
    pub longest: usize,
}

pub const SHAPES: [Shape; 5] = [
    Shape { name: "200 blocks of 1000 nodes, 1 byte", blocks: 200, nodes: 1000, longest: 1 },
    Shape { name: "200 blocks of 1000 nodes, 1-2 bytes", blocks: 200, nodes: 1000, longest: 2 },
    Shape { name: "200 blocks of 1000 nodes, 1-3 bytes", blocks: 200, nodes: 1000, longest: 3 },
    Shape { name: "1 block of 200000 nodes, 1-3 bytes", blocks: 1, nodes: 200000, longest: 3 },
    Shape { name: "20000 blocks of 10 nodes, 1-3 bytes", blocks: 20000, nodes: 10, longest: 3 },
];

impl Shape {
    pub fn all_nodes(&self) -> usize {
        self.blocks * self.nodes
    }

    pub fn bytes(&self) -> Vec<u8> {
        let mut random = Random::new(SEED);
        let mut out = Vec::new();
        put_unsigned(&mut out, self.blocks);
        for _ in 0..self.blocks {
            put_unsigned(&mut out, self.nodes);
            for _ in 0..2 * self.nodes {
                let size = 1 + random.below(self.longest);
                put_signed_of_size(&mut out, size, &mut random);
            }
        }
        out
    }
}

fn put_unsigned(out: &mut Vec<u8>, mut value: usize) {
    while value >= 128 {
        out.push((value % 128) as u8 | 128);
        value /= 128;
    }
    out.push(value as u8);
}

/// A number that needs just this many bytes: the last has six bits of it, and the sign.
fn put_signed_of_size(out: &mut Vec<u8>, size: usize, random: &mut Random) {
    let end = 64 << (7 * (size - 1));
    let start = if size == 1 { 0 } else { end / 128 };
    let mut value = start + random.below(end - start);
    while value >= 64 {
        out.push((value % 128) as u8 | 128);
        value /= 128;
    }
    out.push(value as u8 | if random.below(2) == 0 { 64 } else { 0 });
}
