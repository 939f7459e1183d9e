//! The blocks of ways: their counts and nodes, in both delta forms.

use super::writer::{Block, Way};
use super::{with_ways, Maps};
use crate::random::Random;

const SEED: u64 = 0xB0D1;

pub fn add(maps: &mut Maps) {
    let single = [worked(), shapes(), positions(), labels()].concat();
    let double: Vec<Way> = single.iter().map(|way| Way { double: true, ..way.clone() }).collect();
    maps.add_tiles(&with_ways(&single));
    maps.add_tiles(&with_ways(&double));
}

/// The format document's example of double delta, and document 01's figures in degrees.
fn worked() -> Vec<Way> {
    let latitudes = |numbers: &[i64]| Way::of(numbers.iter().map(|&n| [n, -n]).collect());
    vec![
        latitudes(&[-8286, -57, 129, -15, -129]),
        latitudes(&[1_000_000, 2_000_000, 3_000_000]),
        // sums that pass 0
        latitudes(&[0, 0, 5, -5, -5, 5]),
    ]
}

/// Blocks of 0 to 100 nodes, several of them, several data blocks, and none.
fn shapes() -> Vec<Way> {
    let mut random = Random::new(SEED);
    let mut block =
        |nodes: usize| -> Block { (0..nodes).map(|_| [random.delta(), random.delta()]).collect() };
    let mut ways: Vec<Way> = [0, 1, 2, 3, 100].map(|nodes| Way::of(block(nodes))).to_vec();
    let sizes: [&[&[usize]]; 8] = [
        &[&[]],
        &[&[0, 0]],
        &[&[4, 0, 3, 1]],
        &[&[2], &[3]],
        &[&[], &[2, 0], &[], &[1]],
        &[&[], &[], &[]],
        &[],
        &[&[1, 2, 3, 4, 5, 6, 7, 8]],
    ];
    for sizes in sizes {
        let data: Vec<Vec<Block>> =
            sizes.iter().map(|sizes| sizes.iter().map(|&nodes| block(nodes)).collect()).collect();
        ways.push(Way { data_blocks: Some(data.len() as u64), data, ..Way::of(Vec::new()) });
    }
    ways
}

/// Numbers at the limits: of coordinates, of the globe, and deltas that round.
fn positions() -> Vec<Way> {
    let limit = 1_i64 << 53;
    let blocks = [
        [[limit, -limit], [1, -1], [1, -1]],
        [[limit, limit], [limit, limit], [limit, limit]],
        [[-limit, limit], [limit, -limit], [3, 3]],
        [[90_000_000, 180_000_000], [-90_000_001, -180_000_001], [1, 1]],
        [[123_456_789, -1], [limit - 1, 7], [-limit, 100_000_007]],
        [[63, 64], [-64, -65], [8191, 8192]],
    ];
    blocks.map(|block| Way::of(block.to_vec())).to_vec()
}

fn labels() -> Vec<Way> {
    let limit = 1_i64 << 53;
    let labels = [[0, 0], [1, -1], [-90_000_000, 180_000_000], [limit, -limit]];
    labels.map(|label| Way { label: Some(label), ..Way::of(vec![[9, 9]]) }).to_vec()
}

impl Random {
    /// A stored number of a node, mostly a small one.
    fn delta(&mut self) -> i64 {
        let bits = [6, 12, 12, 12, 16, 28][self.below(6)];
        let magnitude = self.below(1 << bits) as i64;
        if self.below(2) == 0 {
            magnitude
        } else {
            -magnitude
        }
    }
}
