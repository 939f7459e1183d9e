//! Both sides give the same, and entries behind the result keep their values.

use super::data::Shape;
use super::ours::{self, Lists};
use super::rust::{self, Blocks};

/// Entries of a list behind the result, and what they hold.
const BEHIND: usize = 3;
const KEPT: u64 = 7;

/// Lists with more room than the result needs.
pub fn lists(shape: &Shape) -> Lists {
    let nodes = vec![KEPT as f64; shape.all_nodes() + BEHIND];
    Lists { counts: vec![KEPT; shape.blocks + BEHIND], latitudes: nodes.clone(), longitudes: nodes }
}

pub fn same(shape: &Shape, bytes: &[u8], double: bool) {
    let mut blocks = Blocks::new();
    let used = rust::read(&mut &bytes[..], 1, double, &mut blocks).expect("the Rust reads it");
    assert_eq!(used, shape.blocks);

    let mut words = [KEPT; 10];
    assert_eq!(ours::measure(bytes, 1, &mut words), 0);
    let sizes = [shape.blocks, shape.all_nodes(), bytes.len(), usize::from(is_plain(bytes))];
    let said = sizes.map(|size| size as u64);
    assert_eq!((&words[..6], &words[6..]), (&[KEPT; 6][..], &said[..]));

    let mut got = lists(shape);
    assert_eq!(ours::read(bytes, 1, double, &mut got), 0);
    let wanted = from_rust(shape, &blocks);
    assert_eq!(got.counts, wanted.counts);
    assert_eq!(bits(&got.latitudes), bits(&wanted.latitudes));
    assert_eq!(bits(&got.longitudes), bits(&wanted.longitudes));
    refused(shape, bytes, double);
}

/// The most nodes that a block may have.
const MOST_NODES: usize = 1 << 20;

/// Blocks of 0, 1, 2 and the most nodes pass; one node more is refused by both, with 10.
pub fn limits() {
    for nodes in [0, 1, 2, MOST_NODES] {
        let shape = Shape { name: "a block at its limits", blocks: 1, nodes, longest: 1 };
        same(&shape, &shape.bytes(), false);
        same(&shape, &shape.bytes(), true);
    }
    let shape =
        Shape { name: "a block over its limit", blocks: 1, nodes: MOST_NODES + 1, longest: 1 };
    let bytes = shape.bytes();
    assert!(rust::read(&mut &bytes[..], 1, false, &mut Blocks::new()).is_err());
    let mut got = lists(&shape);
    assert_eq!(ours::read(&bytes, 1, false, &mut got), 10);
    assert!(got == lists(&shape));
}

/// Each number is made in the fewest bytes, so that only a minus zero is not plain: a byte 40 with a number's end before it. No
/// count is 64, which would look like it.
fn is_plain(bytes: &[u8]) -> bool {
    !bytes.windows(2).any(|pair| pair[0] < 0x80 && pair[1] == 0x40)
}

/// The Rust's blocks in our lists.
fn from_rust(shape: &Shape, blocks: &Blocks) -> Lists {
    let mut out = lists(shape);
    let mut at = 0;
    for (number, block) in blocks.iter().enumerate() {
        out.counts[number] = block.len() as u64;
        for node in block {
            out.latitudes[at] = node.latitude;
            out.longitudes[at] = node.longitude;
            at += 1;
        }
    }
    out
}

/// Without the last byte nothing is written.
fn refused(shape: &Shape, bytes: &[u8], double: bool) {
    let mut got = lists(shape);
    let cut = &bytes[..bytes.len() - 1];
    assert_eq!(ours::read(cut, 1, double, &mut got), 1);
    assert!(got == lists(shape));
}

fn bits(list: &[f64]) -> Vec<u64> {
    list.iter().map(|value| value.to_bits()).collect()
}
