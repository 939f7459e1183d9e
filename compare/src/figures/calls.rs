//! Document 01 on the calls of a stream that accepts all ways: on those out of turn, and on lists that are
//! too short. A line for each call: next (n), with what it shows of a way; accept (a), with the lengths
//! that are lent, the answer, and how many entries of each list are as they were; decline (d).

use crate::tiles::delivery::Delivery;
use crate::tiles::feature::{Head, Point, Way};

/// The entries of each list of which a front is lent.
const ENTRIES: u64 = 128;

/// The calls so far.
#[derive(Default)]
pub struct Calls(String);

impl Calls {
    /// All calls of a stream that ends in this way.
    pub fn end(self, ended: &[u64]) -> String {
        let end = format!("n{}\n", numbers(ended));
        self.0 + &out_of_turn() + &end + &out_of_turn() + &end
    }
}

impl Delivery for Calls {
    fn point(&mut self, _point: Point) {
        self.0 += &(out_of_turn() + "n 1\n");
    }

    fn head(&mut self, head: Head) -> bool {
        let Head { bitmap, ids, layer, .. } = head;
        let layer = layer.expect("the model has a layer");
        let words = [&[2, u64::from(bitmap), layer], ids.as_slice()].concat();
        self.0 += &format!("{}n{}\n", out_of_turn(), numbers(&words));
        true
    }

    fn way(&mut self, way: Way) {
        self.0 += &waiting(&way);
    }
}

/// "with no way waiting accept and decline are 16"
fn out_of_turn() -> String {
    accept([ENTRIES; 3], &[16], [ENTRIES; 3]) + "d 16\n"
}

/// "until then "next" is 16"; a list one entry short is 15 with the lengths needed; "A refused accept
/// leaves the way waiting"; "entries behind them keep their values".
fn waiting(way: &Way) -> String {
    let blocks = way.blocks.len() as u64;
    let nodes = way.blocks.iter().map(|block| block.nodes.len() as u64).sum();
    assert!(blocks <= ENTRIES && nodes <= ENTRIES, "the lists are long enough");
    let needed = [blocks, nodes, nodes];
    let refused = |lent| accept(lent, &[15, blocks, nodes, nodes], [ENTRIES; 3]);
    let mut lines = String::from("n 16\n");
    if needed != [0; 3] {
        lines += &refused([0; 3]);
        for list in (0..3).filter(|&list| needed[list] > 0) {
            let mut lent = needed;
            lent[list] -= 1;
            lines += &refused(lent);
        }
    }
    let kept = needed.map(|length| ENTRIES - length);
    lines + &accept(needed, &[0, blocks, nodes], kept) + "d 16\n"
}

fn accept(lent: [u64; 3], answer: &[u64], kept: [u64; 3]) -> String {
    format!("a{}{}{}\n", numbers(&lent), numbers(answer), numbers(&kept))
}

/// Each number behind a space.
fn numbers(numbers: &[u64]) -> String {
    numbers.iter().map(|number| format!(" {number}")).collect()
}
