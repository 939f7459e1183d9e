//! The data of ways, without a map around them.

mod check;
mod data;
mod ours;
mod rust;

use std::hint::black_box;
use std::time::Instant;

use crate::source::Source;
use data::{Shape, SHAPES};
use rust::Blocks;

/// Each run of a side is followed by one of the next, so that a load on the machine hits all.
const ROUNDS: usize = 200;
/// The shape of the runs for callgrind, single delta.
pub const COUNTED: &Shape = &SHAPES[2];

pub fn table() {
    check::limits();
    println!("| way data | form | bytes | Rust, `&[u8]` | Rust, `Source` | measure | read | read / Rust `&[u8]` | read / Rust `Source` |");
    println!("|---|---|---:|---:|---:|---:|---:|---:|---:|");
    for shape in &SHAPES {
        let bytes = shape.bytes();
        for double in [false, true] {
            check::same(shape, &bytes, double);
            print_line(shape, &bytes, double);
        }
    }
}

fn print_line(shape: &Shape, bytes: &[u8], double: bool) {
    let form = if double { "double" } else { "single" };
    let [slice, source, measure, read] = best(shape, bytes, double);
    println!(
        "| {} | {form} | {} | {slice:.2} | {source:.2} | {measure:.2} | {read:.2} | {:.2} | {:.2} |",
        shape.name,
        bytes.len(),
        read / slice,
        read / source
    );
}

/// The least nanoseconds a node: of the Rust over a slice and over compare's source, of measuring and of reading.
fn best(shape: &Shape, bytes: &[u8], double: bool) -> [f64; 4] {
    let mut blocks = Blocks::new();
    let mut lists = check::lists(shape);
    let mut words = [0; 10];
    let mut least = [f64::MAX; 4];
    for _ in 0..ROUNDS {
        let took = [
            seconds(|| rust::read(&mut black_box(bytes), 1, double, &mut blocks).is_ok()),
            seconds(|| {
                rust::read(&mut Source::new(black_box(bytes)), 1, double, &mut blocks).is_ok()
            }),
            seconds(|| ours::measure(black_box(bytes), 1, &mut words) == 0),
            seconds(|| ours::read(black_box(bytes), 1, double, &mut lists) == 0),
        ];
        least = std::array::from_fn(|side| least[side].min(took[side]));
    }
    least.map(|seconds| seconds * 1e9 / shape.all_nodes() as f64)
}

fn seconds(run: impl FnOnce() -> bool) -> f64 {
    let start = Instant::now();
    let done = black_box(run());
    let took = start.elapsed().as_secs_f64();
    assert!(done, "a side refused what it had read before");
    took
}

/// One run of a side, handed to the counter. The Rust's vectors have their room from a run before, as
/// our lists have theirs.
pub fn alone(is_ours: bool, counted: fn(&mut dyn FnMut())) {
    let bytes = COUNTED.bytes();
    let mut blocks = Blocks::new();
    let mut lists = check::lists(COUNTED);
    let mut done = false;
    if is_ours {
        counted(&mut || done = ours::read(black_box(&bytes), 1, false, &mut lists) == 0);
    } else {
        let mut run =
            || done = rust::read(&mut black_box(&bytes[..]), 1, false, &mut blocks).is_ok();
        run();
        counted(&mut run);
    }
    assert!(done);
}
