//! The Rust, under the root that build.rs writes for it.
#![allow(warnings)]

pub mod grid;

include!(concat!(env!("OUT_DIR"), "/reader.rs"));

/// `way::decode_way_nodes` of the Rust, which is not public, for bench/.
#[inline(always)]
pub fn decode_way_nodes<R: io::ByteRead>(
    reader: &mut R,
    nodes: usize,
    double: bool,
    out: &mut alloc::vec::Vec<types::LatLong>,
) -> Result<()> {
    way::decode_way_nodes(reader, nodes, double, out)
}
