//! The Rust's side: the loops of `process_ways` over a way's data, with the lists of nodes kept from run to run.

use mapsforge_rs::io::ByteRead;
use mapsforge_rs::types::LatLong;
use mapsforge_rs::{decode_way_nodes, utils, Result};

/// The nodes of each block. Blocks behind those of the last run keep their room.
pub type Blocks = Vec<Vec<LatLong>>;

/// The number of blocks that were read.
pub fn read<R: ByteRead>(
    reader: &mut R,
    data_blocks: u64,
    double: bool,
    blocks: &mut Blocks,
) -> Result<usize> {
    let mut used = 0;
    for _ in 0..data_blocks {
        let coordinate_blocks = utils::read_vbe_u_int(reader)?;
        for _ in 0..coordinate_blocks {
            let nodes = utils::read_vbe_u_int(reader)?;
            if blocks.len() <= used {
                blocks.push(Vec::new());
            }
            decode_way_nodes(reader, nodes, double, &mut blocks[used])?;
            used += 1;
        }
    }
    Ok(used)
}
