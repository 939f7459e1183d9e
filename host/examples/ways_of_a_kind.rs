//! Streams a tile and accepts only the ways of one tag; the others are passed over without decoding their nodes:
//! `cargo run --example ways_of_a_kind -- MAP SUBFILE TILE route ferry`.

use mapsforge::{MapFile, Step};
use std::error::Error;

fn main() -> Result<(), Box<dyn Error>> {
    let words: Vec<String> = std::env::args().skip(1).collect();
    let [path, sub_file, tile, key, value] = &words[..] else {
        return Err("give MAP SUBFILE TILE KEY VALUE".into());
    };
    let file = MapFile::open(path)?;
    let map = file.map()?;
    let sub_file = map.sub_file(sub_file.parse()?)?;
    let tile = tile.parse()?;
    // Declining goes by a way's stored size: only where all sizes are right does it lead to the next way.
    if !sub_file.collect(tile)?.exact() {
        return Err(
            "a stored size of this tile is wrong: accept all ways, or ask for another map".into()
        );
    }
    let mut stream = sub_file.stream(tile, sub_file.interval().max_zoom)?;
    let mut declined = 0;
    loop {
        match stream.next()? {
            Step::Point(_) => (),
            Step::Way(head) if head.has_tag(key, value) => {
                let body = stream.accept()?;
                let nodes: usize = body.blocks.iter().map(Vec::len).sum();
                let name = body.name.map(|name| name.to_text()).unwrap_or_default();
                println!("{name}: {nodes} nodes");
            }
            Step::Way(_) => {
                stream.decline()?;
                declined += 1;
            }
            Step::End(_) => break,
        }
    }
    println!("{declined} other ways");
    Ok(())
}
