//! Lists the named points of a map, each with its position: `cargo run --example named_points -- MAP`.

use mapsforge::MapFile;
use std::error::Error;

fn main() -> Result<(), Box<dyn Error>> {
    let path = std::env::args().nth(1).ok_or("give the path of a map")?;
    let file = MapFile::open(path)?;
    let map = file.map()?;
    for sub_file in map.sub_files() {
        let sub_file = sub_file?;
        for place in sub_file.tiles()? {
            let corner = sub_file.corner(place)?;
            for point in sub_file.collect(place.number)?.points() {
                let point = point?;
                // In English where the map has that, else as it is called there.
                let Some(name) = point.name_in("en") else { continue };
                let at = corner + point.offset;
                println!("{:.6} {:.6} {name}", at.latitude, at.longitude);
            }
        }
    }
    Ok(())
}
