//! The features of a map that are asked for, one after the other.

use crate::args::{Args, Choice};
use crate::{of_tile, target, Failure};
use mapsforge::{BoundingBox, Grid, Map, Placed, SubFile, TagFilter, TilePlace};

/// What is asked for.
pub struct Query {
    pub zoom: Option<u8>,
    pub tags: Vec<TagFilter>,
    pub bounds: Option<BoundingBox>,
}

pub const TAG: Choice = Choice { long: "--tag", short: Some("-t"), valued: true };
pub const BBOX: Choice = Choice { long: "--bbox", short: None, valued: true };
pub const ZOOM: Choice = Choice { long: "--zoom", short: Some("-z"), valued: true };

impl Query {
    pub fn new(args: &Args) -> Result<Query, Failure> {
        let bounds: Option<[f64; 4]> = args.numbers("--bbox", "SOUTH,WEST,NORTH,EAST")?;
        if bounds.is_some_and(|[south, west, north, east]| south > north || west > east) {
            return Err(args.mistake("takes SOUTH,WEST,NORTH,EAST behind --bbox, in this order"));
        }
        Ok(Query {
            zoom: args.number("--zoom", "a number from 0 to 255")?,
            tags: args.tags("--tag")?,
            bounds: bounds.map(|[south, west, north, east]| BoundingBox {
                south,
                west,
                north,
                east,
            }),
        })
    }

    /// Hands on each feature, tile by tile; nothing is kept. Gives what was refused.
    pub fn each<'a>(
        &self,
        map: &Map<'a>,
        mut found: impl FnMut(&SubFile<'_, 'a>, TilePlace, Placed<'a>) -> Result<(), Failure>,
    ) -> Result<Vec<Failure>, Failure> {
        let (sub_file, zoom) = target::zoomed_sub_file(map, self.zoom)?;
        sub_file.whole_index()?;
        let mut refused = Vec::new();
        for (x, y) in self.places(&sub_file)? {
            let Some(place) = sub_file.tile_at(x, y)? else { continue };
            let placed = match sub_file.placed(place, zoom) {
                Ok(placed) => placed,
                Err(refusal) => {
                    refused.push(told(&sub_file, place, of_tile(place)(refusal)));
                    continue;
                }
            };
            for feature in placed {
                match feature {
                    Ok(feature) if self.asks_for(&feature) => found(&sub_file, place, feature)?,
                    Ok(_) => (),
                    Err(refusal) => refused.push(told(&sub_file, place, of_tile(place)(refusal))),
                }
            }
        }
        Ok(refused)
    }

    fn asks_for(&self, feature: &Placed<'_>) -> bool {
        let tagged = self.tags.is_empty() || self.tags.iter().any(|tag| feature.has(tag));
        tagged && self.bounds.is_none_or(|bounds| touches(&bounds, feature))
    }

    /// The columns and rows that the box touches.
    fn places(
        &self,
        sub_file: &SubFile<'_, '_>,
    ) -> Result<impl Iterator<Item = (i32, i32)> + use<>, Failure> {
        let whole = sub_file.grid();
        let asked = match &self.bounds {
            Some(bounds) => Grid::of_box(bounds, sub_file.interval().base_zoom)?,
            None => whole,
        };
        let rows = asked.y_min.max(whole.y_min)..=asked.y_max.min(whole.y_max);
        let columns = asked.x_min.max(whole.x_min)..=asked.x_max.min(whole.x_max);
        Ok(rows.flat_map(move |y| columns.clone().map(move |x| (x, y))))
    }
}

/// Whether some of a feature's extent is in a box.
fn touches(bounds: &BoundingBox, feature: &Placed<'_>) -> bool {
    feature.bounds().is_some_and(|[south, west, north, east]| {
        south <= bounds.north && north >= bounds.south && west <= bounds.east && east >= bounds.west
    })
}

fn told(sub_file: &SubFile<'_, '_>, place: TilePlace, failure: Failure) -> Failure {
    let tile = crate::output::short(sub_file, place);
    Failure::Refused(format!("tile {tile} is {}", failure.text()))
}
