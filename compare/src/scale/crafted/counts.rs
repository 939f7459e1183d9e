//! Counts that the map does not hold.

use super::writer::{sub_file, Point, Tile, Value, Way};
use super::{all, header, next_point, next_way, Maps};
use crate::leaves::sample::unsigned;

/// The most nodes of a block.
const NODES: u64 = 1 << 20;
const HUGE: [u64; 8] = [3, 127, 1 << 14, 1 << 20, (1 << 31) - 1, 1 << 32, 1 << 62, (1 << 63) - 1];

pub fn add(maps: &mut Maps) {
    features(maps);
    sums(maps);
    blocks(maps);
    nodes(maps);
    values(maps);
}

/// More points or ways than there are, which may be good ones or refused before the map ends.
fn features(maps: &mut Maps) {
    let bad_point = Point { tags: vec![99], ..next_point() };
    let bad_way = Way { tags: vec![99], ..next_way() };
    let good = Tile::of(&[next_point()], &[next_way(), next_way()]);
    let bad = Tile::of(&[next_point(), bad_point], &[next_way(), bad_way]);
    for count in HUGE {
        for rows in [[count, 0], [0, count], [1, count], [count, count]] {
            maps.add_alone(Tile { rows: vec![rows], ..good.clone() }.plain());
            maps.add_alone(Tile { rows: vec![rows], ..bad.clone() }.plain());
        }
    }
}

/// Rows whose counts only fit 64 bits one by one, or up to the last row but one.
fn sums(maps: &mut Maps) {
    let most = (1 << 63) - 1;
    let tables: [[[u64; 2]; 3]; 7] = [
        [[most, 0], [most, 0], [1, 0]],
        [[most, 0], [most, 0], [2, 0]],
        [[most, 0], [most, 0], [most, 0]],
        [[0, most], [0, most], [0, most]],
        [[0, most], [0, 2], [0, most]],
        [[1, most], [1, most], [1, 2]],
        [[0, 1], [most, 1], [most, most]],
    ];
    let bad = Way { tags: vec![99], ..next_way() };
    for rows in tables {
        for last in [next_way(), bad.clone()] {
            let tile = Tile::of(&[next_point(), next_point()], &[next_way(), last]);
            let tile = Tile { rows: rows.to_vec(), ..tile }.plain();
            maps.add(header(&[[9, 8, 10]]).before_all(&[sub_file(false, &[tile])]), all(1));
        }
    }
}

/// More data blocks or coordinate blocks than there are; empty blocks go on to the map's end.
fn blocks(maps: &mut Maps) {
    for count in HUGE {
        let none = Way { data_blocks: Some(count), ..Way::of_raw(vec![0, 0]) };
        maps.add_alone(Tile::of(&[], &[none, next_way()]).plain());
        let empty = Way::of_raw([unsigned(count), vec![0; 9]].concat());
        maps.add_alone(Tile::of(&[], &[empty, next_way()]).plain());
        let one_more = Way { data_blocks: Some(count), ..Way::of(vec![[1, 2]]) };
        maps.add_alone(Tile::of(&[], &[one_more]).plain());
    }
}

/// "block over 2^20 nodes": the count alone decides, also if the map ends behind it.
fn nodes(maps: &mut Maps) {
    for count in [1, NODES - 1, NODES, NODES + 1, 1 << 32, (1 << 32) + 1, (1 << 63) - 1] {
        for rest in [&[][..], &[5], &[5, 6, 0x80]] {
            let nodes = [&[1], unsigned(count).as_slice(), rest].concat();
            maps.add_alone(Tile::of(&[], &[next_way(), Way::of_raw(nodes)]).plain());
        }
        // in a second block, of a second data block
        let nodes = [&[2, 1, 3, 4, 0, 1], unsigned(count).as_slice()].concat();
        let way = Way { double: true, data_blocks: Some(2), ..Way::of_raw(nodes) };
        maps.add_alone(Tile::of(&[], &[way]).plain());
    }
}

/// A value of the letter s is not held to the limit of texts, only to the map's end.
fn values(maps: &mut Maps) {
    for length in [1, 7, 8, 9, 1 << 20, (1 << 20) + 1, 1 << 32, (1 << 63) - 1] {
        // flags and a block of no nodes are eight bytes with those before them
        let rest = [unsigned(length).as_slice(), &[0, 0, 0, 0, 0, 0, 0, 0]].concat();
        let point = [&[1, 0, 0, 0, 0, 0x51, 5], rest.as_slice()].concat();
        maps.add_alone(point);
        let way = [&[0, 1, 0, 9, 0, 0, 0x51, 0], rest.as_slice()].concat();
        maps.add_alone(way);
    }
    let long = Way { tags: vec![0], values: vec![Value::Text(vec![1; 2000])], ..next_way() };
    maps.add_alone(Tile::of(&[], &[long, next_way()]).plain());
}
