//! The data of a way alone, measured and read, from any place of a map.

use mapsforge_rs::io::ByteSource;
use mapsforge_rs::utils::read_vbe_u_int;

use super::check::{caught, Call, Check, Checked, Reason, Said};
use super::lent::{suffice, Fronts, Lent};
use super::library;
use crate::answer::{refused, Answer};
use crate::differences::tile::Opened;
use crate::random::Random;
use crate::source::Source;

/// Node counts, latitudes and longitudes, the place behind them, and whether all their numbers are plain; or the refusal.
type Data = Result<(Fronts, u64, bool), Answer>;

/// So many data blocks from a place on, with one of the two forms of deltas.
#[derive(Clone, Copy)]
pub struct Question {
    pub at: usize,
    pub data_blocks: u64,
    pub double: bool,
}

/// Measures and reads, with lists of random lengths.
pub fn compare(
    check: &mut Check,
    lent: &mut Lent,
    opened: Opened,
    question: Question,
    random: &mut Random,
) -> Checked {
    let map = opened.map;
    let known = known(check, opened, question)?;
    measure(check, map, question, &known)?;
    read(check, lent, map, question, &known, random)
}

/// The Rust's, by its own readers of numbers and nodes; where it parts, the model's. Whether the numbers are plain the model says.
fn known(check: &mut Check, opened: Opened, question: Question) -> Checked<Data> {
    let Question { at, data_blocks, double } = question;
    let (model, parting) = opened.way_data(at, data_blocks, double);
    if let Some(parting) = parting {
        check.settle(Reason::Tile(parting.cause));
        return Ok(model.map(|data| (Fronts::of_blocks(&data.blocks), data.end, data.plain)));
    }
    let (fronts, end) =
        match caught(|| rust(opened.map, question).map_err(|error| refused(&error)))? {
            Err(refusal) => return Ok(Err(refusal)),
            Ok(data) => data,
        };
    let plain = model.map(|data| data.plain);
    let plain = plain.map_err(|_| "the model does not say whether it is plain")?;
    Ok(Ok((fronts, end, plain)))
}

fn rust(map: &[u8], question: Question) -> mapsforge_rs::Result<(Fronts, u64)> {
    let mut source = Source::new(map);
    source.seek_to(question.at as u64)?;
    let (mut fronts, mut nodes) = (Fronts::default(), Vec::new());
    for _ in 0..question.data_blocks {
        for _ in 0..read_vbe_u_int(&mut source)? {
            let count = read_vbe_u_int(&mut source)?;
            mapsforge_rs::decode_way_nodes(&mut source, count, question.double, &mut nodes)?;
            fronts.counts.push(nodes.len() as u64);
            fronts.floats[0].extend(nodes.iter().map(|node| node.latitude));
            fronts.floats[1].extend(nodes.iter().map(|node| node.longitude));
        }
    }
    Ok((fronts, source.at()))
}

/// Blocks, nodes, the place behind them and whether they are plain.
fn measure(check: &mut Check, map: &[u8], question: Question, known: &Data) -> Checked {
    let got = library::measure_way_data(map, question.at, question.data_blocks);
    match known {
        Err(refusal) => check.refused(Call::MeasureWayData, &got, refusal),
        Ok(data) => {
            check.said(Said::Data, data.2);
            check.got(Call::MeasureWayData, &got, 0, &measured(data))
        }
    }
}

fn measured((fronts, end, plain): &(Fronts, u64, bool)) -> [u64; 10] {
    let [blocks, nodes, ..] = fronts.lengths().map(|length| length as u64);
    library::kept_but(6, &[blocks, nodes, *end, u64::from(*plain)])
}

fn read(
    check: &mut Check,
    lent: &mut Lent,
    map: &[u8],
    question: Question,
    known: &Data,
    random: &mut Random,
) -> Checked {
    let nothing = Fronts::default();
    let needed = known.as_ref().map_or([1, 2, 2, 0, 0, 0], |(fronts, ..)| fronts.lengths());
    let lengths = random.lengths(&needed);
    let Question { at, data_blocks, double } = question;
    let lists = lent.lists(lengths).nodes;
    let got = library::read_way_data(map, at, data_blocks, double, lists);
    let written = match known {
        Err(refusal) => {
            check.refused(Call::ReadWayData, &got, refusal)?;
            &nothing
        }
        Ok(_) if !suffice(&lengths, &needed) => {
            let mut short = vec![15];
            short.extend(needed.map(|length| length as u64));
            check.refused(Call::ReadWayData, &got, &short)?;
            &nothing
        }
        Ok(data) => {
            check.said(Said::Data, data.2);
            check.got(Call::ReadWayData, &got, 0, &measured(data))?;
            &data.0
        }
    };
    lent.check(check, lengths, written)
}
