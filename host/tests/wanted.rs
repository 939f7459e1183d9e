//! What a tile's stream will want, against what that stream gives; and that the wrapper's own lists are so long.

mod common;

use common::{map_bytes, repository, Random, SHIPPED};
use mapsforge::{Lists, Map, Part, Refusal, RuleList, Selection, Step, SubFile, Wanted};

/// Whether way k is accepted.
fn accepts(decisions: &[u8], k: usize) -> bool {
    decisions.get(k).is_some_and(|&decision| decision != 0)
}

fn longest(text: u64, parts: &[Option<Part<'_>>]) -> u64 {
    parts.iter().flatten().map(|part| part.bytes().len() as u64).fold(text, u64::max)
}

/// A stream by the decisions, with these lists as long as they are: what it gave, or its first refusal. An ill-formed text counts
/// as the empty one.
fn streamed(
    sub_file: &SubFile<'_, '_>,
    tile: usize,
    zoom: u8,
    decisions: &[u8],
    lists: &mut Lists,
) -> Result<Wanted, Refusal> {
    let mut stream = sub_file.stream(tile, zoom)?;
    let (mut given, mut ways) = (Wanted::default(), 0);
    loop {
        match stream.next()? {
            Step::Point(point) => {
                given.points += 1;
                given.text = longest(given.text, &[point.name, point.house_number]);
            }
            Step::Way(_) if accepts(decisions, ways) => {
                let Lists { node_counts, latitudes, longitudes } = &mut *lists;
                let body = stream.accept_into(node_counts, latitudes, longitudes)?;
                ways += 1;
                given.ways += 1;
                given.blocks = given.blocks.max(body.blocks.0 as u64);
                given.nodes = given.nodes.max(body.blocks.1 as u64);
                given.text = longest(given.text, &[body.name, body.house_number, body.reference]);
            }
            Step::Way(_) => {
                stream.decline()?;
                ways += 1;
            }
            Step::End(_) => return Ok(given),
        }
    }
}

/// Lists that are long enough for any way of a map.
fn enough(map: &Map<'_>) -> Lists {
    let any = map.bytes().len() as u64;
    Wanted { blocks: any, nodes: any, ..Wanted::default() }.lists()
}

fn some_decisions(random: &mut Random, ways: usize) -> Vec<Vec<u8>> {
    let by_chance = |length: usize, random: &mut Random| -> Vec<u8> {
        (0..length).map(|_| (random.next() % 4) as u8 * 85).collect()
    };
    let shorter = random.next() as usize % (ways + 1);
    vec![
        Vec::new(),
        vec![1; ways],
        vec![255; ways + 9],
        by_chance(ways, random),
        by_chance(shorter, random),
        by_chance(ways + 3, random),
    ]
}

#[test]
fn figures_are_those_of_the_stream() {
    let mut random = Random(1);
    let (mut streams, mut shorter) = (0, 0);
    for name in SHIPPED.into_iter().chain(["padded.map"]) {
        let bytes = map_bytes(name);
        let map = Map::open(&bytes).unwrap();
        let mut any = enough(&map);
        for sub_file in map.sub_files().map(Result::unwrap) {
            for place in sub_file.tiles().unwrap() {
                for zoom in [0, sub_file.interval().base_zoom, 255] {
                    let ways = sub_file.stream(place.number, zoom).unwrap().to_come().unwrap().ways;
                    for decisions in some_decisions(&mut random, ways as usize) {
                        let wanted = sub_file.wanted(place.number, zoom, &decisions);
                        let by = |lists: &mut Lists| {
                            streamed(&sub_file, place.number, zoom, &decisions, lists)
                        };
                        assert_eq!(wanted, by(&mut any), "{name}");
                        streams += 1;
                        let Ok(wanted) = wanted else { continue };
                        assert_eq!(by(&mut wanted.lists()), Ok(wanted));
                        for less in [
                            Wanted { blocks: wanted.blocks.saturating_sub(1), ..wanted },
                            Wanted { nodes: wanted.nodes.saturating_sub(1), ..wanted },
                        ] {
                            if less != wanted {
                                let short = by(&mut less.lists());
                                assert!(matches!(short, Err(Refusal::TooShort(_))), "{short:?}");
                                shorter += 1;
                            }
                        }
                    }
                }
            }
        }
    }
    assert!(streams > 1000 && shorter > 1000, "{streams} {shorter}");
}

/// Damaged tiles: refused as the stream is, by number and values, at its opening or in its middle.
#[test]
fn refused_as_the_stream_is() {
    const TILE: usize = 10;
    let mut random = Random(7);
    let (mut at_opening, mut in_the_middle) = (0, 0);
    let whole = map_bytes("islands.map");
    let map = Map::open(&whole).unwrap();
    let sub_file = map.sub_file(2).unwrap();
    let place = |tile| sub_file.entry(tile).unwrap().place as usize;
    for _ in 0..3000 {
        let mut bytes = whole.clone();
        for _ in 0..1 + random.next() % 6 {
            let at = place(TILE) + random.next() as usize % (place(TILE + 1) - place(TILE));
            bytes[at] = random.next() as u8;
        }
        if random.next().is_multiple_of(8) {
            bytes.truncate(place(TILE) + random.next() as usize % 40);
        }
        let map = Map::open(&bytes).unwrap();
        let sub_file = map.sub_file(2).unwrap();
        let decisions: Vec<u8> = (0..150).map(|_| random.next() as u8 & 1).collect();
        let wanted = sub_file.wanted(TILE, 255, &decisions);
        let given = streamed(&sub_file, TILE, 255, &decisions, &mut enough(&map));
        let opens = sub_file.stream(TILE, 255).is_ok();
        match (wanted, given) {
            // An ill-formed text is streamed as the empty one.
            (Ok(wanted), Ok(given)) => {
                assert_eq!(wanted, Wanted { text: wanted.text, ..given });
                assert!(given.text <= wanted.text);
            }
            (wanted, given) => {
                assert_eq!(wanted, given);
                at_opening += u32::from(!opens);
                in_the_middle += u32::from(opens);
            }
        }
    }
    assert!(at_opening > 100 && in_the_middle > 500, "{at_opening} {in_the_middle}");
}

/// The longest text counts as stored, whether or not it is valid UTF-8.
#[test]
fn texts_count_as_stored() {
    let mut bytes = map_bytes("islands.map");
    // What is wanted, and where a point's name of the greatest length is.
    let asked = |bytes: &[u8]| {
        let map = Map::open(bytes).unwrap();
        let sub_file = map.sub_file(2).unwrap();
        let wanted = sub_file.wanted(10, 255, &[]).unwrap();
        let mut stream = sub_file.stream(10, 255).unwrap();
        while let Step::Point(point) = stream.next().unwrap() {
            let is_longest = |name: &Part<'_>| name.bytes().len() as u64 == wanted.text;
            if let Some(name) = point.name.filter(is_longest) {
                return (wanted, Some(name.start()));
            }
        }
        (wanted, None)
    };
    let (wanted, mut at) = asked(&bytes);
    assert!(at.is_some());
    while let Some(start) = at {
        bytes[start] = 0xff;
        let (still, next) = asked(&bytes);
        assert_eq!(still, wanted);
        at = next;
    }
}

#[test]
fn own_lists_are_as_long_as_wanted() {
    let bytes = map_bytes("islands.map");
    let map = Map::open(&bytes).unwrap();
    let sub_file = map.sub_file(2).unwrap();
    let wanted = sub_file.wanted(10, 255, &[1; 200]).unwrap();
    let mut stream = sub_file.stream(10, 255).unwrap();
    assert_eq!(stream.accept().unwrap_err(), Refusal::OutOfTurn);
    let mut ways = 0;
    loop {
        match stream.next().unwrap() {
            Step::Way(_) => ways += 1,
            Step::Point(_) => continue,
            Step::End(_) => break,
        }
        // Ways that are declined, or accepted to other lists, make none.
        match ways {
            1 => stream.decline().unwrap(),
            2 => drop(stream.accept_with(&mut Lists::default()).unwrap()),
            _ => drop(stream.accept().unwrap()),
        }
        let lengths = stream.lists().map(lengths);
        assert_eq!(lengths, (ways > 2).then_some([wanted.blocks, wanted.nodes, wanted.nodes]));
    }
    assert_eq!(ways, 141);
}

fn lengths(lists: &Lists) -> [u64; 3] {
    [lists.node_counts.len(), lists.latitudes.len(), lists.longitudes.len()].map(|n| n as u64)
}

/// Streams by rules and by windows have lists for the ways that they accept, and no others.
#[test]
fn lists_of_a_selection_are_for_its_ways() {
    let text = std::fs::read_to_string(repository("examples/islands-rules.txt")).unwrap();
    let (mut compared, mut smaller) = (0, 0);
    for name in ["islands.map", "islands-debug.map"] {
        let bytes = map_bytes(name);
        let map = Map::open(&bytes).unwrap();
        let rules = RuleList::from_text(&text, &map).unwrap().check(&map).unwrap();
        for sub_file in map.sub_files().map(Result::unwrap) {
            for place in sub_file.tiles().unwrap() {
                for (zoom, mask) in
                    [(9, None), (14, None), (255, Some(0x8000)), (255, Some(0x0660))]
                {
                    let selection = Selection { mask, rules: Some((&rules, zoom)) };
                    let mut decisions = Vec::new();
                    let mut stream = sub_file.stream(place.number, zoom).unwrap();
                    loop {
                        match stream.next().unwrap() {
                            Step::Way(head) => {
                                let touched = mask.is_none_or(|mask| head.shares_cell(mask));
                                decisions.push(u8::from(touched && rules.shows(&head, zoom)));
                                stream.decline().unwrap();
                            }
                            Step::Point(_) => (),
                            Step::End(_) => break,
                        }
                    }
                    let wanted = sub_file.wanted(place.number, zoom, &decisions).unwrap();
                    let mut placed = sub_file.placed_selected(place, zoom, selection).unwrap();
                    let all = placed.by_ref().map(Result::unwrap).count() as u64;
                    assert_eq!(all, wanted.points + wanted.ways);
                    let exact = [wanted.blocks, wanted.nodes, wanted.nodes];
                    assert_eq!(placed.lists().map(lengths), (wanted.ways > 0).then_some(exact));
                    compared += u32::from(wanted.ways > 0);
                    let whole = sub_file.wanted(place.number, zoom, &vec![1; decisions.len()]);
                    smaller += u32::from(whole.unwrap().nodes > wanted.nodes);
                }
            }
        }
    }
    assert!(compared > 20 && smaller > 5, "{compared} {smaller}");
}
