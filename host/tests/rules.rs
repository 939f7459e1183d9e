//! Showing rules: as text and as bits, checked, explained, and what they show. And `mapsforge rules`, as a person runs it.

mod common;

use common::json::Json;
use common::{
    answer, complaint, map_bytes, replaced, repository, run, shipped, text, written, xml,
};
use common::{Random, SHIPPED};
use mapsforge::{Fault, Map, Refusal, Rule, RuleList, Rules};

const WAY_TAGS: usize = 58;

fn example() -> String {
    std::fs::read_to_string(repository("examples/islands-rules.txt")).unwrap()
}

/// Each way tag at each zoom, one rule for each cell of the table, in some order.
fn cells(random: &mut Random, tags: u16) -> Vec<Rule> {
    let of_tag = |tag| (0..32).map(move |zoom| (tag, zoom));
    let mut rules: Vec<Rule> = (0..tags)
        .flat_map(of_tag)
        .map(|(tag, zoom)| Rule { tag, lowest: zoom, highest: zoom, class: 0 })
        .collect();
    for k in (1..rules.len()).rev() {
        rules.swap(k, random.next() as usize % (k + 1));
        rules[k].class = (random.next() % 4) as u8;
    }
    rules
}

/// Some rules for each tag, now and then with a fault.
fn some(random: &mut Random, tags: u16) -> Vec<Rule> {
    let mut rules = Vec::new();
    for tag in 0..tags {
        let mut zoom = 0;
        while zoom < 32 {
            let highest = (zoom + (random.next() % 32) as u8).min(31);
            let rule = Rule { tag, lowest: zoom, highest, class: (random.next() % 64) as u8 };
            zoom = highest + 1;
            match random.next() % 40 {
                0 => (),
                1 => rules.extend([rule, rule]),
                2 => rules.push(Rule { lowest: (random.next() % 32) as u8, ..rule }),
                _ => rules.push(rule),
            }
        }
    }
    rules
}

/// The rule of a cell, if it is the only one.
fn class(rules: &[Rule], tag: usize, zoom: u8) -> Option<u8> {
    let mut named = rules
        .iter()
        .filter(|rule| usize::from(rule.tag) == tag && rule.lowest <= zoom && zoom <= rule.highest);
    named.next().filter(|_| named.next().is_none()).map(|rule| rule.class)
}

#[test]
fn text_and_bits_are_the_same_rules() {
    let mut random = Random(9);
    for name in SHIPPED {
        let bytes = map_bytes(name);
        let map = Map::open(&bytes).unwrap();
        for _ in 0..50 {
            let rules: RuleList = some(&mut random, WAY_TAGS as u16).into_iter().collect();
            let again = RuleList::from_text(&rules.to_text(&map), &map).unwrap();
            assert_eq!(again.bytes(), rules.bytes());
            assert!(again.rules().eq(rules.rules()));
            assert_eq!(RuleList::from_file(rules.bytes(), &map).unwrap(), rules);
        }
    }
    for bits in [0, u32::MAX, 0x000c_77c3, 0x1234_5678] {
        assert_eq!(Rule::of_bits(bits).bits(), Some(bits));
    }
    assert_eq!(Rule { tag: 0, lowest: 32, highest: 0, class: 0 }.bits(), None);
    assert_eq!(Rule { tag: 0, lowest: 0, highest: 0, class: 64 }.bits(), None);
}

/// Tags that a line cannot name by their texts are named by their numbers.
#[test]
fn odd_tags_go_by_their_numbers() {
    let mut bytes = map_bytes("islands.map");
    let edits: [(&[u8], &[u8]); 8] = [
        (b"building=church", b"building=school"),
        (b"highway=path", b"@ighway=path"),
        (b"highway=steps", b"#ighway=steps"),
        (b"highway=service", b"highway= #rvice"),
        (b"natural=wood", b"natural=woo "),
        (b"natural=heath", b"natural=h\nath"),
        (b"waterway=river", b"waterway=ri\xffer"),
        (b"leisure=pitch", "leisure=\u{202e}ch".as_bytes()),
    ];
    for (old, new) in edits {
        bytes = replaced(bytes, old, new);
    }
    let map = Map::open(&bytes).unwrap();
    let all = RuleList::all_shown(&map);
    let lines = all.to_text(&map);
    let numbered = lines.lines().filter(|line| line.starts_with('@')).count();
    assert_eq!(numbered, 9, "{lines}");
    assert_eq!(RuleList::from_text(&lines, &map).unwrap().bytes(), all.bytes());
    let mistake = RuleList::from_text("building=school 0-31 1", &map).unwrap_err();
    assert_eq!(
        mistake.to_string(),
        "line 1: several way tags are named \"building=school\": write @29 or @30"
    );
}

#[test]
fn lines_are_read_as_people_write_them() {
    let bytes = map_bytes("islands.map");
    let map = Map::open(&bytes).unwrap();
    let rules = |text: &str| RuleList::from_text(text, &map).map(|list| list.rules().collect());
    let expected: Vec<Rule> = vec![
        Rule { tag: 32, lowest: 0, highest: 13, class: 0 },
        Rule { tag: 32, lowest: 14, highest: 31, class: 3 },
        Rule { tag: 0, lowest: 7, highest: 7, class: 63 },
    ];
    let text =
        "\u{feff}# all\r\n\r\n  highway=path\t0-13 hidden # far\r\nhighway=path 14-31 3\n@0 7 63";
    assert_eq!(rules(text), Ok(expected));
    for (line, part) in [
        ("highway=path", "is no rule: write TAG ZOOMS CLASS"),
        ("14-31 3", "is no rule"),
        ("highway=path 14-32 3", "\"14-32\" are no zooms: write one from 0 to 31"),
        ("highway=path - 3", "are no zooms"),
        ("highway=path 1-2-3 3", "are no zooms"),
        ("highway=path 1 64", "\"64\" is no class: write hidden, or a number from 1 to 63"),
        ("highway=path 1 -1", "is no class"),
        ("highway=paht 1 1", "no way tag \"highway=paht\": did you mean highway=path?"),
        ("amenity=casino 1 1", "`mapsforge info MAP --tags` lists them"),
        ("@65536 1 1", "behind @ stands a number up to 65535"),
        ("@ 1 1", "behind @ stands a number"),
    ] {
        let mistake = RuleList::from_text(&format!("\n{line}"), &map).unwrap_err();
        assert_eq!(mistake.line, 2);
        assert!(mistake.what.contains(part), "{line}: {mistake}");
    }
    // What fits 32 bits is the library's to refuse.
    for line in ["highway=path 9-8 1", "@58 0-31 1"] {
        let list = RuleList::from_text(line, &map).unwrap();
        assert_eq!(list.check(&map), Err(Refusal::InvalidRules), "{line}");
    }
}

/// The first fault is the library's refusal; no fault is no refusal.
#[test]
fn faults_explain_the_refusal() {
    let bytes = map_bytes("islands.map");
    let map = Map::open(&bytes).unwrap();
    let mut random = Random(1);
    let mut seen = std::collections::BTreeMap::new();
    for k in 0..3000 {
        let mut rules = some(&mut random, WAY_TAGS as u16);
        if k % 3 == 0 {
            rules = cells(&mut random, WAY_TAGS as u16);
            rules.truncate(rules.len() - (random.next() % 3) as usize);
        }
        let mut content = rules.iter().copied().collect::<RuleList>().bytes().to_vec();
        match random.next() % 30 {
            0 => content.truncate(content.len() - 1),
            1 => content.extend([0, WAY_TAGS as u8, 0, 0]),
            _ => (),
        }
        let list = RuleList::from_bytes(content);
        let (result, faults) = (list.check(&map), list.faults(&map));
        let number = result.as_ref().err().map_or(0, |refusal| refusal.number());
        *seen.entry(number).or_insert(0) += 1;
        match (&result, faults.first()) {
            (Ok(table), None) => {
                let cell = |k: usize| class(&rules, k / 32, (k % 32) as u8);
                assert!((0..32 * WAY_TAGS).map(cell).eq(table.classes().iter().copied().map(Some)));
            }
            (Err(Refusal::RulesOverlap(at, zoom)), Some(Fault::Twice { tag, lowest, .. }))
            | (Err(Refusal::RulesGap(at, zoom)), Some(Fault::Missing { tag, lowest, .. })) => {
                assert_eq!((*at, *zoom), ((*tag).into(), (*lowest).into()));
            }
            (Err(Refusal::InvalidRules), Some(fault)) => assert_eq!(fault.number(), 22),
            (result, fault) => panic!("{result:?} {fault:?}"),
        }
    }
    assert!(seen.len() == 4 && seen.values().all(|&times| times > 20), "{seen:?}");
}

#[test]
fn a_table_shows_what_its_rules_say() {
    let mut random = Random(3);
    for tags in [0, 1, 2, 300] {
        let rules = cells(&mut random, tags);
        let list: RuleList = rules.iter().copied().collect();
        let table = Rules::check(list.bytes(), tags).unwrap();
        let class = |tag, zoom: u8| table.class(tag, zoom).unwrap_or(0);
        for _ in 0..2000 {
            let zoom = (random.next() % 40) as u8;
            let count = random.next() as usize % 18;
            let ids: Vec<usize> =
                (0..count).map(|_| random.next() as usize % (usize::from(tags) + 2)).collect();
            let shown = ids.iter().any(|&id| class(id, zoom.min(31)) != 0);
            assert_eq!(table.shows_tags(&ids, zoom), shown);
        }
        assert!(!table.shows_tags(&[], 7));
        assert_eq!(table.class(0, 200), table.class(0, 31));
        assert_eq!(table.class(tags.into(), 0), None);
    }
}

/// A stream by rules gives what a stream of everything gives, less what is hidden.
#[test]
fn a_stream_by_rules_declines_what_is_hidden() {
    let bytes = map_bytes("islands.map");
    let map = Map::open(&bytes).unwrap();
    let rules = RuleList::from_text(&example(), &map).unwrap();
    let table = rules.check(&map).unwrap();
    let rules: Vec<Rule> = rules.rules().collect();
    let mut hidden = 0;
    for sub_file in map.sub_files() {
        let sub_file = sub_file.unwrap();
        for place in sub_file.tiles().unwrap() {
            for zoom in [0, 8, 12, 13, 15, 16, 21, 31, 255] {
                let told = |feature: &mapsforge::Placed<'_>| format!("{feature:?}");
                let all = sub_file.placed(place, zoom).unwrap().map(Result::unwrap);
                let (shown, not): (Vec<_>, Vec<_>) = all.partition(|feature| {
                    let ids = feature.tag_ids.iter();
                    feature.kind == mapsforge::Kind::Point
                        || ids.clone().any(|&id| class(&rules, id, zoom.min(31)) != Some(0))
                });
                hidden += not.len();
                let by_rules = sub_file.placed_by_rules(place, zoom, &table).unwrap();
                let by_rules = by_rules.map(|feature| told(&feature.unwrap()));
                assert!(by_rules.eq(shown.iter().map(told)), "{place:?} {zoom}");
            }
        }
    }
    assert!(hidden > 100, "{hidden}");
}

// ---- the command

/// A file of rules in the tests' folder.
fn file(name: &str, content: &[u8]) -> String {
    text(&written(name, content))
}

#[test]
fn the_example_passes() {
    let path = text(&repository("examples/islands-rules.txt"));
    for map in SHIPPED {
        let told = answer(&["rules", &shipped(map), &path], 0);
        assert!(told.starts_with("90 rules for 58 way tags\nzooms 0 to 7: 3 way tags shown\n"));
        assert!(told.ends_with(&format!("zooms 16 to 31: 35 way tags shown\nPASS: {path}\n")));
    }
}

/// What is written of faulty rules in a form, and what is told of them.
fn converted(map: &str, path: &str, form: &str) -> (String, String) {
    let output = run(&["rules", map, path, "--to", form]);
    assert_eq!(output.status.code(), Some(1));
    let text = |bytes| String::from_utf8(bytes).unwrap();
    (text(output.stdout), text(output.stderr))
}

#[test]
fn faults_are_explained() {
    let map = shipped("islands.map");
    let edited = example()
        .replace("highway=path                  0-15  hidden", "highway=path 0-16 hidden")
        .replace("highway=steps                 0-15  hidden", "highway=steps 2-15 hidden");
    let line = 1 + edited.lines().position(|line| line.starts_with("highway=path ")).unwrap();
    let path = file("faults.txt", edited.as_bytes());
    let told = answer(&["rules", &map, &path], 1);
    let expected = format!(
        "1.  way tag 32 highway=path, zoom 16: named twice, by line {line} and line {}: leave only one \
         of them\n\
         2.  way tag 34 highway=steps, zooms 0 to 1: not named: add a rule\n\
         90 rules for 58 way tags\n\
         DO NOT USE: {path}: refused with 23\n",
        line + 1
    );
    assert_eq!(told, expected);
    // As bits, rules go by their numbers, and those that do not pass are not written as bits.
    let (text, complaints) = converted(&map, &path, "text");
    let words = |line: &str| line.split_whitespace().eq(["highway=path", "0-16", "hidden"]);
    assert!(text.lines().any(words), "{text}");
    assert_eq!(complaints, told);
    assert_eq!(converted(&map, &path, "bits"), (String::new(), told));
    let cut = file("cut.rules", &[0, 0, 7, 0xc0, 0]);
    let told = answer(&["rules", &map, &cut], 1);
    assert!(told.starts_with("1.  5 bytes are no rules: each has four"), "{told}");
    assert_eq!(converted(&map, &cut, "text"), (String::new(), told));
    let other = file("other.rules", &[0, 58, 7, 0xc0]);
    let told = answer(&["rules", &map, &other], 1);
    assert!(told.starts_with("1.  rule 0 (byte 0): way tag 58 is not in the map, which has 58"));
    let reversed = file("reversed.txt", b"\nhighway=path 9-8 1\n");
    let told = answer(&["rules", &map, &reversed], 1);
    assert!(told.starts_with("1.  line 2: the lowest zoom 9 is above the highest 8\n"), "{told}");
}

#[test]
fn text_goes_to_bits_and_back() {
    let map = shipped("islands.map");
    let new = answer(&["rules", &map, "--new"], 0);
    let path = file("new.txt", new.as_bytes());
    assert!(answer(&["rules", &map, &path], 0).contains("zooms 0 to 31: 58 way tags shown\n"));
    let bits = file("new.rules", &[]);
    assert_eq!(answer(&["rules", &map, &path, "--to", "bits", "-o", &bits], 0), "");
    assert_eq!(std::fs::read(&bits).unwrap().len(), 4 * WAY_TAGS);
    assert_eq!(answer(&["rules", &map, &bits, "--to", "text"], 0), new);
}

#[test]
fn json_tells_the_same() {
    let map = shipped("islands.map");
    let path = file("json.txt", b"highway=path 0-16 1\nhighway=path 16-31 1\n");
    let document = Json::parse(&answer(&["rules", "--json", &map, &path], 1));
    assert_eq!(document.get("format").text(), "mapsforge-rules");
    assert_eq!(document.get("verdict").text(), "DO NOT USE");
    assert_eq!((document.get("refusal").number(), document.get("status").number()), (23.0, 1.0));
    assert_eq!(document.get("fault_count").number(), 58.0);
    let faults = document.get("faults").list();
    assert_eq!(faults.len(), 58);
    assert_eq!(faults[0].get("what").text(), "way tag 32 highway=path, zoom 16: named twice");
    assert_eq!(faults[0].get("lines").list(), &[Json::Number(1.0), Json::Number(2.0)]);
    assert_eq!(faults[1].get("tag_name").text(), "building=yes");
    let page = std::fs::read_to_string(repository("docs/JSON.md")).unwrap();
    for name in document.names().iter().chain(&faults[0].names()) {
        assert!(page.contains(&format!("`{name}`")), "{name} is missing in docs/JSON.md");
    }
    let example = text(&repository("examples/islands-rules.txt"));
    let document = Json::parse(&answer(&["rules", "--json", &map, &example], 0));
    assert_eq!((document.get("refusal"), document.get("faults").list().len()), (&Json::Null, 0));
}

#[test]
fn mistakes_say_what_to_do() {
    let map = shipped("islands.map");
    let rules = text(&repository("examples/islands-rules.txt"));
    let misspelt = file("misspelt.txt", b"highway=paht 0-31 1");
    for (words, part) in [
        (&["rules", &map][..], "rules needs a FILE of rules, or --new"),
        (&["rules", &map, &map], "it is a map: give the path of a file of rules"),
        (
            &["rules", &map, "no-such"],
            "no such file or directory: give the path of a file of rules",
        ),
        (
            &["rules", &map, &misspelt],
            "line 1: the map has no way tag \"highway=paht\": did you mean",
        ),
        (&["rules", &rules, &rules], "this is not a Mapsforge map"),
        (&["rules", "-", "-"], "takes - for one file, not for both"),
        (&["rules", &map, &rules, "--to", "csv"], "takes text or bits behind --to"),
        (&["rules", &map, &rules, "-o", "x"], "takes --output with --to or --new only"),
        (&["rules", &map, &rules, "--json", "--to", "text"], "takes --json or --to, not both"),
        (&["rules", &map, "--new", "--to", "bits"], "takes --new without --to and --json"),
        (&["rules", &map, "--new", "-o", &map], "it is the map"),
        (&["svg", &map, "2:10", "--rules", &misspelt], "line 1: the map has no way tag"),
        (&["svg", &map, "2:10", "--rules", &rules, "--decline", "x"], "--rules or --decline"),
        (&["svg", &map, "2:10", "--rules", &rules, "--as", "list"], "--rules without --as list"),
    ] {
        let told = complaint(words, 2);
        assert!(told.contains(part), "{words:?}: {told}");
    }
    let faulty = file("faulty.txt", b"highway=path 0-31 1\nhighway=path 3 1\n");
    let told = complaint(&["svg", &map, "2:10", "--rules", &faulty], 2);
    assert!(
        told.contains("refused with 23: way tag 32 highway=path, zoom 3: named twice"),
        "{told}"
    );
}

/// The ways of a drawing, by the number of their shapes.
fn shapes(words: &[&str]) -> usize {
    let svg = answer(words, 0);
    xml::elements(&svg).iter().filter(|element| element.name == "path").count()
}

#[test]
fn a_drawing_shows_what_the_rules_show() {
    let map = shipped("islands.map");
    let rules = text(&repository("examples/islands-rules.txt"));
    let drawn = |zoom: &str| shapes(&["svg", &map, "2:10", "--rules", &rules, "--zoom", zoom]);
    assert!(drawn("13") < drawn("15") && drawn("15") < drawn("17"));
    let svg = answer(&["svg", &map, "2:10", "--rules", &rules, "--zoom", "13"], 0);
    assert!(svg.contains(&format!("panel: shows the ways of {rules} at zoom 13")));
    // Without anything hidden it is the whole tile.
    let new = file("all.txt", answer(&["rules", &map, "--new"], 0).as_bytes());
    let all = shapes(&["svg", &map, "2:10", "--rules", &new]);
    assert_eq!(all, shapes(&["svg", &map, "2:10"]));
    // Side by side, list and panel differ in nothing but what is declined.
    let both = run(&["svg", &map, "2:10", "--both", "--rules", &rules, "--zoom", "15"]);
    assert!(both.status.success());
    let both = String::from_utf8(both.stdout).unwrap();
    assert!(both.contains("List and panel show the same"));
}
