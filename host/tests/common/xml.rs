//! Reads XML, strictly enough to notice a text that was not escaped: what is not well-formed fails the test.

/// An element's name and the text in it, without that of elements inside it.
#[derive(Debug, PartialEq)]
pub struct Element {
    pub name: String,
    pub attributes: Vec<(String, String)>,
    pub text: String,
}

/// All elements of a document, in the order in which they start.
pub fn elements(document: &str) -> Vec<Element> {
    let mut found: Vec<Element> = Vec::new();
    let mut open: Vec<usize> = Vec::new();
    let mut rest = document;
    while let Some(at) = rest.find('<') {
        let text = unescaped(&rest[..at]);
        match open.last() {
            Some(&inside) => found[inside].text.push_str(&text),
            None => assert_eq!(text.trim(), "", "a text stands outside of all elements"),
        }
        let end = tag_end(&rest[at..]) + at;
        let tag = &rest[at + 1..end];
        rest = &rest[end + 1..];
        if let Some(name) = tag.strip_prefix('/') {
            let inside = open.pop().expect("an element ends that did not start");
            assert_eq!(found[inside].name, name.trim(), "elements are nested");
            continue;
        }
        let (tag, closed) = tag.strip_suffix('/').map_or((tag, false), |tag| (tag, true));
        found.push(element(tag));
        if !closed {
            open.push(found.len() - 1);
        }
    }
    assert!(open.is_empty() && rest.trim().is_empty(), "the document ends early: {rest:?}");
    found
}

/// Where a tag ends: at the first `>` that is in no quotes.
fn tag_end(tag: &str) -> usize {
    let mut quoted = false;
    for (at, letter) in tag.char_indices() {
        match letter {
            '"' => quoted = !quoted,
            '>' if !quoted => return at,
            '<' => assert!(at == 0, "a tag starts inside of another: {}", &tag[..at]),
            _ => (),
        }
    }
    panic!("a tag has no end: {tag}")
}

fn element(tag: &str) -> Element {
    let (name, mut rest) = tag.split_once(char::is_whitespace).unwrap_or((tag, ""));
    let mut attributes = Vec::new();
    while let Some((key, more)) = rest.trim_start().split_once("=\"") {
        let (value, more) = more.split_once('"').expect("a value has no end");
        assert!(!attributes.iter().any(|(other, _)| other == key), "{key} stands twice");
        attributes.push((key.to_string(), unescaped(value)));
        rest = more;
    }
    assert_eq!(rest.trim(), "", "{tag}");
    Element { name: name.into(), attributes, text: String::new() }
}

fn unescaped(text: &str) -> String {
    let mut plain = String::new();
    let mut rest = text;
    while let Some(at) = rest.find('&') {
        plain.push_str(&rest[..at]);
        let (name, more) = rest[at + 1..].split_once(';').expect("an entity has no end");
        plain.push(match name {
            "amp" => '&',
            "lt" => '<',
            "gt" => '>',
            "quot" => '"',
            other => panic!("&{other}; is no entity"),
        });
        rest = more;
    }
    plain.push_str(rest);
    let plain_letter = |letter: char| !letter.is_control() || "\n\t".contains(letter);
    assert!(plain.chars().all(plain_letter), "a control character: {plain:?}");
    plain
}

/// The texts of all elements of a name.
pub fn texts(document: &str, name: &str) -> Vec<String> {
    let elements = elements(document).into_iter();
    elements.filter(|element| element.name == name).map(|element| element.text).collect()
}
