//! Showing rules as lines that people edit: `TAG ZOOMS CLASS`.

use super::{Rule, RuleList};
use crate::{word, Map};
use std::collections::HashMap;
use std::fmt::{self, Write};

/// What stands in front of a tag's number, where it is not named by its text.
const BY_NUMBER: char = '@';
const COMMENT: char = '#';
const HIDDEN: &str = "hidden";
const HIGHEST: u8 = word::ZOOMS as u8 - 1;

const HEAD: &str = "\
# Which ways show at which zoom: a line for each rule, TAG ZOOMS CLASS.
# TAG is a way tag of the map, or @ and its number. ZOOMS is one zoom, or the lowest and the
# highest with - between them, from 0 to 31. CLASS is hidden, or a number from 1 to 63.
# Each way tag must have each zoom from 0 to 31 just one time. A way shows if one of its tags
# has a class other than hidden at the zoom. # starts a remark.
";

/// A line of rules that is none, and what to do about it.
#[derive(Clone, Debug, PartialEq, Eq)]
pub struct TextMistake {
    /// The line, counted from 1.
    pub line: usize,
    /// What is wrong with it, in a sentence.
    pub what: String,
}

impl fmt::Display for TextMistake {
    fn fmt(&self, f: &mut fmt::Formatter<'_>) -> fmt::Result {
        write!(f, "line {}: {}", self.line, self.what)
    }
}

impl std::error::Error for TextMistake {}

/// The way tags of a map by their texts. A text may stand for several.
struct Tags {
    texts: Vec<String>,
    ids: HashMap<String, Vec<u16>>,
}

impl Tags {
    fn of(map: &Map<'_>) -> Tags {
        let texts: Vec<String> = map.way_tags().iter().map(|tag| tag.text.to_text()).collect();
        let mut ids: HashMap<String, Vec<u16>> = HashMap::new();
        for (id, text) in (0..=u16::MAX).zip(&texts) {
            ids.entry(text.clone()).or_default().push(id);
        }
        Tags { texts, ids }
    }

    fn find(&self, name: &str) -> Result<u16, String> {
        if let Some(number) = name.strip_prefix(BY_NUMBER) {
            return number.parse().map_err(|_| {
                format!("{name:?} is no tag: behind {BY_NUMBER} stands a number up to 65535")
            });
        }
        match self.ids.get(name).map(Vec::as_slice) {
            Some(&[id]) => Ok(id),
            Some(several) => {
                let numbers: Vec<_> = several.iter().map(|id| format!("{BY_NUMBER}{id}")).collect();
                Err(format!("several way tags are named {name:?}: write {}", numbers.join(" or ")))
            }
            None => Err(self.unknown(name)),
        }
    }

    fn unknown(&self, name: &str) -> String {
        let close = |text: &&String| (distance(name, text), text.len());
        let like = self.texts.iter().min_by_key(close).filter(|text| distance(name, text) <= 2);
        let advice = match like {
            Some(text) => format!("did you mean {text}?"),
            None => "`mapsforge info MAP --tags` lists them".into(),
        };
        format!("the map has no way tag {name:?}: {advice}")
    }

    /// How a tag is written so that it is found again.
    fn written(&self, id: u16) -> String {
        let text = self.texts.get(usize::from(id)).filter(|text| {
            let marked = text.starts_with([BY_NUMBER, COMMENT]) || without_remark(text) != *text;
            let odd = text.trim() != *text || text.is_empty() || text.contains(is_odd);
            !marked && !odd && self.find(text) == Ok(id)
        });
        text.cloned().unwrap_or_else(|| format!("{BY_NUMBER}{id}"))
    }
}

/// Letters that an editor does not show as they are, or that stand for bytes that are no text.
fn is_odd(letter: char) -> bool {
    letter.is_control()
        || matches!(
            letter,
            '\u{ad}'
                | '\u{61c}'
                | '\u{200b}'..='\u{200f}'
                | '\u{2028}'..='\u{202e}'
                | '\u{2060}'..='\u{206f}'
                | '\u{feff}'
                | '\u{fffd}'
        )
}

/// How many letters must be put in, taken out or changed to get from one text to the other.
fn distance(one: &str, other: &str) -> usize {
    let other: Vec<char> = other.chars().collect();
    let mut row: Vec<usize> = (0..=other.len()).collect();
    for (i, letter) in one.chars().enumerate() {
        let mut corner = std::mem::replace(&mut row[0], i + 1);
        for (j, &wanted) in other.iter().enumerate() {
            let changed = corner + usize::from(letter != wanted);
            corner = row[j + 1];
            row[j + 1] = changed.min(row[j] + 1).min(corner + 1);
        }
    }
    row[other.len()]
}

/// A way tag's name, for a sentence.
pub(super) fn name(tag: u16, map: &Map<'_>) -> String {
    map.way_tags().get(tag.into()).map_or("?".into(), |tag| tag.text.to_text())
}

/// The line up to a `#` that starts it or stands behind a blank.
fn without_remark(line: &str) -> &str {
    let mut before = ' ';
    let remark = line.char_indices().find(|&(_, letter)| {
        let starts = letter == COMMENT && before.is_whitespace();
        before = letter;
        starts
    });
    remark.map_or(line, |(at, _)| &line[..at])
}

pub(super) fn parse(text: &str, map: &Map<'_>) -> Result<RuleList, TextMistake> {
    let tags = Tags::of(map);
    let mut list = RuleList::default();
    // Some editors put a mark in front of the first line.
    let text = text.strip_prefix('\u{feff}').unwrap_or(text);
    for (line, content) in (1..).zip(text.lines()) {
        let content = without_remark(content).trim();
        if content.is_empty() {
            continue;
        }
        let rule = rule(content, &tags).map_err(|what| TextMistake { line, what })?;
        let bits = rule.bits().expect("the line was held to the limits");
        list.bytes.extend(bits.to_be_bytes());
        list.lines.push(line);
    }
    Ok(list)
}

/// The last word of a line, and what stands before it.
fn split_last(text: &str) -> Option<(&str, &str)> {
    let (rest, last) = text.rsplit_once(char::is_whitespace)?;
    Some((rest.trim_end(), last))
}

fn rule(line: &str, tags: &Tags) -> Result<Rule, String> {
    let parts = split_last(line)
        .and_then(|(rest, class)| split_last(rest).map(|(tag, zooms)| (tag, zooms, class)));
    let Some((tag, zooms, class)) = parts else {
        return Err(format!("{line:?} is no rule: write TAG ZOOMS CLASS, as highway=path 14-31 3"));
    };
    let class = match class {
        HIDDEN => Some(word::HIDDEN as u8),
        number => number.parse().ok().filter(|&class: &u8| usize::from(class) < word::CLASSES),
    }
    .ok_or_else(|| format!("{class:?} is no class: write {HIDDEN}, or a number from 1 to 63"))?;
    let (lowest, highest) = zooms.split_once('-').unwrap_or((zooms, zooms));
    let zoom = |text: &str| text.parse().ok().filter(|&zoom: &u8| zoom <= HIGHEST);
    let (lowest, highest) = zoom(lowest).zip(zoom(highest)).ok_or_else(|| {
        format!("{zooms:?} are no zooms: write one from 0 to {HIGHEST}, or two as 5-{HIGHEST}")
    })?;
    Ok(Rule { tag: tags.find(tag)?, lowest, highest, class })
}

pub(super) fn write(rules: impl Iterator<Item = Rule>, map: &Map<'_>) -> String {
    let tags = Tags::of(map);
    let rows: Vec<(String, Rule)> = rules.map(|rule| (tags.written(rule.tag), rule)).collect();
    let width = rows.iter().map(|(tag, _)| tag.chars().count()).max().unwrap_or(0).min(48);
    let mut text = String::from(HEAD);
    for (tag, rule) in rows {
        let zooms = match rule {
            Rule { lowest, highest, .. } if lowest == highest => lowest.to_string(),
            Rule { lowest, highest, .. } => format!("{lowest}-{highest}"),
        };
        let class = match rule.class {
            0 => HIDDEN.into(),
            class => class.to_string(),
        };
        let _ = writeln!(text, "{tag:<width$}  {zooms:>5}  {class}");
    }
    text
}

#[cfg(test)]
mod tests {
    use super::{distance, without_remark};

    #[test]
    fn remarks() {
        assert_eq!(without_remark("a=b 1 2 # c"), "a=b 1 2 ");
        assert_eq!(without_remark("a=#1 1 2"), "a=#1 1 2");
        assert_eq!(without_remark("# all"), "");
    }

    #[test]
    fn distances() {
        assert_eq!(distance("highway=paht", "highway=path"), 2);
        assert_eq!(distance("", "abc"), 3);
        assert_eq!(distance("abc", "abc"), 0);
    }
}
