//! What is wrong with showing rules.

use super::{text, Rule, RuleList};
use crate::{word, Map};

/// Something that is wrong with showing rules. Rules are meant by their numbers, counted from 0.
#[derive(Clone, Debug, PartialEq, Eq)]
pub enum Fault {
    /// Refusal 22: so many bytes, which is no multiple of 4.
    Length(usize),
    /// Refusal 22: a rule has a tag id that the map does not have.
    Outside {
        /// The rule.
        rule: usize,
        /// The tag's id.
        tag: u16,
    },
    /// Refusal 22: a rule's lowest zoom is above its highest.
    Reversed {
        /// The rule.
        rule: usize,
        /// The lowest zoom.
        lowest: u8,
        /// The highest zoom.
        highest: u8,
    },
    /// Refusal 23: several rules name these zooms of a tag.
    Twice {
        /// The tag's number.
        tag: u16,
        /// The lowest of these zooms.
        lowest: u8,
        /// The highest of these zooms.
        highest: u8,
        /// All rules that name them.
        rules: Vec<usize>,
    },
    /// Refusal 24: no rule names these zooms of a tag.
    Missing {
        /// The tag's number.
        tag: u16,
        /// The lowest of these zooms.
        lowest: u8,
        /// The highest of these zooms.
        highest: u8,
    },
}

impl Fault {
    /// The number of the library's refusal of such rules.
    pub fn number(&self) -> u64 {
        match self {
            Fault::Length(_) | Fault::Outside { .. } | Fault::Reversed { .. } => 22,
            Fault::Twice { .. } => 23,
            Fault::Missing { .. } => 24,
        }
    }

    /// The rules that it is about.
    pub fn rules(&self) -> impl Iterator<Item = usize> + '_ {
        let rules = match self {
            Fault::Outside { rule, .. } | Fault::Reversed { rule, .. } => {
                std::slice::from_ref(rule)
            }
            Fault::Twice { rules, .. } => rules,
            Fault::Length(_) | Fault::Missing { .. } => &[],
        };
        rules.iter().copied()
    }

    /// In a sentence, with the tag's name.
    pub fn told(&self, map: &Map<'_>) -> String {
        let place = |tag: u16, lowest: u8, highest: u8| {
            let zooms = match lowest {
                same if same == highest => format!("zoom {same}"),
                lowest => format!("zooms {lowest} to {highest}"),
            };
            format!("way tag {tag} {}, {zooms}", text::name(tag, map))
        };
        match self {
            Fault::Length(bytes) => {
                format!(
                    "{bytes} bytes are no rules: each has four, so the file is cut off or damaged"
                )
            }
            Fault::Outside { tag, .. } => format!(
                "way tag {tag} is not in the map, which has {}: the rules are of another map",
                map.way_tags().len()
            ),
            Fault::Reversed { lowest, highest, .. } => {
                format!("the lowest zoom {lowest} is above the highest {highest}")
            }
            Fault::Twice { tag, lowest, highest, rules } => {
                let times = match rules.len() {
                    2 => "twice".into(),
                    many => format!("{many} times"),
                };
                format!("{}: named {times}", place(*tag, *lowest, *highest))
            }
            Fault::Missing { tag, lowest, highest } => {
                format!("{}: not named", place(*tag, *lowest, *highest))
            }
        }
    }
}

/// All faults: those of single rules if there are any, else overlaps and behind them gaps, each by tag and zoom.
pub(super) fn all(list: &RuleList, map: &Map<'_>) -> Vec<Fault> {
    let single = of_single_rules(list, map);
    if !single.is_empty() {
        return single;
    }
    let mut by_tag: Vec<(usize, Rule)> = list.rules().enumerate().collect();
    by_tag.sort_by_key(|(_, rule)| rule.tag);
    let (mut twice, mut missing) = (Vec::new(), Vec::new());
    let mut rest = &by_tag[..];
    for tag in (0..=u16::MAX).take(map.way_tags().len()) {
        let end = rest.partition_point(|(_, rule)| rule.tag <= tag);
        let of_tag = &rest[..end];
        rest = &rest[end..];
        for (lowest, highest, rules) in stretches(of_tag) {
            match rules.len() {
                0 => missing.push(Fault::Missing { tag, lowest, highest }),
                1 => (),
                _ => twice.push(Fault::Twice { tag, lowest, highest, rules }),
            }
        }
    }
    twice.append(&mut missing);
    twice
}

fn of_single_rules(list: &RuleList, map: &Map<'_>) -> Vec<Fault> {
    let mut faults = Vec::new();
    if !list.bytes().len().is_multiple_of(word::RULE_BYTES) {
        faults.push(Fault::Length(list.bytes().len()));
    }
    for (k, rule) in list.rules().enumerate() {
        if usize::from(rule.tag) >= map.way_tags().len() {
            faults.push(Fault::Outside { rule: k, tag: rule.tag });
        }
        if rule.lowest > rule.highest {
            let Rule { lowest, highest, .. } = rule;
            faults.push(Fault::Reversed { rule: k, lowest, highest });
        }
    }
    faults
}

/// The zooms from 0 to 31 in stretches that the same rules name.
fn stretches(of_tag: &[(usize, Rule)]) -> Vec<(u8, u8, Vec<usize>)> {
    let mut stretches: Vec<(u8, u8, Vec<usize>)> = Vec::new();
    for zoom in 0..word::ZOOMS as u8 {
        let named = of_tag.iter().filter(|(_, rule)| rule.names(zoom));
        let rules: Vec<usize> = named.map(|(k, _)| *k).collect();
        match stretches.last_mut() {
            Some((_, highest, same)) if *same == rules => *highest = zoom,
            _ => stretches.push((zoom, zoom, rules)),
        }
    }
    stretches
}
