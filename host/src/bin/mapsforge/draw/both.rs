//! Two readings of the same tiles, and what differs.

use super::labels::describe;
use super::scene::{Declined, Drawn, Look, Scene};
use std::collections::HashMap;

/// What a reading has of a feature, to be compared: everything but its number.
fn seen(drawn: &Drawn<'_>) -> String {
    let feature = &drawn.feature;
    let nodes: Vec<_> = feature
        .lines
        .iter()
        .map(|line| line.nodes.iter().map(|at| (at.latitude.to_bits(), at.longitude.to_bits())))
        .map(Iterator::collect::<Vec<_>>)
        .collect();
    format!(
        "{:?} {:?} {:?} {:?} {:?} {:?} {:?} {:?} {nodes:?}",
        drawn.tile,
        feature.kind,
        feature.layer,
        drawn.tags,
        feature.name,
        feature.house_number,
        feature.reference,
        feature.elevation
    )
}

/// What two readings do not have in common.
pub struct Differences {
    /// What the list has and the panel lacks.
    pub collected_only: Vec<String>,
    /// What the panel has and the list does not.
    pub streamed_only: Vec<String>,
}

impl Differences {
    pub fn is_empty(&self) -> bool {
        self.collected_only.is_empty() && self.streamed_only.is_empty()
    }
}

/// Marks in a list's and a panel's scene what the other lacks, and in the list's what the panel declines on purpose.
pub fn compare(
    collected: &mut Scene<'_>,
    streamed: &mut Scene<'_>,
    declined: &Declined,
    zoom: u8,
) -> Differences {
    let mut there: HashMap<String, Vec<usize>> = HashMap::new();
    for (k, drawn) in streamed.features.iter().enumerate() {
        there.entry(seen(drawn)).or_default().push(k);
    }
    let mut collected_only = Vec::new();
    for drawn in &mut collected.features {
        let feature = &drawn.feature;
        let on_purpose =
            !drawn.is_point() && declined.has(&feature.tag_ids, feature.tags.iter().copied(), zoom);
        if on_purpose {
            drawn.look = Look::Pale;
        } else if there.get_mut(&seen(drawn)).and_then(Vec::pop).is_none() {
            drawn.look = Look::Differs;
            collected_only.push(describe(drawn));
        }
    }
    let mut left: Vec<usize> = there.into_values().flatten().collect();
    left.sort_unstable();
    let mut streamed_only = Vec::new();
    for k in left {
        let drawn = &mut streamed.features[k];
        drawn.look = Look::Differs;
        streamed_only.push(describe(drawn));
    }
    Differences { collected_only, streamed_only }
}
