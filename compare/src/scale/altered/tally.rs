//! What was compared, and what is out of the theorem.

use super::super::check::Check;
use super::super::damage::Damage;
use super::calls::List;
use super::controls::{Control, CONTROLS};
use crate::answer::Answer;
use crate::tiles::feature::Tile;

#[derive(Default)]
pub struct Tally {
    pub check: Check,
    /// Tiles by whether they are in the theorem.
    refused: u64,
    inexact: u64,
    exact: u64,
    /// Those of the theorem that are marked empty; they have no way to alter.
    pub empty: u64,
    /// Maps with tiles that are, and those of the tiles of which altered copies were compared.
    pub maps: u64,
    pub tiles: u64,
    lists: u64,
    calls: u64,
    accepted: u64,
    untried: u64,
    tried: u64,
    /// Altered copies, the bytes that differ in them, and the copies of which the tile does not collect.
    pub copies: u64,
    bytes: u64,
    pub uncollected: u64,
    /// Of each control how many were made, and how many showed.
    controls: [[u64; 2]; CONTROLS.len()],
}

impl Tally {
    /// Whether a tile is in the theorem, by the model.
    pub fn is_exact(&mut self, tile: Result<Tile, Answer>) -> bool {
        let count = match &tile {
            Err(_) => &mut self.refused,
            Ok(Tile { exact: false, .. }) => &mut self.inexact,
            Ok(_) => &mut self.exact,
        };
        *count += 1;
        tile.is_ok_and(|tile| tile.exact)
    }

    pub fn list(&mut self, list: &List) {
        self.lists += 1;
        self.calls += list.steps.len() as u64;
        self.accepted += list.accepted.len() as u64;
        self.untried += list.untried.len() as u64;
        self.tried += list.tried.len() as u64;
    }

    /// A copy that is altered where it must not show.
    pub fn altered(&mut self, map: &[u8], damage: &Damage) {
        let others = damage.edits.iter().map(|edit| {
            let bytes = map[edit.at..].iter().zip(&edit.put);
            bytes.filter(|(old, new)| old != new).count() as u64
        });
        self.copies += 1;
        self.bytes += others.sum::<u64>();
    }

    pub fn control(&mut self, control: Control, noticed: bool) {
        let [made, shown] = &mut self.controls[control as usize];
        *made += 1;
        *shown += u64::from(noticed);
    }

    /// Whether bytes were altered, and controls of each kind showed: else a run says nothing.
    pub fn compares(&self) -> bool {
        let bad = |(control, counts): &(&Control, [u64; 2])| !control.is_good(*counts);
        let hidden = CONTROLS.iter().zip(self.controls).filter(bad);
        let hidden: Vec<&str> = hidden.map(|(control, _)| control.name()).collect();
        if !hidden.is_empty() {
            println!("NOT NOTICED: controls of {hidden:?}");
        }
        hidden.is_empty() && self.bytes > 0
    }

    pub fn print(&self) {
        println!("tiles in the theorem: {}, of {} maps", self.exact, self.maps);
        println!("  with altered copies             {:>12}", self.tiles);
        println!("  marked empty, so without a way  {:>12}", self.empty);
        println!("tiles skipped: {}", self.refused + self.inexact);
        println!("  they do not collect             {:>12}", self.refused);
        println!("  they have a wrong stored size   {:>12}", self.inexact);
        println!("lists of calls: {}, calls: {}", self.lists, self.calls);
        println!("ways accepted: {}, declined: {}", self.accepted, self.untried + self.tried);
        println!("  declined untried                {:>12}", self.untried);
        println!("altered copies: {}, altered bytes: {}", self.copies, self.bytes);
        println!("  where the tile does not collect {:>12}", self.uncollected);
        println!("controls, which should show: made, and showing");
        for (control, [made, shown]) in CONTROLS.iter().zip(self.controls) {
            println!("  {:<44} {made:>9} {shown:>9}", control.name());
        }
        println!("values compared: {}", self.check.values);
    }
}
