//! Some points and ways with every pair of bytes, at every length, and with every letter of every tag.

use super::super::check::Check;
use super::case::{Case, Held};

/// Of three tags of points and six of ways.
const LETTERS: &[u8; 9] = b"bs\0bhifs\0";
const LAYOUT: [u64; 7] = [0, 0, 3, 0, 6, 0, 0];
const WORD: u64 = 0xA5A5_0F0F_5A5A_F0F0;

/// What is swept.
pub fn features() -> [Case; 4] {
    // latitude and longitude, tags 0, 1 and 2 with the values of b and s, all flags, name, house number, elevation
    let rich = b"\x81\x02\x85\x86\x07\x53\x00\x01\x02\x09\x02ab\xE0\x02\xC3\xBC\x01x\x90\x01";
    // no tags and no flags; a byte behind it, as many as a quick reader asks for
    let bare = b"\x05\x45\x50\x00\x00\x00\x00\x00\x00";
    // size, bitmap, one tag of each letter with its value
    let head = b"\x90\x01\xF0\x0F\x66\x00\x01\x02\x03\x04\x05\x07\x01\x02\x01\x02\x03\x04\x05\x06\x07\x08\x02xy";
    let bare_head = b"\x00\x00\x01\x50";
    [point(rich), point(bare), way(head), way(bare_head)]
}

fn point(map: &[u8]) -> Case {
    feature(map, [0, 1, 1, 0, 0, 1, 7, 1])
}

fn way(map: &[u8]) -> Case {
    feature(map, [0, 0, 2, 0, 0, 0, 7, 1])
}

fn feature(map: &[u8], state: [u64; 8]) -> Case {
    Case { map: map.to_vec(), layout: LAYOUT, letters: LETTERS.to_vec(), state, word: WORD }
}

pub fn all(check: &mut Check, case: Case) -> Held {
    pairs(check, case.clone())?;
    for length in 0..=case.map.len() {
        let mut cut = case.clone();
        cut.map.truncate(length);
        held(check, &cut)?;
    }
    letters(check, case)
}

fn pairs(check: &mut Check, mut case: Case) -> Held {
    for k in 1..case.map.len() {
        let kept = [case.map[k - 1], case.map[k]];
        for pair in 0..=u16::MAX {
            case.map[k - 1..=k].copy_from_slice(&pair.to_be_bytes());
            held(check, &case)?;
        }
        case.map[k - 1..=k].copy_from_slice(&kept);
    }
    Ok(())
}

fn letters(check: &mut Check, mut case: Case) -> Held {
    for k in 0..case.letters.len() {
        let kept = case.letters[k];
        for letter in 0..=u8::MAX {
            case.letters[k] = letter;
            held(check, &case)?;
        }
        case.letters[k] = kept;
    }
    while case.letters.pop().is_some() {
        held(check, &case)?;
    }
    Ok(())
}

fn held(check: &mut Check, case: &Case) -> Held {
    case.next(check).map(drop).map_err(|_| Box::new(case.clone()))
}
