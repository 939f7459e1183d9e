//! Wish 6: which encodings are plain, by the driver's model: at the limits, and of all up to three bytes.

use std::collections::HashSet;

use super::Tally;
use crate::answer::Answer;
use crate::differences::{is_plain_signed, is_plain_unsigned};
use crate::leaves::answer;

/// An encoding, and whether it is plain as an unsigned number and as a signed one.
const ENCODINGS: [(&[u8], bool, bool); 8] = [
    (&[0x40], true, false),
    (&[0x41], true, true),
    (&[0xC0, 0x00], false, true),
    (&[0xC0, 0x40], true, true),
    (&[0xBF, 0x00], false, false),
    (&[0x81, 0x40], true, false),
    (&[0x80, 0x00], false, false),
    (&[0x80, 0x01], true, true),
];

pub fn check(tally: &mut Tally) {
    for (bytes, unsigned, signed) in ENCODINGS {
        tally.equal(&format!("plain, unsigned {bytes:x?}"), is_plain_unsigned(bytes), unsigned);
        tally.equal(&format!("plain, signed {bytes:x?}"), is_plain_signed(bytes), signed);
    }
    tally.equal("plain, all unsigned", all(b'u', is_plain_unsigned, &[]), None);
    tally.equal("plain, all signed", all(b's', is_plain_signed, &[0x40]), None);
}

/// "no shorter one gives the same value": of all encodings of up to three bytes, the first one of which this is not what makes
/// it plain. The values are those that the Rust reads.
fn all(operation: u8, is_plain: fn(&[u8]) -> bool, never: &[u8]) -> Option<Vec<u8>> {
    let mut shorter: HashSet<Answer> = HashSet::new();
    for length in 1..=3 {
        let mut values = HashSet::new();
        for number in 0..1_u32 << (7 * length) {
            let group = |k: usize| (number >> (7 * k)) as u8 & 0x7F;
            let mut bytes: Vec<u8> = (0..length).map(|k| group(k) | 0x80).collect();
            bytes[length - 1] &= 0x7F;
            let mut value = answer(operation, &bytes);
            // behind the value is the place, which is the length
            value.pop();
            if is_plain(&bytes) != (bytes != never && !shorter.contains(&value)) {
                return Some(bytes);
            }
            if length < 3 {
                values.insert(value);
            }
        }
        shorter.extend(values);
    }
    None
}
