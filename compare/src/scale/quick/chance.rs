//! Cases by chance: a place of a map or a feature made up, in most of them spoiled.

use super::super::library::Layout;
use super::case::Case;
use crate::leaves::sample::{signed_in, unsigned_in};
use crate::random::Random;

/// The number of a case says it all, with the places and the seed.
pub fn case(places: &[Case], seed: u64, number: u64) -> Case {
    let mut random = Random::of_case(seed, number);
    let mut case = match random.below(2) {
        0 if !places.is_empty() => places[random.below(places.len())].clone(),
        _ => random.feature(),
    };
    case.word = random.next();
    for _ in 0..random.below(4) {
        random.spoil(&mut case);
    }
    case
}

impl Random {
    /// A point or a way by tables of tags that are made up too.
    fn feature(&mut self) -> Case {
        let counts = [(); 2].map(|()| [0, 1, 3, 15, 127, 130, 300][self.below(7)]);
        let letters: Vec<u8> = (0..counts[0] + counts[1]).map(|_| self.letter()).collect();
        let layout: Layout = [0, 0, counts[0] as u64, 0, counts[1] as u64, 0, 0];
        let is_point = self.below(2) == 0;
        let tags = if is_point { &letters[..counts[0]] } else { &letters[counts[0]..] };
        let before = self.below(3);
        let mut map: Vec<u8> = (0..before).map(|_| self.byte()).collect();
        map.extend(if is_point { self.point_bytes(tags) } else { self.head_bytes(tags) });
        map.extend(self.bytes_up_to(12));
        let (at, some) = (before as u64, 1 + self.below(2) as u64);
        let points = if is_point { some } else { 0 };
        let state = [0, points, some, at, at, self.below(2) as u64, self.next(), 1];
        Case { map, layout, letters, state, word: 0 }
    }

    fn letter(&mut self) -> u8 {
        [0, b'b', b'h', b'i', b'f', b's', b's', self.byte()][self.below(8)]
    }

    /// A small value, any, or one at a limit of one, two, three or four bytes.
    fn value(&mut self) -> u64 {
        let near = 1 << [0, 6, 7, 13, 14, 20, 21, 27, 28][self.below(9)];
        match self.below(3) {
            0 => self.below(20) as u64,
            1 => self.next() >> (30 + self.below(34)),
            _ => near + self.below(3) as u64 - 1,
        }
    }

    /// In the fewest bytes, at times in more.
    fn unsigned_number(&mut self, value: u64) -> Vec<u8> {
        let least = (1..10).find(|&n| value < 1 << (7 * n)).unwrap_or(10);
        unsigned_in(value, least + usize::from(self.below(12) == 0))
    }

    fn signed_number(&mut self) -> Vec<u8> {
        let value = self.value();
        let least = (1..10).find(|&n| value < 1 << (7 * n - 1)).unwrap_or(10);
        signed_in(self.below(2) == 0, value, least + usize::from(self.below(12) == 0))
    }

    /// Layer and tags with their values; at times an id that no tag has.
    fn tagged(&mut self, tags: &[u8]) -> Vec<u8> {
        let count = if tags.is_empty() { 0 } else { [1, 2, 3, 15, self.below(16)][self.below(5)] };
        let ids: Vec<usize> = (0..count).map(|_| self.tag_id(tags.len())).collect();
        let mut bytes = vec![(self.below(16) * 16 + count) as u8];
        for &id in &ids {
            bytes.extend(self.unsigned_number(id as u64));
        }
        for &id in &ids {
            bytes.extend(self.tag_value(tags.get(id).copied().unwrap_or(0)));
        }
        bytes
    }

    fn tag_id(&mut self, tags: usize) -> usize {
        if self.below(40) == 0 {
            return tags + self.below(2);
        }
        self.below(tags)
    }

    fn tag_value(&mut self, letter: u8) -> Vec<u8> {
        let width = match letter {
            b's' => return self.text_bytes(),
            b'b' => 1,
            b'h' => 2,
            b'i' | b'f' => 4,
            _ => 0,
        };
        (0..width).map(|_| self.byte()).collect()
    }

    /// At times of bytes that are no UTF-8, and at times longer than a byte says.
    fn text_bytes(&mut self) -> Vec<u8> {
        let size = [self.below(6), self.below(6), 126 + self.below(5)][self.below(9) / 4];
        let any = self.below(4) == 0;
        let mut bytes = self.unsigned_number(size as u64);
        bytes.extend((0..size).map(|_| if any { self.byte() } else { b'a' }));
        bytes
    }

    fn point_bytes(&mut self, tags: &[u8]) -> Vec<u8> {
        let mut bytes = [self.signed_number(), self.signed_number(), self.tagged(tags)].concat();
        let flags = self.byte();
        bytes.push(flags);
        for _ in 0..(flags >> 6).count_ones() {
            bytes.extend(self.text_bytes());
        }
        if flags & 0x20 != 0 {
            bytes.extend(self.signed_number());
        }
        bytes
    }

    fn head_bytes(&mut self, tags: &[u8]) -> Vec<u8> {
        let size = self.value();
        let mut bytes = self.unsigned_number(size);
        bytes.extend([self.byte(), self.byte()]);
        bytes.extend(self.tagged(tags));
        bytes
    }

    /// Something of a case becomes something else.
    fn spoil(&mut self, case: &mut Case) {
        let length = case.map.len();
        match self.below(10) {
            0..=2 => self.changed_byte(&mut case.map),
            3 => self.longer_number(&mut case.map),
            4 => case.map.truncate(self.below(length + 1)),
            5 => self.other_letters(&mut case.letters),
            6 => case.letters.resize(self.other_length(case.letters.len()), b's'),
            7 => {
                // whether it is a debug map, and how many tags points and ways have
                let word = &mut case.layout[[0, 2, 4][self.below(3)]];
                *word = self.other_word(*word, length);
            }
            8 => {
                let word = &mut case.state[self.below(8)];
                *word = self.other_word(*word, length);
            }
            _ => self.other_words(case),
        }
    }

    fn changed_byte(&mut self, map: &mut [u8]) {
        if map.is_empty() {
            return;
        }
        let byte = &mut map[self.below(map.len())];
        *byte = match self.below(4) {
            0 => self.byte(),
            1 => *byte ^ 1 << self.below(8),
            2 => *byte | 0x80,
            _ => *byte & 0x7F,
        };
    }

    /// A number's last byte, if it is one, becomes two.
    fn longer_number(&mut self, map: &mut Vec<u8>) {
        if map.is_empty() {
            return;
        }
        let at = self.below(map.len());
        let sign = map[at] & [0, 0x40][self.below(2)];
        map[at] = map[at] & !sign | 0x80;
        map.insert(at + 1, sign);
    }

    /// A state of which no word is as it was, and at times no way waits and something comes.
    fn other_words(&mut self, case: &mut Case) {
        let length = case.map.len();
        case.state = case.state.map(|word| self.other_word(word, length));
        if self.below(2) == 0 {
            case.state[0] = 0;
            case.state[1] = self.below(3) as u64;
        }
    }
}
