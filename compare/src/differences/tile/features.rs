//! Points and ways.

use super::reader::{Read, Reader};
use super::tags::Table;
use crate::tiles::feature::{Block, Head, Point, Position, Text, Way};

/// The most nodes of a block.
const NODE_LIMIT: u64 = 1 << 20;

/// "next way head (bitmap, layer, tag ids, tag values skipped)".
pub struct WayHead {
    bitmap: u16,
    ids: Vec<u64>,
    /// "data start, the byte behind the size field, plus stored size".
    pub stored_end: u128,
    layer: u64,
    signature: Option<Text>,
    /// Whether its numbers are plain, and how many of those before it are not.
    plain: bool,
    padded: u64,
}

impl WayHead {
    /// What a stream delivers of it.
    pub fn shown(&self) -> Head {
        let (layer, plain) = (Some(self.layer), Some(self.plain));
        Head { bitmap: self.bitmap, ids: self.ids.clone(), layer, plain }
    }
}

impl Reader<'_> {
    pub fn point(&mut self) -> Read<Point> {
        let padded = self.padded;
        let signature = self.signature()?;
        let position = self.position()?;
        let (layer, ids) = self.tags(Table::Points)?;
        let flags = self.byte()?;
        let name = self.text_if(flags & 0x80)?;
        let house_number = self.text_if(flags & 0x40)?;
        let elevation = self.read_if(flags & 0x20, Reader::elevation)?;
        let plain = Some(self.plain_since(padded));
        Ok(Point { position, layer, ids, name, house_number, elevation, signature, plain })
    }

    /// Wish 6: "a way head says it for the head", its size, tag ids and lengths of values.
    pub fn way_head(&mut self) -> Read<WayHead> {
        let padded = self.padded;
        let signature = self.signature()?;
        let place = self.at() as usize;
        let size = self.unsigned()?;
        self.sizes.push(place..self.at() as usize);
        let stored_end = self.at() + u128::from(size);
        let bitmap = self.bytes(2)?;
        let bitmap = u16::from_be_bytes([bitmap[0], bitmap[1]]);
        let (layer, ids) = self.tags(Table::Ways)?;
        let plain = self.plain_since(padded);
        Ok(WayHead { bitmap, ids, stored_end, layer, signature, plain, padded })
    }

    /// Wish 6: "accept for the whole way". The body is read right behind the head.
    pub fn way_body(&mut self, head: WayHead) -> Read<Way> {
        let WayHead { bitmap, ids, layer, signature, plain: head_plain, padded, .. } = head;
        let flags = self.byte()?;
        let name = self.text_if(flags & 0x80)?;
        let house_number = self.text_if(flags & 0x40)?;
        let reference = self.text_if(flags & 0x20)?;
        let label = self.read_if(flags & 0x10, Reader::position)?;
        let data_blocks = self.read_if(flags & 0x08, Reader::unsigned)?.unwrap_or(1);
        let double = flags & 0x04 != 0;
        let blocks = self.blocks(data_blocks, double)?;
        Ok(Way {
            bitmap,
            layer,
            ids,
            name,
            house_number,
            reference,
            label,
            double,
            blocks,
            signature,
            plain: Some(self.plain_since(padded)),
            head_plain: Some(head_plain),
        })
    }

    /// "Layer is the high four bits minus 5 (−5 to 10), tag count the low four." and "Values follow
    /// all ids of the feature." Wish 3: "Values are skipped by the listed letter, even an altered one".
    fn tags(&mut self, table: Table) -> Read<(u64, Vec<u64>)> {
        let special = self.byte()?;
        let ids = (0..special & 0x0F).map(|_| self.id(table)).collect::<Read<Vec<_>>>()?;
        for &id in &ids {
            self.skip_value(self.opened.letter(table, id))?;
        }
        Ok((u64::from(special >> 4), ids))
    }

    fn id(&mut self, table: Table) -> Read<u64> {
        let id = self.unsigned()?;
        if id >= self.opened.tag_count(table) {
            return Err(vec![7, id]);
        }
        Ok(id)
    }

    /// "b 1 byte, h 2, i and f 4, s a length (not held to the limit of texts) and that many bytes;
    /// any other letter, or none, skips nothing."
    fn skip_value(&mut self, letter: Option<u8>) -> Read<()> {
        let size = match letter {
            Some(b'b') => 1,
            Some(b'h') => 2,
            Some(b'i' | b'f') => 4,
            Some(b's') => self.unsigned()?,
            _ => 0,
        };
        self.bytes(size).map(drop)
    }

    fn read_if<T>(&mut self, flag: u8, read: fn(&mut Self) -> Read<T>) -> Read<Option<T>> {
        (flag != 0).then(|| read(self)).transpose()
    }

    fn text_if(&mut self, flag: u8) -> Read<Option<Text>> {
        self.read_if(flag, Reader::text)
    }

    /// "Elevation keeps the low 32 bits, two's complement."
    fn elevation(&mut self) -> Read<i32> {
        Ok(self.signed()? as i32)
    }

    /// The coordinate blocks of all data blocks.
    pub fn blocks(&mut self, data_blocks: u64, double: bool) -> Read<Vec<Block>> {
        let mut blocks = Vec::new();
        for _ in 0..data_blocks {
            for _ in 0..self.unsigned()? {
                blocks.push(self.block(double)?);
            }
        }
        Ok(blocks)
    }

    /// "Node 0 is as stored; later nodes add a delta, or in double delta a delta that is itself
    /// summed; every f64 step rounds once".
    fn block(&mut self, double: bool) -> Read<Block> {
        let count = self.unsigned()?;
        if count > NODE_LIMIT {
            return Err(vec![10]);
        }
        let mut block = Block::default();
        let mut delta = [0.0; 2];
        for _ in 0..count {
            let stored = self.position()?;
            let Some(&last) = block.nodes.last() else {
                block.initial = stored;
                block.nodes.push(stored);
                continue;
            };
            delta = if double { sum(delta, stored) } else { stored };
            block.nodes.push(sum(last, delta));
        }
        Ok(block)
    }
}

fn sum(a: Position, b: Position) -> Position {
    [a[0] + b[0], a[1] + b[1]]
}
