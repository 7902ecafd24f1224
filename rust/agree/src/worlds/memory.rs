//! Where things are put in host memory: blocks, lists and UIBs in one part, data in another, so
//! that they meet where a world wants them to and seldom otherwise.

use crate::draw::Draw;
use std::ops::Range;

pub struct Memory {
    pub bytes: Vec<u8>,
    /// Blocks, lists and UIBs.
    tables: Range<usize>,
    data: Range<usize>,
    /// The first byte of the tables that is still free.
    free: usize,
}

impl Memory {
    pub fn new(draw: &mut Draw, tables: usize, data: usize) -> Memory {
        let len = tables + data + draw.below(2) as usize;
        // Either part may come first.
        let (tables, data) = if draw.percent(60) {
            (0..tables, tables..len)
        } else {
            let from = (len - tables) & !1;
            (from..len, 0..from)
        };
        Memory {
            bytes: draw.bytes(len),
            free: tables.start,
            tables,
            data,
        }
    }

    pub fn len(&self) -> u64 {
        self.bytes.len() as u64
    }

    /// How many bytes of data fit.
    pub fn data_len(&self) -> u64 {
        self.data.len() as u64
    }

    /// Room in the tables for some bytes, after a gap. Anywhere where there is none left.
    pub fn table(&mut self, draw: &mut Draw, bytes: u64, gap: u64) -> u32 {
        let at = self.free as u64 + draw.even(gap);
        if at + bytes > self.tables.end as u64 {
            return self.anywhere(draw, bytes);
        }
        self.free = ((at + bytes + 1) & !1) as usize;
        at as u32
    }

    /// Room in the data part, even and wholly inside; anywhere where it does not fit.
    pub fn data(&self, draw: &mut Draw, bytes: u64) -> u32 {
        if bytes > self.data_len() {
            return self.anywhere(draw, bytes);
        }
        let start = (self.data.start as u64 + 1) & !1;
        let most = (self.data.end as u64).saturating_sub(bytes + start);
        (start + draw.even(most)) as u32
    }

    /// Any even place with so many bytes before the end; 0 where there is none.
    pub fn anywhere(&self, draw: &mut Draw, bytes: u64) -> u32 {
        draw.even(self.len().saturating_sub(bytes)) as u32
    }

    /// The place whose last byte is memory's last, where that is even, else the one before.
    pub fn at_the_end(&self, bytes: u64) -> u32 {
        (self.len().saturating_sub(bytes) & !1) as u32
    }

    /// An address at which so many bytes do not lie as they should.
    pub fn misplaced(&self, draw: &mut Draw, bytes: u64) -> u32 {
        let len = self.len();
        match draw.below(8) {
            // odd
            0 | 1 => (self.anywhere(draw, bytes) | 1) as u64,
            // one word too far
            2 => self.at_the_end(bytes) as u64 + 2,
            3 => len + draw.below(4),
            // the sum comes round, to no more than memory has
            4..=6 => (1 << 32) - 2 * draw.between(1, (bytes / 2).max(1)),
            _ => draw.next() & 0xffff_ffff,
        }
        .min(u32::MAX as u64) as u32
    }

    /// Stores as many of the bytes as memory has.
    pub fn put(&mut self, at: u64, bytes: &[u8]) {
        for (k, byte) in bytes.iter().enumerate() {
            if let Some(place) = self.bytes.get_mut(at as usize + k) {
                *place = *byte;
            }
        }
    }
}
