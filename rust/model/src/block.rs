//! The layouts in host memory: the block of 28 bytes and the element of a list.

use crate::faults::{seeded, Fault};
use crate::spares::{Pair, Track};

pub const BLOCK_BYTES: usize = 28;
pub const ELEMENT_BYTES: usize = 8;

/// "28 bytes, fourteen big-endian words, at an even address", by the names of the table.
#[derive(Clone, Copy, Debug, PartialEq, Eq)]
pub struct Block {
    pub command: u8,
    pub options: u8,
    pub status: u8,
    pub error: u8,
    pub cylinder: u16,
    pub head: u8,
    pub sector: u8,
    pub sector_count: u16,
    /// The data's address, the UIB's for 87, the list's for A1 and A2.
    pub buffer_address: u32,
    pub memory_type: u8,
    pub address_modifier: u8,
    pub interrupt_level: u8,
    pub normal_vector: u8,
    pub not_used: u8,
    pub error_vector: u8,
    pub linked_block_address: u32,
    pub link_memory_type: u8,
    pub link_modifier: u8,
    pub skew: u8,
    /// How many elements the list of A1 or A2 has: byte 27, the lower byte of word 13.
    pub element_count: u8,
}

/// "An element is 8 bytes: byte count (2), address (4), memory type, modifier."
#[derive(Clone, Copy, Debug, PartialEq, Eq)]
pub struct Element {
    pub byte_count: u16,
    pub address: u32,
    pub memory_type: u8,
    pub modifier: u8,
}

/// Whether a range lies wholly in memory. "Adding address and length in 32 bits" is one of the
/// things easy to get wrong; here the sum is too wide to wrap.
pub(crate) fn in_memory(memory: &[u8], address: u64, bytes: u64) -> bool {
    let end = if seeded(Fault::SumIn32Bits) {
        // the sum comes round at 2^32
        (address as u32).wrapping_add(bytes as u32) as u128
    } else {
        address as u128 + bytes as u128
    };
    if seeded(Fault::LastByteOutside) {
        // a bound off by one
        end <= memory.len() as u128 + 1
    } else {
        end <= memory.len() as u128
    }
}

pub(crate) fn odd(address: u32) -> bool {
    address % 2 != 0
}

fn word(bytes: &[u8], at: usize) -> u16 {
    bytes[at] as u16 * 256 + bytes[at + 1] as u16
}

/// Two words, "high word first".
fn two_words(bytes: &[u8], at: usize) -> u32 {
    word(bytes, at) as u32 * 65_536 + word(bytes, at + 2) as u32
}

impl Block {
    /// The block at an address; None where it is "odd, or not wholly in host memory".
    pub fn read(bytes: &[u8], at: u32) -> Option<Block> {
        if odd(at) || !in_memory(bytes, at as u64, BLOCK_BYTES as u64) {
            return None;
        }
        let b = &bytes[at as usize..at as usize + BLOCK_BYTES];
        let sector_count_at = if seeded(Fault::SectorCountMisplaced) {
            // where the element count stands
            26
        } else {
            8
        };
        Some(Block {
            command: b[0],
            options: b[1],
            status: b[2],
            error: b[3],
            cylinder: word(b, 4),
            head: b[6],
            sector: b[7],
            sector_count: word(b, sector_count_at),
            buffer_address: two_words(b, 10),
            memory_type: b[14],
            address_modifier: b[15],
            interrupt_level: b[16],
            normal_vector: b[17],
            not_used: b[18],
            error_vector: b[19],
            linked_block_address: two_words(b, 20),
            link_memory_type: b[24],
            link_modifier: b[25],
            skew: b[26],
            element_count: b[27],
        })
    }

    /// The 28 bytes again, for whoever lays out a memory.
    pub fn bytes(&self) -> [u8; BLOCK_BYTES] {
        let cylinder = self.cylinder.to_be_bytes();
        let count = self.sector_count.to_be_bytes();
        let buffer = self.buffer_address.to_be_bytes();
        let link = self.linked_block_address.to_be_bytes();
        [
            self.command,
            self.options,
            self.status,
            self.error,
            cylinder[0],
            cylinder[1],
            self.head,
            self.sector,
            count[0],
            count[1],
            buffer[0],
            buffer[1],
            buffer[2],
            buffer[3],
            self.memory_type,
            self.address_modifier,
            self.interrupt_level,
            self.normal_vector,
            self.not_used,
            self.error_vector,
            link[0],
            link[1],
            link[2],
            link[3],
            self.link_memory_type,
            self.link_modifier,
            self.skew,
            self.element_count,
        ]
    }

    /// UN, 0 or 1.
    pub fn unit(&self) -> u8 {
        (self.options & 0x80 != 0) as u8
    }

    /// VO, 0 or 1.
    pub fn volume(&self) -> u8 {
        (self.options & 0x40 != 0) as u8
    }

    /// LK
    pub fn link(&self) -> bool {
        self.options & 0x20 != 0
    }

    /// XL
    pub fn logical(&self) -> bool {
        self.options & 0x10 != 0
    }

    /// RV, by which a block that ends 80 takes or keeps its drive
    pub fn reserve(&self) -> bool {
        if seeded(Fault::ReserveMisplaced) {
            // the bit of EC
            return self.options & 0x01 != 0;
        }
        self.options & 0x08 != 0
    }

    /// DE
    pub fn disable_read_data_errors(&self) -> bool {
        self.options & 0x04 != 0
    }

    /// IE
    pub fn interrupt(&self) -> bool {
        self.options & 0x02 != 0
    }

    /// EC, read and not judged
    pub fn correction(&self) -> bool {
        self.options & 0x01 != 0
    }

    /// What an 85 names: "Words 2 and 3 name the bad track, words 4 and 5 the spare", each a cylinder in
    /// one word and a head in the upper byte of the next.
    pub fn pair(&self) -> Pair {
        let word_5 = self.buffer_address / 65_536;
        let spare_head = if seeded(Fault::SpareHeadMisplaced) {
            // the lower byte of word 5
            word_5 % 256
        } else {
            word_5 / 256
        };
        Pair {
            bad: Track::new(self.cylinder, self.head),
            spare: Track::new(self.sector_count, spare_head as u8),
        }
    }

    /// "With XL set, words 2 and 3 are one 32-bit logical sector number in the volume."
    pub fn logical_sector(&self) -> u32 {
        self.cylinder as u32 * 65_536 + self.head as u32 * 256 + self.sector as u32
    }
}

impl Element {
    /// The element at an address, odd or even; None where it is not wholly in memory.
    pub fn read(bytes: &[u8], at: u64) -> Option<Element> {
        if !in_memory(bytes, at, ELEMENT_BYTES as u64) {
            return None;
        }
        let e = &bytes[at as usize..at as usize + ELEMENT_BYTES];
        Some(Element {
            byte_count: word(e, 0),
            address: two_words(e, 2),
            memory_type: e[6],
            modifier: e[7],
        })
    }
}
