//! The lists of A1 and A2.

use super::chain::{Aim, Maker, Plant, BLOCK, XL};
use model::Block;

pub const ELEMENT: u64 = 8;

/// Byte count and address of each element.
type Elements = Vec<(u64, u32)>;

impl Maker {
    pub fn list(&mut self, k: usize, unit: usize, block: &mut Block) {
        let b = self.units[unit].meant.bytes_a_sector as u64;
        // One element alone has to be able to hold it.
        let most = (self.memory.data_len() / b).clamp(1, 60_000 / b);
        let aim = self.aim(unit, block, most);
        let bytes = aim.count * b;
        if self.draw.percent(9) && self.list_under_own_status(k, block, aim, bytes) {
            return;
        }
        let parts = self.parts(bytes, b);
        let list = self.list_address(parts.len() as u64);
        let elements = self.elements(k, list, &parts);
        self.put_list(list, &elements);
        block.buffer_address = list;
        block.element_count = elements.len() as u8;
        self.plant(k, unit, block, aim, &elements);
        self.slips_of_a_list(list, block, &elements);
    }

    fn list_address(&mut self, elements: u64) -> u32 {
        let bytes = elements * ELEMENT;
        if self.draw.percent(8) {
            self.memory.anywhere(&mut self.draw, bytes)
        } else {
            self.memory.table(&mut self.draw, bytes, 4)
        }
    }

    /// The bytes in even parts, none of them 0.
    pub fn parts(&mut self, bytes: u64, b: u64) -> Vec<u64> {
        let most = bytes / 2;
        let wanted = match self.draw.below(20) {
            0..=2 => 1,
            3..=14 => self.draw.between(1, 6),
            15 | 16 => self.draw.between(7, 63),
            17 | 18 => 64,
            _ => bytes / b,
        };
        let mut wanted = wanted.min(most).min(64);
        if self.slip() && most >= 65 {
            wanted = self.draw.weighted(&[(6, 65), (1, 255)]).min(most);
        }
        let mut cuts: Vec<u64> = Vec::new();
        if self.draw.percent(15) && bytes / b >= wanted {
            // at the ends of sectors
            cuts.extend((1..wanted).map(|k| k * b / 2));
        } else if wanted > most / 2 {
            cuts.extend(1..wanted);
        } else {
            cuts.extend((1..wanted).map(|_| self.draw.between(1, most - 1)));
            cuts.sort_unstable();
            cuts.dedup();
            // Cuts that fell together leave room for others.
            let mut cut = 1;
            while (cuts.len() as u64) < wanted - 1 {
                if let Err(place) = cuts.binary_search(&cut) {
                    cuts.insert(place, cut);
                }
                cut += 1;
            }
        }
        cuts.push(most);
        let mut before = 0;
        cuts.iter()
            .map(|cut| {
                let part = 2 * (cut - before);
                before = *cut;
                part
            })
            .collect()
    }

    fn elements(&mut self, k: usize, list: u32, parts: &[u64]) -> Elements {
        let mut elements: Elements = Vec::new();
        for part in parts {
            let last = elements.last().map(|(_, address)| *address);
            let address = match (self.draw.below(24), last) {
                // over the element before
                (0 | 1, Some(last)) => last,
                (2, Some(last)) => last.saturating_add(self.draw.even(*part) as u32),
                // over the list itself
                (3, _) => list.saturating_sub(self.draw.even(*part) as u32),
                _ => self.data_address(k, *part),
            };
            let latest = self.memory.len().saturating_sub(*part);
            let fits = address as u64 <= latest || self.slips > 0;
            elements.push((*part, if fits { address } else { (latest & !1) as u32 }));
        }
        elements
    }

    pub fn put_list(&mut self, list: u32, elements: &[(u64, u32)]) {
        for (k, (bytes, address)) in elements.iter().enumerate() {
            let at = list as u64 + k as u64 * ELEMENT;
            let mut element = [0; ELEMENT as usize];
            self.draw.fill(&mut element);
            element[..2].copy_from_slice(&(*bytes as u16).to_be_bytes());
            element[2..6].copy_from_slice(&address.to_be_bytes());
            self.memory.put(at, &element);
        }
    }

    /// A scatter over a later block; the element that falls there is another than before.
    fn plant(
        &mut self,
        k: usize,
        unit: usize,
        block: &mut Block,
        aim: Aim,
        elements: &[(u64, u32)],
    ) {
        if block.command != 0xa1 || k + 1 >= self.at.len() || !self.draw.percent(8) {
            return;
        }
        let which = self.draw.below(elements.len() as u64) as usize;
        let (bytes, _) = elements[which];
        let victim = self.at[k + 1] as u64;
        let at = (victim + self.draw.even(BLOCK - 2)).saturating_sub(self.draw.even(bytes));
        let at = at & !1;
        if at + bytes > self.memory.len() {
            return;
        }
        let mut elements = elements.to_vec();
        elements[which].1 = at as u32;
        self.put_list(block.buffer_address, &elements);
        self.plants.push(Plant {
            victim: k + 1,
            unit,
            drive: self.units[unit].drive(),
            aim,
            pieces: elements.iter().map(|(bytes, at)| (*at, *bytes)).collect(),
        });
    }

    fn slips_of_a_list(&mut self, list: u32, block: &mut Block, elements: &[(u64, u32)]) {
        let mut elements = elements.to_vec();
        let one = self.draw.below(elements.len() as u64) as usize;
        let other = (one + 1) % elements.len();
        if self.slip() {
            match self.draw.below(7) {
                0 => elements[one].0 = 0,
                1 => elements[one].0 += 2,
                2 => elements[one].0 -= 2,
                3 => elements[one].0 += 1,
                _ => {
                    // the sum is right, and both are odd where there are two
                    elements[one].0 -= 1;
                    elements[other].0 += 1;
                }
            }
            self.put_list(list, &elements);
        }
        if self.slip() {
            let bytes = elements.len() as u64 * ELEMENT;
            block.buffer_address = self.memory.misplaced(&mut self.draw, bytes);
        }
        if self.slip() {
            let more = block.element_count.wrapping_add(1);
            block.element_count = self.draw.pick(&[0, 65, 255, 64, more, 66, 128]);
        }
    }

    /// The last element is made of the block's own words 1 to 4: its byte count is what stands as
    /// status and error, its address is the number of the first sector. False where the numbers
    /// do not allow it.
    fn list_under_own_status(&mut self, k: usize, block: &mut Block, aim: Aim, bytes: u64) -> bool {
        let at = self.at[k] as u64;
        let first = aim.first;
        let before = self.draw.weighted(&[(3, 0), (1, 1), (1, 2)]);
        let last = if before == 0 {
            bytes
        } else {
            2 * self.draw.between(1, bytes / 2 - before)
        };
        let fits = first + last <= self.memory.len();
        if first & 1 != 0 || !fits || at + 2 < ELEMENT * before || last > 65_534 {
            return false;
        }
        let list = at + 2 - ELEMENT * before;
        let mut elements: Elements = Vec::new();
        let mut left = bytes - last;
        for element in 0..before {
            let part = if element + 1 == before { left } else { 2 };
            left -= part;
            let address = self.data_address(k, part);
            elements.push((part, address));
        }
        self.put_list(list as u32, &elements);
        let physical = first
            < self.units[(block.options >> 7) as usize]
                .meant
                .sectors_a_track as u64;
        self.number(block, first as u32);
        if physical && self.draw.percent(50) {
            // cylinder 0, head 0: the same four bytes
            block.options &= !XL;
        }
        block.sector_count = aim.count as u16;
        [block.status, block.error] = (last as u16).to_be_bytes();
        block.buffer_address = list as u32;
        block.element_count = before as u8 + 1;
        true
    }
}
