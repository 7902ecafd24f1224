//! Where everything lies in host memory and on the drives.

use super::super::chain::{BLOCK, LK};
use super::super::drives::good_marks;
use super::super::memory::Memory;
use super::{End, Kind, Plan, Step, Thing};

/// The kinds of which a thing of one chain may lie over one of the other. The first is data, which
/// may be any bytes.
const OVER: [(Kind, Kind); 11] = [
    // read by both
    (Kind::Taken, Kind::Table),
    (Kind::Taken, Kind::Taken),
    // written and read
    (Kind::Stored, Kind::Block),
    (Kind::Stored, Kind::Table),
    (Kind::Stored, Kind::Table),
    (Kind::Stored, Kind::Taken),
    (Kind::Taken, Kind::Block),
    (Kind::Taken, Kind::Handshake),
    // written by both
    (Kind::Stored, Kind::Stored),
    (Kind::Stored, Kind::Stored),
    (Kind::Stored, Kind::Stored),
];

/// The same where chains have 85s.
const OVER_WITH_TABLES: [(Kind, Kind); 15] = [
    OVER[0],
    OVER[1],
    OVER[2],
    OVER[3],
    OVER[4],
    OVER[5],
    OVER[6],
    OVER[7],
    OVER[8],
    OVER[9],
    OVER[10],
    (Kind::Taken, Kind::Remap),
    (Kind::Taken, Kind::Remap),
    (Kind::Taken, Kind::Remap),
    (Kind::Stored, Kind::Remap),
];

impl Plan {
    /// Lays everything side by side, but for two things that are to lie over one another, and makes
    /// a memory that holds all data, moved or not.
    pub fn lay_out(&mut self, over: bool) {
        let draw = &mut self.maker.draw;
        let mut order: Vec<usize> = (0..self.things.len()).collect();
        for k in (1..order.len()).rev() {
            order.swap(k, draw.below(k as u64 + 1) as usize);
        }
        let over = if over {
            self.bring_together(&mut order)
        } else {
            None
        };
        let draw = &mut self.maker.draw;
        let gap = draw.pick(&[0, 0, 4]);
        let mut free = draw.even(20);
        for (k, thing) in order.into_iter().enumerate() {
            free = match over {
                Some((later, bytes)) if later == k => free - bytes,
                _ => free + draw.even(gap),
            };
            self.things[thing].at = free;
            free += self.things[thing].room;
        }
        let pieces = self.chains.iter().flatten().flat_map(|step| &step.pieces);
        let len = pieces
            .map(|(bytes, thing)| self.things[*thing].at + bytes)
            .fold(free, u64::max);
        self.maker.memory = Memory::new(draw, len as usize, 0);
    }

    /// Puts two things that may lie over one another side by side: where the later of them stands
    /// then, and how many bytes they are to share.
    fn bring_together(&mut self, order: &mut Vec<usize>) -> Option<(usize, u64)> {
        self.over = self.two_things();
        let (one, other) = self.over?;
        let draw = &mut self.maker.draw;
        order.retain(|thing| *thing != one);
        let at = order.iter().position(|thing| *thing == other)?;
        let all = self.things[one].room.min(self.things[other].room);
        if self.things[other].kind == Kind::Remap && draw.percent(70) {
            // the data begin in the words that name the tracks, after the status
            order.insert(at + 1, one);
            return Some((at + 1, all.min(18 + draw.even(6))));
        }
        order.insert(at + draw.below(2) as usize, one);
        let some = 2 + draw.even(all - 2);
        Some((at + 1, draw.weighted(&[(4, 2), (3, all), (4, some)])))
    }

    /// One thing of each chain, of kinds that may lie over one another.
    fn two_things(&mut self) -> Option<(usize, usize)> {
        let over: &[(Kind, Kind)] = if self.maker.theme.tables() {
            &OVER_WITH_TABLES
        } else {
            &OVER
        };
        let from = self.maker.draw.below(over.len() as u64) as usize;
        let (later, earlier) = (&over[from..], &over[..from]);
        let found = later.iter().chain(earlier).find_map(|kinds| {
            let fitting = self.of_kinds(*kinds);
            (!fitting.is_empty()).then_some(fitting)
        });
        found.map(|fitting| self.maker.draw.pick(&fitting))
    }

    fn of_kinds(&self, (kind, other_kind): (Kind, Kind)) -> Vec<(usize, usize)> {
        let fits = |thing: &Thing, kind| thing.kind == kind && thing.room > 0;
        let mut fitting = Vec::new();
        for (one, thing) in self.things.iter().enumerate() {
            for (other, other_thing) in self.things.iter().enumerate() {
                let apart = thing.chain != other_thing.chain;
                if apart && fits(thing, kind) && fits(other_thing, other_kind) {
                    fitting.push((one, other));
                }
            }
        }
        fitting
    }

    /// Puts everything where it belongs; the images.
    pub fn fill(&mut self) -> [Vec<u8>; 2] {
        let mut images = [0, 1].map(|unit| self.image(unit));
        for chain in 0..2 {
            self.put(chain, &mut images);
        }
        self.mend(&mut images);
        for step in self.chains.iter().flatten() {
            if let Some(table) = step.table {
                self.maker.memory.put(self.things[table].at, &step.spoiled);
            }
        }
        images
    }

    fn image(&mut self, unit: usize) -> Vec<u8> {
        let draw = &mut self.maker.draw;
        let shapes = &self.maker.units[unit].shapes;
        let need = shapes.iter().map(|g| g.need()).max().unwrap_or(0);
        let len = if draw.one_in(40) {
            need - 1
        } else {
            need + draw.below(8)
        };
        let mut image = draw.bytes(len as usize);
        for g in shapes {
            good_marks(&mut image, g);
        }
        for (_, g, place) in self.unreadable.iter().filter(|(of, _, _)| *of == unit) {
            if let Some(mark) = image.get_mut((g.marks_at() + place) as usize) {
                *mark = draw.pick(&[1, 0x80, 0xff]);
            }
        }
        image
    }

    pub fn at(&self, step: &Step) -> u32 {
        let (thing, offset) = step.place;
        (self.things[thing].at + offset) as u32
    }

    /// The blocks of a chain, with its lists and its UIBs.
    fn put(&mut self, chain: usize, images: &mut [Vec<u8>; 2]) {
        let steps = std::mem::take(&mut self.chains[chain]);
        for (k, step) in steps.iter().enumerate() {
            let mut block = step.block;
            if let Some(address) = self.put_table(step) {
                block.buffer_address = address;
            }
            if let Some(next) = steps.get(k + 1) {
                block.options |= LK;
                block.linked_block_address = self.at(next);
            } else if self.ends[chain] == End::Linked {
                block.options |= LK;
                block.linked_block_address = self.last_link(&steps);
            }
            match step.read_by {
                None => self.maker.memory.put(self.at(step) as u64, &block.bytes()),
                Some(by) => plant(&steps[by], step.place.1, &block.bytes(), images),
            }
        }
        self.chains[chain] = steps;
    }

    fn last_link(&mut self, steps: &[Step]) -> u32 {
        let draw = &mut self.maker.draw;
        let back = draw.below(steps.len() as u64) as usize;
        if draw.percent(65) {
            self.at(&steps[back])
        } else {
            self.maker.memory.misplaced(draw, BLOCK)
        }
    }

    /// Puts the list or the UIB, if it has room. What the block's words 5 and 6 are to say.
    fn put_table(&mut self, step: &Step) -> Option<u32> {
        let odd = step.odd as u32;
        let mut pieces: Vec<(u64, u32)> = step
            .pieces
            .iter()
            .map(|(bytes, thing)| (*bytes, self.things[*thing].at as u32))
            .collect();
        if let Some((_, address)) = pieces.first_mut() {
            *address += odd;
        }
        let Some(table) = step.table else {
            return pieces.first().map(|(_, address)| *address);
        };
        let Thing { at, room, .. } = self.things[table];
        if step.block.command == 0x87 {
            self.maker.memory.put(at, &step.uib[..room as usize]);
            return Some(at as u32 + odd);
        }
        if room > 0 {
            self.maker.put_list(at as u32, &pieces);
        }
        Some(at as u32)
    }

    /// Data that are stored over a table are now and then what it should be: so one that is
    /// spoiled is good for a chain that comes second.
    fn mend(&mut self, images: &mut [Vec<u8>; 2]) {
        let Some((data, table)) = self.over else {
            return;
        };
        let kinds = (self.things[data].kind, self.things[table].kind);
        if kinds != (Kind::Stored, Kind::Table) || self.maker.draw.percent(40) {
            return;
        }
        let (data_at, table) = (self.things[data].at, &self.things[table]);
        let from = data_at.max(table.at);
        let to = (data_at + self.things[data].room).min(table.at + table.room);
        let bytes = &self.maker.memory.bytes[from as usize..to as usize];
        for step in self.chains.iter().flatten() {
            let mut before = 0;
            for (part, thing) in &step.pieces {
                if *thing == data {
                    plant(step, before + from - data_at, bytes, images);
                }
                before += part;
            }
        }
    }
}

/// Puts bytes on the drive where a read takes those from that stand at an offset in its data.
fn plant(read: &Step, offset: u64, bytes: &[u8], images: &mut [Vec<u8>; 2]) {
    let image = &mut images[read.block.unit() as usize];
    for (k, byte) in bytes.iter().enumerate() {
        let to = read
            .aim
            .and_then(|aim| aim.image_byte(&read.drive, offset + k as u64));
        if let Some(place) = to.and_then(|to| image.get_mut(to)) {
            *place = *byte;
        }
    }
}
