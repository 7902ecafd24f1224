//! The blocks of a chain and what belongs to them, before anything has a place.

use super::super::chain::{BLOCK, DE, UIB, XL};
use super::super::lists::ELEMENT;
use super::super::tables::name;
use super::super::Theme;
use super::{small, End, Kind, Plan, Step, Units};
use crate::case::record_in;
use model::Table;

/// The data of a block have so many bytes at most, or one sector.
const MOST_DATA: u64 = 400;

/// Where a block lies in a thing, and the step that reads it to there, if one does.
type Place = ((usize, u64), Option<usize>);

impl Plan {
    /// A chain as it goes alone: for the next one the units are again as at the start.
    pub fn chain(&mut self, chain: usize, units: Units) {
        let start = [0, 1].map(|unit| {
            let unit = &self.maker.units[unit];
            (unit.ready, unit.meant, unit.table)
        });
        let draw = &mut self.maker.draw;
        let blocks = draw.weighted(&[(3, 1), (4, 2), (3, 3), (1, 5)]);
        self.ends[chain] = draw.weighted(&[
            (9, End::Done),
            (5, End::Stopped),
            (5, End::Refused),
            (2, End::Linked),
        ]);
        for k in 0..blocks {
            let unit = match units {
                Units::Apart(unit) => (unit + chain) % 2,
                Units::One(unit) => unit,
                Units::Any => self.maker.draw.below(2) as usize,
            };
            let last = k + 1 == blocks;
            self.step(chain, unit, if last { self.ends[chain] } else { End::Done });
        }
        for (unit, (ready, meant, table)) in start.into_iter().enumerate() {
            self.maker.units[unit].ready = ready;
            self.maker.units[unit].meant = meant;
            self.maker.units[unit].table = table;
        }
    }

    fn step(&mut self, chain: usize, unit: usize, end: End) {
        let mut block = self.maker.noise(unit);
        block.command = self.command(unit, end);
        let (place, read_by) = self.place(chain, block.command);
        let mut step = Step {
            block,
            drive: self.maker.units[unit].drive(),
            aim: None,
            place,
            read_by,
            table: None,
            uib: [0; UIB],
            spoiled: Vec::new(),
            pieces: Vec::new(),
            odd: false,
        };
        self.aim(unit, &mut step);
        self.data(chain, &mut step);
        match (block.command, end) {
            (0x85, _) => self.remap(unit, end, &mut step),
            (0x87, _) => self.initialize(chain, unit, end, &mut step),
            (0x81 | 0xa1, End::Stopped) => self.stop(unit, &mut step),
            (_, End::Refused) => self.refuse(&mut step),
            _ => {}
        }
        if self.refused_by_24(chain, unit, &step) {
            self.no_room(&mut step);
        }
        self.chains[chain].push(step);
    }

    /// Whether the drive is the other controller's, so that nothing but the block is read.
    fn refused_by_24(&self, chain: usize, unit: usize, step: &Step) -> bool {
        let holder = record_in(&self.maker.units[unit].record).holder;
        let held = self.maker.theme == Theme::Held && holder.is_other_than(self.controllers[chain]);
        held && step.block.command != 0x86
    }

    /// What the block does not come to lies over whatever comes next.
    fn no_room(&mut self, step: &mut Step) {
        step.spoiled.clear();
        for (_, thing) in &step.pieces {
            self.things[*thing].room = 0;
        }
        self.no_room_for_the_list(step);
    }

    fn command(&mut self, unit: usize, end: End) -> u8 {
        let draw = &mut self.maker.draw;
        if !self.maker.units[unit].ready && !draw.one_in(12) {
            return 0x87;
        }
        if self.maker.theme.tables() && end != End::Stopped && draw.percent(16) {
            return 0x85;
        }
        match end {
            End::Stopped => draw.pick(&[0x81, 0xa1]),
            End::Refused => {
                draw.pick(&[0x82, 0x82, 0xa2, 0xa2, 0xa1, 0x81, 0x8c, 0x87, 0x87, 0x8a])
            }
            _ => draw.weighted(&[
                (24, 0x81),
                (16, 0x82),
                (10, 0x86),
                (9, 0x87),
                (4, 0x89),
                (8, 0x8a),
                (8, 0x8c),
                (15, 0xa1),
                (10, 0xa2),
            ]),
        }
    }

    /// Where the next block of a chain stands: now and then in the data that the block before it
    /// reads, which puts it there.
    fn place(&mut self, chain: usize, command: u8) -> Place {
        let before = self.chains[chain].last();
        if let Some(read) = before.filter(|step| step.block.command == 0x81) {
            let (bytes, thing) = read.pieces[0];
            if self.maker.draw.percent(15) {
                let offset = self.maker.draw.even(bytes - BLOCK);
                return ((thing, offset), Some(self.chains[chain].len() - 1));
            }
        }
        let kind = match command {
            0x85 => Kind::Remap,
            0x86 => Kind::Handshake,
            _ => Kind::Block,
        };
        ((self.thing(chain, kind, BLOCK), 0), None)
    }

    fn aim(&mut self, unit: usize, step: &mut Step) {
        let most = (MOST_DATA / step.drive.geometry.bytes_a_sector as u64).max(1);
        match step.block.command {
            0x81 | 0x82 | 0x8a | 0xa1 | 0xa2 => {
                step.aim = Some(self.maker.aim(unit, &mut step.block, most));
            }
            0x8c => {
                self.maker.track(unit, &mut step.block);
            }
            _ => {}
        }
    }

    /// The list, where there is one, and the pieces of data.
    fn data(&mut self, chain: usize, step: &mut Step) {
        let b = step.drive.geometry.bytes_a_sector as u64;
        let bytes = step.aim.map_or(b, |aim| aim.count * b);
        let (kind, parts) = match step.block.command {
            0x81 => (Kind::Stored, vec![bytes]),
            0x82 | 0x8c => (Kind::Taken, vec![bytes]),
            0xa1 => (Kind::Stored, self.maker.parts(bytes, b)),
            0xa2 => (Kind::Taken, self.maker.parts(bytes, b)),
            _ => return,
        };
        if matches!(step.block.command, 0xa1 | 0xa2) {
            let list = parts.len() as u64 * ELEMENT;
            step.block.element_count = parts.len() as u8;
            step.table = Some(self.thing(chain, Kind::Table, list));
        }
        for part in parts {
            let thing = self.thing(chain, kind, part);
            step.pieces.push((part, thing));
        }
    }

    /// The tracks of an 85; one that is refused names some that cannot be had.
    fn remap(&mut self, unit: usize, end: End, step: &mut Step) {
        if end == End::Refused {
            let pair = self.maker.refused_pair(unit, None);
            name(&mut step.block, &pair);
        } else {
            self.maker.remap(unit, &mut step.block);
        }
    }

    /// The UIB. One that is refused is misplaced, and then not read, or outside the limits.
    fn initialize(&mut self, chain: usize, unit: usize, end: End, step: &mut Step) {
        let draw = &mut self.maker.draw;
        let mut new = if draw.percent(60) {
            step.drive.geometry
        } else {
            small(self.maker.theme, draw)
        };
        self.maker.draw_order(&mut new);
        let draw = &mut self.maker.draw;
        step.odd = end == End::Refused && draw.percent(40);
        step.uib = self.maker.uib(&new);
        if end == End::Refused && !step.odd {
            step.spoiled = self.maker.spoiled_uib(&new).to_vec();
        }
        let room = if step.odd { 0 } else { UIB as u64 };
        step.table = Some(self.thing(chain, Kind::Table, room));
        let unit = &mut self.maker.units[unit];
        unit.ready = true;
        unit.meant = new;
        unit.table = Table::NONE;
        unit.shapes.push(new);
    }

    /// Lets a read stop at one of its sectors. The data have room for what is moved before it.
    fn stop(&mut self, unit: usize, step: &mut Step) {
        let Some(aim) = step.aim else {
            return;
        };
        let sectors = self.maker.draw.below(aim.count);
        step.block.options &= !DE;
        if let Some(place) = aim.place(&step.drive, sectors) {
            self.unreadable.push((unit, step.drive.geometry, place));
        }
        let mut moved = sectors * step.drive.geometry.bytes_a_sector as u64;
        for (bytes, thing) in &step.pieces {
            let room = moved.min(*bytes);
            self.things[*thing].room = room;
            moved -= room;
        }
    }

    /// Makes the block one that is refused. What it does not come to has no room.
    fn refuse(&mut self, step: &mut Step) {
        for (_, thing) in &step.pieces {
            self.things[*thing].room = 0;
        }
        let draw = &mut self.maker.draw;
        match (step.block.command, draw.below(5)) {
            // 18: the first byte count makes the sum wrong
            (0xa1 | 0xa2, 0) => step.spoiled = (step.pieces[0].0 as u16 + 2).to_be_bytes().to_vec(),
            // 18, and the list is not read
            (0xa1 | 0xa2, 1) => {
                step.block.element_count = draw.pick(&[0, 65, 66, 255]);
                self.no_room_for_the_list(step);
            }
            // 19
            (0x81 | 0x82 | 0x8c | 0xa1 | 0xa2, 2) => step.odd = true,
            // 16
            (0x81 | 0x82 | 0x8a | 0x8c | 0xa1 | 0xa2, 0..=3) => {
                step.block.options &= !XL;
                step.block.cylinder = step.drive.geometry.cylinders;
                self.no_room_for_the_list(step);
            }
            // 10
            _ => {
                step.block.command = self.maker.unlisted();
                self.no_room_for_the_list(step);
            }
        }
    }

    fn no_room_for_the_list(&mut self, step: &Step) {
        if let Some(list) = step.table {
            self.things[list].room = 0;
        }
    }
}
