//! Drives that are held: records with any holder, and contests, in which two machines run chains in
//! turn on the same two drives, each from a memory of its own.

use super::chain::{Maker, Unit, BLOCK};
use super::{drives, flip_bits, grow, inspection, memory, tables, tails, Theme};
use crate::case::{record_in, Inspection, RecordBytes, HOLDER_AT};
use crate::draw::Draw;
use model::{Controller, Geometry};

/// What a controller has for itself.
#[derive(Clone)]
pub struct Machine {
    pub host: Vec<u8>,
    pub events: Vec<u8>,
}

/// A run by one of the two.
#[derive(Clone)]
pub struct Turn {
    pub controller: Controller,
    pub first: u32,
    pub allowance: u32,
    pub inspections: Vec<Inspection>,
    /// A drive that somebody releases before the run, for a machine that he takes for gone.
    pub released: Option<usize>,
}

/// Two machines, what they share, and their turns.
#[derive(Clone)]
pub struct Contest {
    pub images: [Vec<u8>; 2],
    pub records: [RecordBytes; 2],
    /// The first controller's and the second's.
    pub machines: [Machine; 2],
    pub turns: Vec<Turn>,
}

impl Unit {
    /// A unit with any holder, with a table or without.
    pub fn held(draw: &mut Draw) -> Unit {
        let meant = tables::geometry(draw);
        Unit::held_as(draw, meant)
    }

    pub fn held_as(draw: &mut Draw, meant: Geometry) -> Unit {
        let mut unit = if draw.percent(45) {
            Unit::tabled_as(draw, meant, false)
        } else {
            let is_ready = draw.percent(92);
            Unit::with(draw, meant, false, is_ready)
        };
        unit.record[HOLDER_AT] = holder_byte(draw);
        if draw.percent(12) {
            spoil_opening(draw, &mut unit.record);
        }
        unit.ready = record_in(&unit.record).counts_as_initialized();
        unit
    }
}

/// Byte 17 of a record: mostly a holder, and else any number.
fn holder_byte(draw: &mut Draw) -> u8 {
    let any = draw.byte();
    draw.weighted(&[
        (40, 0),
        (24, 1),
        (24, 2),
        (6, 3),
        (1, 0x80),
        (1, 0x81),
        (1, 0x82),
        (1, 0xff),
        (2, any),
    ])
}

/// Another version, another length, or a flag that does not say initialized.
fn spoil_opening(draw: &mut Draw, record: &mut RecordBytes) {
    match draw.below(4) {
        0 => record[0] = draw.pick(&[0, 1, 3, 0x82, 0xff]),
        1 => record[2] = draw.pick(&[0, 2, 0xff]),
        2 => record[3] = draw.pick(&[0x10, 0x13, 0x15, 0x94]),
        _ => record[1] = draw.pick(&[0, 2, 0x81, 0xff]),
    }
}

impl Maker {
    /// A command for a drive that may be anybody's.
    pub fn command_on_held(&mut self) -> u8 {
        self.draw.weighted(&[
            (16, 0x81),
            (12, 0x82),
            (11, 0x85),
            (10, 0x86),
            (8, 0x87),
            (10, 0x89),
            (10, 0x8a),
            (9, 0x8c),
            (10, 0xa1),
            (8, 0xa2),
        ])
    }
}

/// A machine with a chain for drives as they stand at the start.
fn maker(seed: u64, index: u64, units: &[Unit; 2]) -> Maker {
    let mut draw = Draw::of(seed, index);
    let slips = draw.weighted(&[(60, 0), (30, 10), (10, 50)]);
    let blocks = draw.between(3, 9) as usize;
    let memory = memory(&mut draw, blocks, units);
    let mut maker = Maker {
        theme: Theme::Held,
        draw,
        slips,
        memory,
        units: units.clone(),
        at: Vec::new(),
        blocks: Vec::new(),
        plants: Vec::new(),
    };
    maker.chain(blocks);
    maker
}

/// The contest with an index; it depends on seed and index alone.
pub fn contest(seed: u64, index: u64) -> Contest {
    let seed = Theme::Held.seed(seed);
    let mut draw = Draw::of(seed, index);
    let units = [0, 1].map(|_| Unit::new(Theme::Held, &mut draw));
    let mut makers = [1, 2].map(|k| maker(seed ^ (k << 40), index, &units));
    let mut images = [0, 1].map(|unit| image(&mut draw, unit, &mut makers));
    for maker in &mut makers {
        let plants = std::mem::take(&mut maker.plants);
        for plant in &plants {
            grow(maker, &mut images, plant);
        }
        if maker.draw.one_in(12) {
            flip_bits(maker);
        }
    }
    let mut records = units.map(|unit| unit.record);
    tails(seed, index, &mut records);
    let turns = draw.between(3, 9);
    let turns = (0..turns).map(|_| turn(&mut draw, &mut makers)).collect();
    Contest {
        images,
        records,
        machines: makers.map(|maker| Machine {
            host: maker.memory.bytes,
            events: draw.bytes(512),
        }),
        turns,
    }
}

/// An image for the geometries that either machine gives the drive.
fn image(draw: &mut Draw, unit: usize, makers: &mut [Maker; 2]) -> Vec<u8> {
    let shapes: Vec<Geometry> = makers
        .iter()
        .flat_map(|maker| maker.units[unit].shapes.iter().copied())
        .collect();
    let need = shapes.iter().map(|g| g.need()).max().unwrap_or(0);
    let len = if draw.one_in(30) {
        need.saturating_sub(1)
    } else {
        need + draw.below(8)
    };
    let mut image = drives::image(draw, len as usize, &shapes);
    for maker in makers {
        maker.mark_tables(unit, &mut image);
    }
    image
}

/// A run from any block of a machine's chain on, mostly a short one, so that the drives go to and fro.
fn turn(draw: &mut Draw, makers: &mut [Maker; 2]) -> Turn {
    let controller = draw.pick(&Controller::BOTH);
    let maker = &mut makers[controller as usize];
    let blocks = maker.at.len() as u64;
    let from = draw.below(blocks) as usize;
    let some = draw.between(1, blocks);
    let first = match draw.below(100) {
        0 => maker.memory.misplaced(draw, BLOCK),
        1..=30 => maker.at[0],
        _ => maker.at[from],
    };
    let allowance = draw.weighted(&[(40, 1), (25, 2), (30, some), (4, 64), (1, 65)]) as u32;
    let inspections = (0..2).map(|_| inspection(maker)).collect();
    Turn {
        controller,
        first,
        allowance,
        inspections,
        released: draw.percent(8).then(|| draw.below(2) as usize),
    }
}
