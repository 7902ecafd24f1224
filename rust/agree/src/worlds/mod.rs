//! Generated worlds: most of them such that a chain does what it says for a while, and some
//! damaged, so that deep cases are reached as well as refusals.

mod chain;
mod drives;
mod held;
mod lists;
mod memory;
mod orders;
mod pair;
mod tables;

use crate::case::{counting_end, record_in, Case, Inspection, RecordBytes};
use crate::draw::Draw;
use chain::{Maker, Plant, Unit, BLOCK, LK};
pub use drives::Way;
pub use held::{contest, Contest, Turn};
use memory::Memory;
use model::{Block, Controller};
pub use pair::pair;
pub use tables::{name as name_pair, named_drive, NamedDrive, TableWay};

/// What worlds are about. Those of one theme are drawn apart from those of another.
#[derive(Clone, Copy, Debug, PartialEq, Eq)]
pub enum Theme {
    /// All that there was before tables. No record has a pair, and an 85 is as rare as any command that
    /// nobody lists.
    Plain,
    /// Records with tables, blocks that add to them, and blocks that land on them.
    Tables,
    /// The same for a session, whose units no initialize has reached.
    FreshTables,
    /// Records with tables and with any holder, for runs by either controller.
    Held,
    /// Drives by head and by cylinder, with tables and without. In every other theme drives are by head.
    Orders,
}

impl Theme {
    pub fn tables(self) -> bool {
        self != Theme::Plain
    }

    /// The seed from which the worlds of the theme are drawn.
    fn seed(self, seed: u64) -> u64 {
        match self {
            Theme::Plain => seed,
            Theme::Tables => seed ^ 0x7ab1_e500,
            Theme::FreshTables => seed ^ 0x7ab1_e50f,
            Theme::Held => seed ^ 0x0e1d_0e1d,
            Theme::Orders => seed ^ 0x0c1b_7ead,
        }
    }
}

/// The world with an index; it depends on theme, seed and index alone.
pub fn world(theme: Theme, seed: u64, index: u64) -> Case {
    let seed = theme.seed(seed);
    let mut draw = Draw::of(seed, index);
    let slips = draw.weighted(&[(45, 0), (38, 10), (17, 50)]);
    let units = [0, 1].map(|_| Unit::new(theme, &mut draw));
    let blocks = match draw.below(40) {
        0..=6 => 1,
        7..=24 => draw.between(2, 5),
        25..=36 => draw.between(6, 12),
        37 | 38 => draw.between(13, 30),
        _ => draw.between(60, 70),
    } as usize;
    let memory = memory(&mut draw, blocks, &units);
    let mut maker = Maker {
        theme,
        draw,
        slips,
        memory,
        units,
        at: Vec::new(),
        blocks: Vec::new(),
        plants: Vec::new(),
    };
    maker.chain(blocks);
    let mut case = finish(maker);
    tails(seed, index, &mut case.records);
    case
}

/// What stands in a record after the pairs that count may be anything. It is drawn apart, so that
/// worlds are the same with it and without.
fn tails(seed: u64, index: u64, records: &mut [RecordBytes; 2]) {
    let mut draw = Draw::of(seed ^ 0x7a11, index);
    for bytes in records {
        if draw.percent(60) {
            let from = counting_end(record_in(bytes).table.count());
            draw.fill(&mut bytes[from..]);
        }
    }
}

fn memory(draw: &mut Draw, blocks: usize, units: &[Unit; 2]) -> Memory {
    let b = units
        .iter()
        .filter(|unit| !unit.wide)
        .map(|unit| unit.meant.bytes_a_sector as usize)
        .max()
        .unwrap_or(64);
    let tables = blocks * (BLOCK as usize + 12) + draw.pick(&[40, 160, 400, 900]);
    let sectors = draw.weighted(&[(4, 3), (4, 8), (2, 16), (1, 1), (1, 0)]);
    let data = (sectors * b + draw.below(100) as usize).min(16_000);
    Memory::new(draw, tables & !1, data)
}

fn finish(mut maker: Maker) -> Case {
    let mut images = [0, 1].map(|unit| image(&mut maker, unit));
    let plants = std::mem::take(&mut maker.plants);
    for plant in &plants {
        grow(&mut maker, &mut images, plant);
    }
    let events = event_bytes(&mut maker.draw);
    let mut case = Case {
        controller: Controller::First,
        events: maker.draw.bytes(events),
        records: [maker.units[0].record, maker.units[1].record],
        first: first(&mut maker),
        allowance: allowance(&mut maker),
        inspections: inspections(&mut maker),
        host: Vec::new(),
        images,
    };
    damage(&mut maker, &mut case);
    case.host = maker.memory.bytes;
    case
}

fn image(maker: &mut Maker, unit: usize) -> Vec<u8> {
    let need = maker.units[unit]
        .shapes
        .iter()
        .map(|g| g.need())
        .max()
        .unwrap_or(0);
    let slip = maker.slip() || maker.draw.one_in(60);
    let draw = &mut maker.draw;
    let len = if slip {
        match draw.below(8) {
            0..=2 => need.saturating_sub(1),
            3 => need.saturating_sub(draw.between(2, 20)),
            4 => 0,
            _ => draw.below(need + 1),
        }
    } else {
        let more = draw.between(1, 40);
        need + draw.weighted(&[(6, 0), (2, more), (1, 1)])
    };
    let mut image = drives::image(&mut maker.draw, len as usize, &maker.units[unit].shapes);
    if maker.theme.tables() {
        maker.mark_tables(unit, &mut image);
    }
    image
}

/// The sectors that are read over a later block get what stands in memory there, and the block
/// itself changed. What stood there first may be anything then.
fn grow(maker: &mut Maker, images: &mut [Vec<u8>; 2], plant: &Plant) {
    let at = maker.at[plant.victim] as usize;
    let Some(old) = Block::read(&maker.memory.bytes, at as u32) else {
        return;
    };
    let new = changed(maker, old).bytes();
    let image = &mut images[plant.unit];
    let mut moved = 0;
    for (address, bytes) in &plant.pieces {
        for k in 0..*bytes {
            let place = *address as usize + k as usize;
            let Some(stands) = maker.memory.bytes.get(place) else {
                continue;
            };
            let inside = place.checked_sub(at).and_then(|inside| new.get(inside));
            let to = plant.aim.image_byte(&plant.drive, moved);
            if let Some(byte) = to.and_then(|to| image.get_mut(to)) {
                *byte = *inside.unwrap_or(stands);
            }
            moved += 1;
        }
    }
    let noise = maker.draw.bytes(BLOCK as usize);
    if maker.draw.percent(40) {
        maker.memory.put(at as u64, &noise);
    }
}

/// Another block in the same place, mostly one that can be run as well.
fn changed(maker: &mut Maker, mut block: Block) -> Block {
    let draw = &mut maker.draw;
    block.options ^= draw.pick(&[0x00, 0x02, 0x04, 0x01, 0x08]);
    block.interrupt_level = draw.byte();
    block.normal_vector = draw.byte();
    if draw.percent(30) {
        block.error_vector = draw.byte();
    }
    if draw.percent(30) {
        block.command = draw.pick(&[0x89, 0x86, 0x8a, 0x81, 0x82]);
    }
    if draw.percent(20) {
        block.sector_count = block.sector_count.wrapping_sub(1);
    }
    if draw.percent(30) {
        block.linked_block_address = maker.at[draw.below(maker.at.len() as u64) as usize];
        block.options ^= draw.pick(&[0, 0, LK]);
    }
    block
}

fn event_bytes(draw: &mut Draw) -> usize {
    match draw.below(100) {
        0..=64 => 512,
        65..=93 => 512 + draw.below(80) as usize,
        94 | 95 => 511,
        96 => draw.below(512) as usize,
        _ => 1024,
    }
}

fn first(maker: &mut Maker) -> u32 {
    let draw = &mut maker.draw;
    match draw.below(100) {
        0 | 1 => maker.memory.misplaced(draw, BLOCK),
        2 => maker.at[0] | 1,
        3 => maker.at[draw.below(maker.at.len() as u64) as usize],
        4 => maker.memory.at_the_end(BLOCK),
        _ => maker.at[0],
    }
}

fn allowance(maker: &mut Maker) -> u32 {
    let blocks = maker.at.len() as u32;
    let draw = &mut maker.draw;
    match draw.below(100) {
        0..=54 => (blocks + draw.below(6) as u32).min(64),
        55..=64 => blocks.min(64),
        65..=79 => draw.between(1, blocks as u64).min(64) as u32,
        80..=91 => 64,
        92..=95 => draw.between(1, 64) as u32,
        96 => 0,
        97 => 65,
        98 => 66 + draw.below(200) as u32,
        // what would be small in fewer bits
        _ => draw.pick(&[0x100, 0x101, 0x1_0001, 0x8000_0001, u32::MAX]),
    }
}

fn inspections(maker: &mut Maker) -> Vec<Inspection> {
    (0..4).map(|_| inspection(maker)).collect()
}

fn inspection(maker: &mut Maker) -> Inspection {
    let draw = &mut maker.draw;
    let unit = draw.weighted(&[(5, 0), (5, 1), (1, 2), (1, 0x100), (1, u32::MAX)]);
    let g = maker.units[(unit % 2) as usize].meant;
    let sectors = g.drive_sectors();
    let place = match draw.below(10) {
        0..=4 => draw.below(sectors),
        5 => sectors - 1,
        6 => sectors,
        7 => draw.below(sectors) + (1 << 32),
        8 => u64::MAX / g.bytes_a_sector as u64 + draw.below(2),
        _ => draw.pick(&[u64::MAX, 1 << 63, u64::MAX - 1]),
    };
    // Lengths are only numbers here, so that a drive can be looked at that is in no memory.
    let lens = [g.need(), g.need().saturating_sub(1), u64::MAX, 0];
    let lens = [draw.pick(&lens), draw.pick(&lens)];
    let image_lens = draw.percent(40).then_some(lens);
    Inspection {
        unit,
        place: inspected(maker, unit).unwrap_or(place),
        image_lens,
    }
}

/// In worlds with tables often a place on a bad track or on a spare.
fn inspected(maker: &mut Maker, unit: u32) -> Option<u64> {
    if maker.theme.tables() && maker.draw.percent(60) {
        return maker.place_of_table((unit % 2) as usize);
    }
    None
}

/// What is done to a world that was fine. Also where no choice slipped, now and then.
fn damage(maker: &mut Maker, case: &mut Case) {
    if maker.draw.one_in(40) {
        let len = maker.draw.below(100) as usize;
        maker.memory.bytes.truncate(len);
        case.first = maker.draw.weighted(&[(3, 0), (1, case.first)]);
    }
    if maker.slips == 0 && !maker.draw.one_in(20) {
        return;
    }
    match maker.draw.below(10) {
        0 | 1 => cut_a_block(maker),
        2 => cut(maker),
        3 | 4 => flip_bits(maker),
        5 => random_block(maker),
        _ => {}
    }
}

/// Memory ends with a block, or within it.
fn cut_a_block(maker: &mut Maker) {
    let at = maker.at[maker.draw.below(maker.at.len() as u64) as usize] as u64;
    let len = at
        + maker
            .draw
            .weighted(&[(3, BLOCK), (3, BLOCK - 1), (1, BLOCK - 2), (1, 2)]);
    maker.memory.bytes.truncate(len as usize);
}

fn cut(maker: &mut Maker) {
    let len = maker.draw.below(maker.memory.len() + 1);
    maker.memory.bytes.truncate(len as usize);
}

fn flip_bits(maker: &mut Maker) {
    for _ in 0..maker.draw.between(1, 4) {
        let at = maker.at[maker.draw.below(maker.at.len() as u64) as usize] as u64;
        let place = (at + maker.draw.below(BLOCK)) as usize;
        if let Some(byte) = maker.memory.bytes.get_mut(place) {
            *byte ^= 1 << maker.draw.below(8);
        }
    }
}

fn random_block(maker: &mut Maker) {
    let at = maker.at[maker.draw.below(maker.at.len() as u64) as usize];
    let bytes = maker.draw.bytes(BLOCK as usize);
    maker.memory.put(at as u64, &bytes);
}
