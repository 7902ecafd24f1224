//! A chain of blocks: mostly such that each does what it says, with slips.

use super::drives::{geometry, ready, unready, wide_geometry, Way};
use super::memory::Memory;
use super::{orders, tables, Theme};
use crate::case::{record_bytes, RecordBytes};
use crate::draw::Draw;
use model::{Block, Geometry, Holder, Order, Pair, Record, Table, COMMANDS};

pub const UN: u8 = 0x80;
pub const VO: u8 = 0x40;
pub const LK: u8 = 0x20;
pub const XL: u8 = 0x10;
pub const DE: u8 = 0x04;

pub const BLOCK: u64 = 28;
pub const UIB: usize = 18;

/// The one attribute of a UIB, its byte 14, that is kept.
const INCREMENT_BY_HEAD: u8 = 0x04;

/// What the maker knows of a unit.
#[derive(Clone)]
pub struct Unit {
    pub record: RecordBytes,
    /// Whether it will be initialized when the next block is run, as far as the maker can tell.
    pub ready: bool,
    /// Its geometry then, or the one that its record was spoiled from.
    pub meant: Geometry,
    /// Its table then.
    pub table: Table,
    /// Every pair that its tables have had, with the geometry of the time.
    pub added: Vec<(Geometry, Pair)>,
    /// The geometries that it has in turn, those aside whose image nobody has.
    pub shapes: Vec<Geometry>,
    /// The geometry meant is one whose image nobody has.
    pub wide: bool,
}

/// A read that falls on a later block: its sectors are to hold that block again, changed.
pub struct Plant {
    pub victim: usize,
    pub unit: usize,
    pub drive: Record,
    pub aim: Aim,
    /// Address and bytes of each piece.
    pub pieces: Vec<(u32, u64)>,
}

/// Where a transfer aims.
#[derive(Clone, Copy)]
pub struct Aim {
    pub volume: u8,
    pub first: u64,
    pub count: u64,
}

impl Aim {
    /// The place on the drive of the k-th sector, k from 0.
    pub fn place(&self, drive: &Record, k: u64) -> Option<u64> {
        let found = drive.find(self.volume, self.first + k)?;
        Some(found.place)
    }

    /// Where the k-th byte of the transfer stands in the image, k from 0.
    pub fn image_byte(&self, drive: &Record, k: u64) -> Option<usize> {
        let b = drive.geometry.bytes_a_sector as u64;
        Some((self.place(drive, k / b)? * b + k % b) as usize)
    }
}

pub struct Maker {
    pub theme: Theme,
    pub draw: Draw,
    /// How often in a thousand times a choice goes wrong.
    pub slips: u64,
    pub memory: Memory,
    pub units: [Unit; 2],
    /// Where each block stands.
    pub at: Vec<u32>,
    pub blocks: Vec<Block>,
    pub plants: Vec<Plant>,
}

impl Unit {
    pub fn new(theme: Theme, draw: &mut Draw) -> Unit {
        match theme {
            Theme::Plain => Unit::plain(draw),
            Theme::Tables => Unit::tabled(draw),
            Theme::FreshTables => Unit::fresh(draw),
            Theme::Held => Unit::held(draw),
            Theme::Orders => Unit::ordered(draw),
        }
    }

    /// The unit as a drive: the geometry and the table that a block meets.
    pub fn drive(&self) -> Record {
        Record {
            initialized: true,
            geometry: self.meant,
            cylinder: 0,
            table: self.table,
            holder: Holder::Nobody,
        }
    }

    fn plain(draw: &mut Draw) -> Unit {
        let wide = draw.percent(4);
        let meant = if wide {
            wide_geometry(draw)
        } else {
            geometry(draw)
        };
        let is_ready = draw.percent(65);
        Unit::with(draw, meant, wide, is_ready)
    }

    pub fn with(draw: &mut Draw, meant: Geometry, wide: bool, is_ready: bool) -> Unit {
        let record = if is_ready {
            record_bytes(&ready(draw, meant))
        } else {
            unready(draw, meant)
        };
        Unit {
            record,
            ready: is_ready,
            meant,
            table: Table::NONE,
            added: Vec::new(),
            shapes: if wide { Vec::new() } else { vec![meant] },
            wide,
        }
    }
}

impl Maker {
    pub fn slip(&mut self) -> bool {
        self.draw.below(1000) < self.slips
    }

    /// All blocks of the chain, in the order in which they are linked.
    pub fn chain(&mut self, blocks: usize) {
        self.place_blocks(blocks);
        for k in 0..blocks {
            let block = self.block(k);
            self.blocks.push(block);
        }
        // The earlier block stands where two overlap: it is run first, and as it was meant.
        for k in (0..blocks).rev() {
            let bytes = self.blocks[k].bytes();
            self.memory.put(self.at[k] as u64, &bytes);
        }
    }

    fn place_blocks(&mut self, blocks: usize) {
        let gap = self.draw.pick(&[0, 4, 24]);
        for _ in 0..blocks {
            let at = self.memory.table(&mut self.draw, BLOCK, gap);
            self.at.push(at);
        }
        if self.draw.percent(60) {
            for k in (1..blocks).rev() {
                let other = self.draw.below(k as u64 + 1) as usize;
                self.at.swap(k, other);
            }
        }
        for k in 1..blocks {
            if self.draw.one_in(40) {
                // The earlier of the two lies over the tail of the later.
                self.at[k - 1] = self.at[k] + 2 * self.draw.between(1, 13) as u32;
            }
        }
    }

    fn block(&mut self, k: usize) -> Block {
        let unit = self.draw.percent(35) as usize;
        let mut block = self.noise(unit);
        let lies_over_the_next = self.at.get(k + 1).is_some_and(|next| {
            let at = self.at[k];
            *next < at && at - *next < BLOCK as u32
        });
        if lies_over_the_next && self.draw.percent(70) {
            block.command = 0x86;
        } else if !self.units[unit].ready && !self.draw.percent(self.too_early()) {
            self.initialize(k, unit, &mut block);
        } else {
            self.command(k, unit, &mut block);
        }
        self.link(k, &mut block);
        block
    }

    /// How often in a hundred times a unit that is not ready is asked for something else than an
    /// initialize.
    fn too_early(&self) -> u64 {
        let more = if self.theme.tables() { 10 } else { 0 };
        4 + self.slips + more
    }

    /// A block with any bytes, so that what a command ignores is never the same.
    pub fn noise(&mut self, unit: usize) -> Block {
        let bytes = self.draw.bytes(BLOCK as usize);
        let mut block = Block::read(&bytes, 0).expect("28 bytes at 0");
        block.options = block.options & !(UN | LK | 0x06) | if unit == 1 { UN } else { 0 };
        if self.draw.percent(60) {
            block.options |= 0x02;
        }
        if self.draw.percent(25) {
            block.options |= 0x04;
        }
        if self.draw.percent(20) {
            // as a driver would leave it
            block.status = 0;
            block.error = 0;
        }
        block
    }

    fn link(&mut self, k: usize, block: &mut Block) {
        let blocks = self.at.len();
        let last = k + 1 == blocks;
        if !last {
            block.options |= LK;
            block.linked_block_address = self.at[k + 1];
            if self.slip() {
                block.options &= !LK;
            }
        } else if self.draw.percent(30) {
            block.options |= LK;
            block.linked_block_address = self.at[self.draw.below(blocks as u64) as usize];
            if self.draw.percent(35) {
                block.linked_block_address = self.memory.misplaced(&mut self.draw, BLOCK);
            }
        }
        if self.slip() {
            block.linked_block_address = match self.draw.below(3) {
                0 => self.at[self.draw.below(blocks as u64) as usize],
                1 => self.memory.anywhere(&mut self.draw, BLOCK),
                _ => self.memory.misplaced(&mut self.draw, BLOCK),
            };
        }
    }

    fn command(&mut self, k: usize, unit: usize, block: &mut Block) {
        if self.slip() || self.theme == Theme::Held && self.draw.percent(3) {
            block.command = self.unlisted();
            return;
        }
        block.command = if self.theme == Theme::Held {
            self.command_on_held()
        } else if self.theme.tables() {
            self.command_with_tables(unit)
        } else if self.units[unit].wide {
            self.draw.weighted(&[
                (50, 0x8a),
                (15, 0x89),
                (5, 0x86),
                (20, 0x87),
                (4, 0x81),
                (2, 0x82),
                (2, 0x8c),
                (2, 0xa1),
            ])
        } else {
            self.draw.weighted(&[
                (25, 0x81),
                (16, 0x82),
                (6, 0x86),
                (8, 0x87),
                (5, 0x89),
                (8, 0x8a),
                (9, 0x8c),
                (18, 0xa1),
                (11, 0xa2),
            ])
        };
        match block.command {
            0x85 => self.remap(unit, block),
            0x87 => self.initialize(k, unit, block),
            0x8a => {
                self.aim(unit, block, 1);
                // "8A: the one address only"
                block.sector_count = self.draw.next() as u16;
            }
            0x8c => self.format(k, unit, block),
            0x81 | 0x82 => self.one_piece(k, unit, block),
            0xa1 | 0xa2 => self.list(k, unit, block),
            _ => {}
        }
    }

    fn command_with_tables(&mut self, unit: usize) -> u8 {
        if self.units[unit].wide {
            return self.draw.weighted(&[
                (40, 0x8a),
                (36, 0x85),
                (5, 0x89),
                (3, 0x86),
                (8, 0x87),
                (3, 0x81),
                (2, 0x82),
                (2, 0x8c),
                (1, 0xa1),
            ]);
        }
        // with 32 pairs an 85 ends the chain
        let remaps = if self.units[unit].table.full() { 9 } else { 17 };
        self.draw.weighted(&[
            (22, 0x81),
            (14, 0x82),
            (remaps, 0x85),
            (2, 0x86),
            (5, 0x87),
            (3, 0x89),
            (9, 0x8a),
            (9, 0x8c),
            (12, 0xa1),
            (8, 0xa2),
        ])
    }

    /// A command that is not listed, or 85: in worlds without tables it names what tracks its bytes
    /// happen to be.
    pub fn unlisted(&mut self) -> u8 {
        let near = [
            0x80, 0x83, 0x84, 0x85, 0x88, 0x8b, 0x8d, 0x8e, 0xa0, 0xa3, 0x01, 0x21, 0x31, 0x00,
            0xff,
        ];
        let near = self.draw.pick(&near);
        let any = self.draw.byte();
        let command = self.draw.weighted(&[(3, near), (1, any)]);
        if COMMANDS.contains(&command) && command != 0x85 {
            0x83
        } else {
            command
        }
    }

    /// How many sectors of data have room.
    fn most_count(&self, unit: usize) -> u64 {
        let b = self.units[unit].meant.bytes_a_sector as u64;
        (self.memory.data_len() / b).max(1)
    }

    /// Lets the block aim at some sectors of a volume, `most` at most.
    pub fn aim(&mut self, unit: usize, block: &mut Block, most: u64) -> Aim {
        if self.theme.tables() && self.draw.percent(70) {
            if let Some(aim) = self.aim_at_table(unit, block, most) {
                return aim;
            }
        }
        let g = self.units[unit].meant;
        let present = g.volumes[1].present();
        let volume = if present {
            self.draw.percent(45) as u8
        } else {
            self.slip() as u8
        };
        let sectors = g.volume_sectors(volume).max(1);
        let count = self.count(most.min(sectors));
        let first = self.first(&g, volume, sectors, count);
        let aim = Aim {
            volume,
            first,
            count,
        };
        self.point(block, &g, aim);
        if self.theme == Theme::Orders && self.draw.percent(8) {
            self.end_between_orders(block, &g, volume);
        }
        if self.slip() {
            self.miss(block, &g, volume, sectors);
        }
        if !present && volume == 1 && self.draw.percent(25) {
            // 14 comes before 15
            block.sector_count = 0;
        }
        if self.slip() {
            let one_more = (sectors - first.min(sectors - 1) + 1) as u16;
            block.sector_count = self.draw.pick(&[0, one_more, one_more, 0xffff, 0x8000]);
        }
        aim
    }

    pub fn count(&mut self, most: u64) -> u64 {
        match self.draw.below(12) {
            0..=2 => 1,
            3 | 4 => most.min(2),
            5..=9 => self.draw.between(1, most.min(8)),
            10 => self.draw.between(1, most.min(60)),
            _ => most.min(60),
        }
    }

    fn first(&mut self, g: &Geometry, volume: u8, sectors: u64, count: u64) -> u64 {
        let latest = sectors - count;
        let row = match g.order {
            Order::ByHead => sectors / g.cylinders.max(1) as u64,
            Order::ByCylinder => self.row_by_cylinder(g),
        };
        match self.draw.below(10) {
            0..=3 => self.draw.between(0, latest),
            4 | 5 => latest,
            6 => (volume as u64).min(latest),
            // so that it goes over to the next cylinder, or to the next head by cylinder, where there is
            // one
            _ => {
                let next = row * self.draw.between(1, (sectors / row.max(1)).max(1));
                next.saturating_sub(self.draw.between(1, count)).min(latest)
            }
        }
    }

    /// The aim in words 2, 3 and 4, as a number or as a physical address.
    pub fn point(&mut self, block: &mut Block, g: &Geometry, aim: Aim) {
        block.options &= !(VO | XL);
        if aim.volume == 1 {
            block.options |= VO;
        }
        block.sector_count = aim.count as u16;
        if self.draw.percent(55) {
            self.number(block, aim.first as u32);
        } else if let Some(address) = g.address(aim.volume, aim.first) {
            block.cylinder = address.cylinder as u16;
            block.head = address.head as u8;
            block.sector = address.sector as u8;
        }
    }

    pub fn number(&mut self, block: &mut Block, n: u32) {
        block.options |= XL;
        let [c0, c1, head, sector] = n.to_be_bytes();
        block.cylinder = u16::from_be_bytes([c0, c1]);
        block.head = head;
        block.sector = sector;
    }

    /// Lets the block aim at what the volume does not have, at the edge or far off.
    fn miss(&mut self, block: &mut Block, g: &Geometry, volume: u8, sectors: u64) {
        if block.options & XL != 0 {
            let near = sectors as u32 + self.draw.below(3) as u32;
            let far = u32::MAX - self.draw.below(4) as u32;
            let any = self.draw.next() as u32;
            let n = self
                .draw
                .weighted(&[(4, near), (1, far), (1, any), (1, 0xffff_0000)]);
            self.number(block, n);
            return;
        }
        let heads = g.volumes[volume as usize].heads;
        match self.draw.below(7) {
            0 | 1 => block.cylinder = g.cylinders,
            2 | 3 => block.head = heads,
            4 | 5 => block.sector = g.sectors_a_track.min(255) as u8,
            _ => {
                block.cylinder = self.draw.next() as u16;
                block.head = self.draw.byte();
            }
        }
    }

    fn one_piece(&mut self, k: usize, unit: usize, block: &mut Block) {
        let most = self.most_count(unit);
        let aim = self.aim(unit, block, most);
        let g = self.units[unit].meant;
        let bytes = aim.count * g.bytes_a_sector as u64;
        block.buffer_address = self.data_address(k, bytes);
        let later = k + 1 < self.at.len();
        if block.command == 0x81 && later && self.draw.percent(14) {
            self.read_over_a_later_block(k, unit, block, aim, bytes);
        }
    }

    /// "A block may write over a later block, which is then read as it stands."
    fn read_over_a_later_block(
        &mut self,
        k: usize,
        unit: usize,
        block: &mut Block,
        aim: Aim,
        bytes: u64,
    ) {
        let after = self.at.len() - k - 1;
        let victim = k + 1 + self.draw.weighted(&[(4, 0), (1, self.at.len() % after)]);
        let at = self.at[victim] as u64;
        // Mostly all of it is read over, else its beginning or its end.
        let reach = self
            .draw
            .weighted(&[(5, BLOCK), (1, 2), (1, 14), (1, 22)])
            .min(bytes);
        let from = (at + reach).saturating_sub(bytes);
        let to = if reach < BLOCK && self.draw.percent(50) {
            at + BLOCK - reach
        } else {
            at
        };
        let address = from + self.draw.even(to.saturating_sub(from));
        if address + bytes > self.memory.len() {
            return;
        }
        block.buffer_address = address as u32;
        self.plants.push(Plant {
            victim,
            unit,
            drive: self.units[unit].drive(),
            aim,
            pieces: vec![(address as u32, bytes)],
        });
    }

    /// Where the data of the k-th block lie: mostly apart from everything.
    pub fn data_address(&mut self, k: usize, bytes: u64) -> u32 {
        if self.slip() {
            return self.memory.misplaced(&mut self.draw, bytes);
        }
        match self.draw.below(20) {
            0 => self.over_own_block(k, bytes),
            1 => self.memory.anywhere(&mut self.draw, bytes),
            2 => self.memory.at_the_end(bytes),
            _ => self.memory.data(&mut self.draw, bytes),
        }
    }

    /// The data cover the block's own word 1.
    fn over_own_block(&mut self, k: usize, bytes: u64) -> u32 {
        let word_1 = self.at[k] as u64 + 2;
        let before = self.draw.even(bytes - 2).min(word_1);
        let latest = self.memory.len().saturating_sub(bytes) & !1;
        (word_1 - before).min(latest) as u32
    }

    fn format(&mut self, k: usize, unit: usize, block: &mut Block) {
        let b = self.track(unit, block);
        block.buffer_address = self.data_address(k, b);
    }

    /// Lets the block aim at a track; B, which is what an 8C takes.
    pub fn track(&mut self, unit: usize, block: &mut Block) -> u64 {
        let g = self.units[unit].meant;
        block.cylinder = self.draw.below(g.cylinders as u64) as u16;
        block.head = self.draw.below(g.drive_heads()) as u8;
        if self.theme.tables() && self.draw.percent(65) {
            self.track_of_table(unit, block);
        }
        if self.slip() {
            block.cylinder = g.cylinders.saturating_add(self.draw.below(2) as u16);
        }
        if self.slip() {
            block.head = g.drive_heads().saturating_add(self.draw.below(2)).min(255) as u8;
        }
        g.bytes_a_sector as u64
    }

    fn initialize(&mut self, k: usize, unit: usize, block: &mut Block) {
        block.command = 0x87;
        let old = self.units[unit].meant;
        // what another controller was told of the drive is mostly to stay so
        let same = self.theme == Theme::Held && self.draw.percent(75);
        let (mut new, wide) = match self.draw.below(20) {
            _ if same => (old, self.units[unit].wide),
            0..=8 => (old, self.units[unit].wide),
            9 => (wide_geometry(&mut self.draw), true),
            10 => (Geometry::table_11(), true),
            _ => (self.another_geometry(), false),
        };
        self.draw_order(&mut new);
        let mut uib = self.uib(&new);
        if self.slip() {
            uib = self.spoiled_uib(&new);
        } else {
            let unit = &mut self.units[unit];
            unit.ready = true;
            unit.meant = new;
            unit.table = Table::NONE;
            unit.wide = wide;
            if !wide {
                unit.shapes.push(new);
            }
        }
        self.put_uib(k, block, &uib);
        if self.slip() {
            block.buffer_address = self.memory.misplaced(&mut self.draw, UIB as u64);
        }
    }

    fn another_geometry(&mut self) -> Geometry {
        if self.theme == Theme::Orders {
            orders::geometry(&mut self.draw)
        } else if self.theme.tables() {
            tables::geometry(&mut self.draw)
        } else {
            geometry(&mut self.draw)
        }
    }

    pub fn uib(&mut self, g: &Geometry) -> [u8; UIB] {
        uib_of(&mut self.draw, g)
    }

    pub fn spoiled_uib(&mut self, g: &Geometry) -> [u8; UIB] {
        let mut record = ready(&mut self.draw, *g);
        // S has one byte there, and the heads are at cylinder 0 in any case.
        let way = match self.draw.pick(&Way::ALL) {
            Way::ManySectors => Way::NoSectors,
            Way::CylinderOfC | Way::CylinderFar => Way::HeadShared,
            way => way,
        };
        way.spoil(&mut self.draw, &mut record);
        self.uib(&record.geometry)
    }

    /// Puts the UIB where the block says, now and then under the block's own status word.
    fn put_uib(&mut self, k: usize, block: &mut Block, uib: &[u8; UIB]) {
        let at = self.at[k] as u64;
        let lower = self
            .draw
            .weighted(&[(40, None), (2, Some(0)), (2, Some(12))]);
        let Some(lower) = lower.filter(|lower| at + 2 >= *lower) else {
            let place = self.memory.table(&mut self.draw, UIB as u64, 2);
            block.buffer_address = place;
            self.memory.put(place as u64, uib);
            return;
        };
        // UIB byte `lower` is the block's status. What of the UIB stands before the block goes
        // there, the rest into the block, but for the bytes that the block needs itself.
        let place = at + 2 - lower;
        self.memory.put(place, uib);
        let mut bytes = block.bytes();
        for (j, byte) in uib.iter().enumerate() {
            if let Some(inside) = (place + j as u64).checked_sub(at) {
                let inside = inside as usize;
                let needed = inside < 2 || (10..14).contains(&inside) || (20..24).contains(&inside);
                if !needed && inside < bytes.len() {
                    bytes[inside] = *byte;
                }
            }
        }
        *block = Block::read(&bytes, 0).expect("28 bytes at 0");
        block.buffer_address = place as u32;
    }
}

/// The UIB of a geometry; what is not kept or judged may be anything.
pub fn uib_of(draw: &mut Draw, g: &Geometry) -> [u8; UIB] {
    let mut uib = [0; UIB];
    draw.fill(&mut uib);
    for (k, volume) in g.volumes.iter().enumerate() {
        uib[2 * k] = volume.start_head;
        uib[2 * k + 1] = volume.heads;
    }
    uib[4] = g.sectors_a_track as u8;
    uib[6..8].copy_from_slice(&g.bytes_a_sector.to_be_bytes());
    uib[12..14].copy_from_slice(&g.cylinders.to_be_bytes());
    match g.order {
        Order::ByHead => uib[14] |= INCREMENT_BY_HEAD,
        Order::ByCylinder => uib[14] &= !INCREMENT_BY_HEAD,
    }
    uib
}
