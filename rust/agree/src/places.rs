//! No two sectors in one place (paper 02, K7), tried on one side alone: a drive is initialized and gets
//! its pairs by commands, every sector of its volumes that is on no spare is written with bytes of
//! its own, and then each is to come back as itself. Where they land is not asked.

use crate::case::{record_in, Case, RecordBytes, RECORD_LEN};
use crate::crowd::Crowd;
use crate::draw::Draw;
use crate::dump::geometry_words;
use crate::sides::{model_side, Left};
use crate::worlds::{name_pair, named_drive, NamedDrive};
use model::{with_fault, Block, Controller, Fault, Geometry, Pair, Table, Track, BLOCK_BYTES};
use std::panic::{catch_unwind, AssertUnwindSafe};

const VO: u8 = 0x40;
const LK: u8 = 0x20;
const XL: u8 = 0x10;

/// How many blocks are linked in one run.
const ROW: usize = 64;

/// A sector as a block names it, and the track that it is on.
#[derive(Clone, Copy, PartialEq)]
struct Sector {
    volume: u8,
    number: u32,
    track: Track,
}

/// What was tried.
#[derive(Default)]
pub struct Tally {
    /// Pairs that 85s have made.
    pub pairs: u64,
    /// Sectors on no spare, written and read back.
    pub sectors: u64,
    /// Tracks of no volume, on no spare, formatted in between.
    pub formats: u64,
    /// Sectors of spares that were read by their own names too.
    pub met: u64,
    /// Marks that stopped a read, each of them one.
    pub marks: u64,
}

impl Tally {
    pub fn join(&mut self, other: &Tally) {
        self.pairs += other.pairs;
        self.sectors += other.sectors;
        self.formats += other.formats;
        self.met += other.met;
        self.marks += other.marks;
    }
}

/// A drive as unit 0 of a board, and who runs it.
struct Board<'a> {
    run: &'a dyn Fn(&Case) -> Left,
    image: Vec<u8>,
    record: RecordBytes,
    sector_bytes: usize,
}

impl Board<'_> {
    /// Runs blocks in a row, each linked to the next, with a sector's bytes of host memory for each
    /// behind them. How many were run, and the sectors' bytes afterwards.
    fn row(&mut self, blocks: &[Block], data: &[Vec<u8>]) -> (usize, Vec<Vec<u8>>) {
        let b = self.sector_bytes;
        let data_at = |k: usize| blocks.len() * 32 + k * b;
        let mut host = vec![0; data_at(blocks.len())];
        for (k, block) in blocks.iter().enumerate() {
            let last = k + 1 == blocks.len();
            let block = Block {
                options: block.options | if last { 0 } else { LK },
                buffer_address: match block.command {
                    0x85 => block.buffer_address,
                    _ => data_at(k) as u32,
                },
                linked_block_address: 32 * (k as u32 + 1),
                ..*block
            };
            host[32 * k..32 * k + BLOCK_BYTES].copy_from_slice(&block.bytes());
            if let Some(bytes) = data.get(k) {
                host[data_at(k)..data_at(k) + bytes.len()].copy_from_slice(bytes);
            }
        }
        let left = (self.run)(&Case {
            controller: Controller::First,
            host,
            images: [std::mem::take(&mut self.image), Vec::new()],
            events: vec![0; 512],
            records: [self.record, [0; RECORD_LEN]],
            first: 0,
            allowance: blocks.len() as u32,
            inspections: Vec::new(),
        });
        let [image, _] = left.images;
        self.image = image;
        self.record = left.records[0];
        let failed = (left.outcome.answer == 4) as usize;
        let read = (0..blocks.len()).map(|k| left.host[data_at(k)..data_at(k) + b].to_vec());
        (left.outcome.blocks as usize - failed, read.collect())
    }

    fn write(&mut self, sectors: &[(Sector, Vec<u8>)]) -> Result<(), String> {
        for some in sectors.chunks(ROW) {
            let blocks: Vec<Block> = some.iter().map(|(s, _)| naming(0x82, s)).collect();
            let data: Vec<Vec<u8>> = some.iter().map(|(_, bytes)| bytes.clone()).collect();
            if self.row(&blocks, &data).0 != some.len() {
                return Err("a write fails".to_string());
            }
        }
        Ok(())
    }

    fn read(&mut self, sectors: &[Sector]) -> Result<Vec<Vec<u8>>, String> {
        let mut all = Vec::new();
        for some in sectors.chunks(ROW) {
            let blocks: Vec<Block> = some.iter().map(|s| naming(0x81, s)).collect();
            let (done, read) = self.row(&blocks, &[]);
            if done != some.len() {
                return Err("a read fails".to_string());
            }
            all.extend(read);
        }
        Ok(all)
    }
}

fn block(command: u8, options: u8) -> Block {
    Block {
        command,
        options,
        ..Block::read(&[0; BLOCK_BYTES], 0).expect("28 bytes at 0")
    }
}

/// A read or a write of one sector by its number.
fn naming(command: u8, sector: &Sector) -> Block {
    let [c0, c1, head, low] = sector.number.to_be_bytes();
    Block {
        cylinder: u16::from_be_bytes([c0, c1]),
        head,
        sector: low,
        sector_count: 1,
        ..block(command, XL | if sector.volume == 1 { VO } else { 0 })
    }
}

fn remap(pair: &Pair) -> Block {
    let mut block = block(0x85, 0);
    name_pair(&mut block, pair);
    block
}

/// The sectors of both volumes.
fn sectors(g: &Geometry) -> Vec<Sector> {
    let of_volume = |volume: u8| {
        let numbers = 0..g.volume_sectors(volume);
        numbers.filter_map(move |n| {
            let address = g.over_the_drive(volume, g.address(volume, n)?)?;
            Some(Sector {
                volume,
                number: n as u32,
                track: Track::new(address.cylinder as u16, address.head as u8),
            })
        })
    };
    of_volume(0).chain(of_volume(1)).collect()
}

/// The bytes that only the k-th sector is given.
fn own_bytes(k: usize, b: usize) -> Vec<u8> {
    let word = (k as u32 + 1).to_be_bytes();
    (0..b).map(|at| word[at % 4]).collect()
}

fn shuffle<T>(draw: &mut Draw, things: &mut [T]) {
    for k in (1..things.len()).rev() {
        things.swap(k, draw.below(k as u64 + 1) as usize);
    }
}

/// What the drive with an index is drawn from, apart from every world.
fn drawn(seed: u64, index: u64) -> Draw {
    Draw::of(seed ^ 0x0091_ace5, index)
}

/// One drive: what was tried on it, or what is wrong.
fn sweep(seed: u64, index: u64, run: &dyn Fn(&Case) -> Left) -> Result<Tally, String> {
    let mut draw = drawn(seed, index);
    let NamedDrive {
        geometry,
        uib,
        pairs,
    } = named_drive(&mut draw);
    let mut board = Board {
        run,
        image: draw.bytes(geometry.need() as usize),
        record: [0; RECORD_LEN],
        sector_bytes: geometry.bytes_a_sector as usize,
    };
    board.image[geometry.marks_at() as usize..].fill(0);
    if board.row(&[block(0x87, 0)], &[uib.to_vec()]).0 != 1 {
        return Err("the initialize fails".to_string());
    }
    for pair in &pairs {
        // some are refused
        board.row(&[remap(pair)], &[]);
    }
    let table = record_in(&board.record).table;
    let (on_spare, mut all): (Vec<Sector>, Vec<Sector>) = sectors(&geometry)
        .into_iter()
        .partition(|sector| table.has_spare(sector.track));
    shuffle(&mut draw, &mut all);
    let written: Vec<(Sector, Vec<u8>)> = all
        .iter()
        .enumerate()
        .map(|(k, sector)| (*sector, own_bytes(k, board.sector_bytes)))
        .collect();
    board.write(&written)?;
    let formats = formatted(&geometry, &mut board, &table)?;
    for ((sector, own), read) in written.iter().zip(board.read(&all)?) {
        if *own != read {
            return Err(format!(
                "logical {} of volume {} comes back as another",
                sector.number, sector.volume
            ));
        }
    }
    let marks = marked(&mut draw, &geometry, &mut board, &all)?;
    Ok(Tally {
        pairs: table.pairs().len() as u64,
        sectors: all.len() as u64,
        formats,
        met: meetings(&mut board, &geometry, &table, &written, &on_spare)?,
        marks,
    })
}

/// Formats every track that no volume has and that is no spare: no sector of a volume is to notice.
fn formatted(g: &Geometry, board: &mut Board, table: &Table) -> Result<u64, String> {
    let mut formats = 0;
    for head in 0..g.drive_heads() {
        if g.volumes.iter().any(|volume| volume.has_head(head)) {
            continue;
        }
        for cylinder in 0..g.cylinders {
            if table.has_spare(Track::new(cylinder, head as u8)) {
                continue;
            }
            let format = Block {
                cylinder,
                head: head as u8,
                ..block(0x8c, 0)
            };
            let bytes = vec![0xee; board.sector_bytes];
            if board.row(&[format], &[bytes]).0 != 1 {
                return Err("a format fails".to_string());
            }
            formats += 1;
        }
    }
    Ok(formats)
}

/// A mark stops the reads of one sector, or of none where it is that of a bad track, a spare or no volume.
fn marked(draw: &mut Draw, g: &Geometry, board: &mut Board, all: &[Sector]) -> Result<u64, String> {
    let at = (g.marks_at() + draw.below(g.drive_sectors())) as usize;
    board.image[at] = 1;
    let mut stopped = 0;
    for sector in all {
        stopped += (board.row(&[naming(0x81, sector)], &[]).0 == 0) as u64;
    }
    board.image[at] = 0;
    if stopped > 1 {
        return Err(format!("one mark stops {stopped} sectors"));
    }
    Ok(stopped)
}

/// A spare that a volume has is read by its own name: it has what was written by the bad track's.
fn meetings(
    board: &mut Board,
    g: &Geometry,
    table: &Table,
    written: &[(Sector, Vec<u8>)],
    on_spare: &[Sector],
) -> Result<u64, String> {
    let on_track = |sector: &Sector| sector.number % g.sectors_a_track as u32;
    let mut met = 0;
    for (spare, read) in on_spare.iter().zip(board.read(on_spare)?) {
        let mut pairs = table.pairs().iter();
        let bad = pairs.find(|pair| pair.spare == spare.track).map(|p| p.bad);
        let named = written
            .iter()
            .find(|(sector, _)| Some(sector.track) == bad && on_track(sector) == on_track(spare));
        if let Some((_, own)) = named {
            if *own != read {
                return Err(format!(
                    "logical {} of volume {}, on a spare, has not what its bad track has",
                    spare.number, spare.volume
                ));
            }
            met += 1;
        }
    }
    Ok(met)
}

/// The drive with an index, on the side that is asked for; with a fault seeded only the model runs.
pub fn one_drive(crowd: &Crowd, index: u64) -> Result<Tally, String> {
    match crowd.seeded {
        Some(fault) => swept_with(fault, crowd.seed, index),
        None => sweep(crowd.seed, index, &|case| crowd.opponent.run(case)),
    }
}

fn swept_with(fault: Fault, seed: u64, index: u64) -> Result<Tally, String> {
    let faulty = |case: &Case| with_fault(fault, || model_side(case).0);
    catch_unwind(AssertUnwindSafe(|| sweep(seed, index, &faulty)))
        .unwrap_or_else(|_| Err("the model panics".to_string()))
}

/// Whether the model with a fault is caught on the drive with an index. No other side is asked.
pub fn catches(crowd: &Crowd, fault: Fault, index: u64) -> bool {
    swept_with(fault, crowd.seed, index).is_err()
}

/// All drives: what was tried on them, or the first on which something is wrong.
pub fn run(crowd: &Crowd, count: u64) -> Result<Tally, (u64, String)> {
    let share = |thread: usize| -> Result<Tally, (u64, String)> {
        let mut tally = Tally::default();
        for index in (thread as u64..count).step_by(crowd.threads) {
            tally.join(&one_drive(crowd, index).map_err(|wrong| (index, wrong))?);
        }
        Ok(tally)
    };
    let mut total = Tally::default();
    let mut first: Option<(u64, String)> = None;
    std::thread::scope(|scope| {
        let threads: Vec<_> = (0..crowd.threads)
            .map(|k| scope.spawn(move || share(k)))
            .collect();
        for thread in threads {
            match thread.join().expect("a sweep does not panic") {
                Ok(tally) => total.join(&tally),
                Err(wrong) if first.as_ref().is_none_or(|found| wrong.0 < found.0) => {
                    first = Some(wrong)
                }
                Err(_) => {}
            }
        }
    });
    first.map_or(Ok(total), Err)
}

/// A drive in words, with the pairs that 85s name on it.
pub fn dump(seed: u64, index: u64) -> String {
    let NamedDrive {
        geometry, pairs, ..
    } = named_drive(&mut drawn(seed, index));
    let mut text = format!("{}\n", geometry_words(&geometry));
    for Pair { bad, spare } in &pairs {
        text += &format!(
            "85 cylinder {} head {}, spare cylinder {} head {}\n",
            bad.cylinder, bad.head, spare.cylinder, spare.head
        );
    }
    text
}
