//! What the library takes to run, as ratios to a plain program that makes the same transfers: on
//! the same buffers, in one process and turn by turn, so that both see the same machine.

mod orders;
mod plain;
mod tables;

use plain::Drive;
use std::hint::black_box;
use std::time::Instant;
use vsmd3200::{Geometry, Order, Record, RunAnswer, Volume, EVENTS_LEN_LEAST};

/// The tracks of the manual's Table 11, on so few cylinders that an image is soon filled.
const DRIVE: Drive = Drive {
    cylinders: 20,
    heads: 10,
    sectors_a_track: 64,
    bytes_a_sector: 512,
};

const COMMANDS: [u8; 2] = [0x82, 0x81];
const COUNTS: [u16; 3] = [1, 16, 1000];

const ROUNDS: usize = 501;
/// The sectors that a way moves in its turn of a round: long against the clock, short against
/// whatever else the machine does.
const SECTORS_A_TURN: usize = 4096;

/// Where the data begin, after as many blocks as a turn has.
const BLOCK_STEP: usize = 32;
const DATA: usize = BLOCK_STEP * SECTORS_A_TURN;

/// Which blocks a turn runs.
#[derive(Clone, Copy, PartialEq)]
enum Blocks {
    /// One again and again: all that it touches is in the nearest cache.
    One,
    /// Each other sectors and other data, far apart.
    Many,
}

/// All that a turn works on.
#[derive(Clone)]
struct World {
    host: Vec<u8>,
    image: Vec<u8>,
    events: [u8; EVENTS_LEN_LEAST],
    records: [Record; 2],
    /// The same geometry for the plain program, which is not to be compiled for this one alone.
    drive: Drive,
    blocks: usize,
    times_each: usize,
}

/// The sectors that the blocks of a world go to: how many from the start of the drive, and which the
/// first block has.
#[derive(Clone, Copy)]
struct Stretch {
    sectors: usize,
    first: usize,
}

impl World {
    fn new(command: u8, count: u16, kind: Blocks, stretch: Stretch) -> World {
        World::on(DRIVE, command, count, kind, stretch)
    }

    /// Every byte is stored here once, so that no page is there in name only. After that nothing
    /// is cleared or flushed: a turn finds memory and caches as the turn before left them.
    fn on(drive: Drive, command: u8, count: u16, kind: Blocks, stretch: Stretch) -> World {
        let calls = SECTORS_A_TURN / usize::from(count);
        let blocks = if kind == Blocks::One { 1 } else { calls };
        let filled = |len: usize, step: usize| (0..len).map(|k| (k * step) as u8).collect();
        let mut world = World {
            host: filled(DATA + SECTORS_A_TURN * drive.bytes_a_sector, 7),
            image: filled(drive.image_len(), 13),
            events: [0; EVENTS_LEN_LEAST],
            records: [record(&drive), Record::UNINITIALIZED],
            drive: black_box(drive),
            blocks,
            times_each: calls / blocks,
        };
        world.image[drive.marks_at()..].fill(0);
        for k in 0..blocks {
            world.lay(k, command, count, stretch);
        }
        world
    }

    /// The k-th block. The steps are odd, so that no two blocks have the same data.
    fn lay(&mut self, k: usize, command: u8, count: u16, stretch: Stretch) {
        let len = usize::from(count);
        let number = (k * 3001 * len + stretch.first) % (stretch.sectors - len);
        let slot = k * 29 % self.blocks;
        let data = DATA + slot * len * self.drive.bytes_a_sector;
        let block = &mut self.host[BLOCK_STEP * k..BLOCK_STEP * (k + 1)];
        block.fill(0);
        block[0] = command;
        block[1] = 0x10; // XL: a logical sector number
        block[4..8].copy_from_slice(&(number as u32).to_be_bytes());
        block[8..10].copy_from_slice(&count.to_be_bytes());
        block[10..14].copy_from_slice(&(data as u32).to_be_bytes());
    }
}

fn record(drive: &Drive) -> Record {
    let all = Volume {
        start_head: 0,
        heads: drive.heads as u8,
    };
    let geometry = Geometry {
        cylinders: drive.cylinders as u16,
        sectors_a_track: drive.sectors_a_track as u16,
        bytes_a_sector: drive.bytes_a_sector as u16,
        volumes: [all, Volume::default()],
        order: Order::ByHead,
    };
    Record::from_parts(true, geometry, 0)
}

/// A way to do the block at an address. It answers with the sectors moved.
type Way = fn(&mut World, usize) -> usize;

/// Runs a chain from the block at an address on, to its end.
fn run(world: &mut World, at: usize, allowance: u32) -> usize {
    let outcome = vsmd3200::run(
        &mut world.host,
        &mut world.image,
        &mut [],
        &mut world.events,
        &mut world.records,
        at as u32,
        allowance,
    );
    let ran = matches!(outcome.answer, RunAnswer::Done | RunAnswer::BlockFailed);
    assert!(ran && outcome.blocks == allowance, "blocks that are there");
    outcome.sectors as usize
}

fn library(world: &mut World, at: usize) -> usize {
    run(world, at, 1)
}

fn by_sector(world: &mut World, at: usize) -> usize {
    plain::by_sector(&mut world.host, &mut world.image, &world.drive, at)
        .expect("a block that fits")
}

fn by_track(world: &mut World, at: usize) -> usize {
    plain::by_track(&mut world.host, &mut world.image, &world.drive, at).expect("a block that fits")
}

const WAYS: [Way; 3] = [library, by_sector, by_track];

/// What is measured has to be the same work: from the same world every way moves as many sectors
/// and leaves the same host memory and the same image. Every 30th sector is unreadable where
/// marks are asked for.
fn assert_alike(world: &World, marks: bool) {
    let left = WAYS.map(|way| {
        let mut world = world.clone();
        if marks {
            let all = world.image[DRIVE.marks_at()..].iter_mut();
            all.step_by(30).for_each(|mark| *mark = 1);
        }
        let moved: usize = (0..world.blocks)
            .map(|k| way(&mut world, BLOCK_STEP * k))
            .sum();
        (moved, world.host, world.image)
    });
    let [library, by_sector, by_track] = &left;
    assert!(library == by_sector, "the plain program by sectors differs");
    assert!(library == by_track, "the plain program by tracks differs");
}

/// The nanoseconds of a block in each way, the median of the rounds.
fn measure(world: &mut World, count: u16) -> [f64; 3] {
    let mut times = [const { Vec::new() }; 3];
    for round in 0..ROUNDS {
        for turn in 0..WAYS.len() {
            // so each way follows each other one as often
            let k = (round + turn * (1 + round % 2)) % WAYS.len();
            let start = Instant::now();
            for _ in 0..world.times_each {
                for block in 0..world.blocks {
                    let moved = WAYS[k](black_box(world), BLOCK_STEP * block);
                    assert!(moved == usize::from(count), "a transfer was cut short");
                }
            }
            let calls = world.times_each * world.blocks;
            times[k].push(start.elapsed().as_nanos() as f64 / calls as f64);
        }
    }
    times.map(median)
}

fn median(mut times: Vec<f64>) -> f64 {
    times.sort_by(f64::total_cmp);
    times[times.len() / 2]
}

fn main() {
    println!("sectors of 512 bytes; library/plain of the medians of {ROUNDS} rounds");
    println!("                the same block again            other sectors each time");
    println!("command count   library  /by sector  /by track  library  /by sector  /by track");
    for command in COMMANDS {
        for count in COUNTS {
            print!("{command:7x}{count:6}");
            for kind in [Blocks::One, Blocks::Many] {
                let whole = Stretch {
                    sectors: DRIVE.sectors(),
                    first: 40,
                };
                let mut world = World::new(command, count, kind, whole);
                assert_alike(&world, false);
                assert_alike(&world, true);
                let [library, sector, track] = measure(&mut world, count);
                print!(
                    "{library:8.0} ns{:12.2}{:11.2}",
                    library / sector,
                    library / track
                );
            }
            println!();
        }
    }
    tables::tell();
    orders::tell();
}
