//! What a table of bad tracks costs: the library beside itself, on records without pairs, with 32 pairs
//! that no block comes to, and with 32 pairs of which every second track of the way has one.

use crate::{library, median, run, Blocks, Stretch, World};
use crate::{BLOCK_STEP, COMMANDS, COUNTS, DRIVE, ROUNDS};
use std::hint::black_box;
use std::time::Instant;
use vsmd3200::{Pair, Record, Track, PAIRS_MOST};

/// The way: 64 tracks from the start of the drive. A block of one sector, or of 16, that is run again
/// and again is on the second of them.
const WAY: Stretch = Stretch {
    sectors: 64 * DRIVE.sectors_a_track,
    first: DRIVE.sectors_a_track + 40,
};

/// Where the spares of the way stand, and where the pairs that no block comes to.
const SPARES: usize = 64;
const ELSEWHERE: usize = 100;

/// The seeks of a chain.
const SEEKS: usize = 64;

/// The tracks of a pair, counted from the start of the drive.
type Tracks = (usize, usize);

#[derive(Clone, Copy)]
enum Table {
    None,
    Elsewhere,
    EverySecond,
}

const TABLES: [Table; 3] = [Table::None, Table::Elsewhere, Table::EverySecond];

impl Table {
    fn tracks(self) -> Vec<Tracks> {
        let pairs = 0..PAIRS_MOST;
        match self {
            Table::None => Vec::new(),
            Table::Elsewhere => pairs
                .map(|k| (ELSEWHERE + k, ELSEWHERE + PAIRS_MOST + k))
                .collect(),
            Table::EverySecond => pairs.map(|k| (2 * k + 1, SPARES + k)).collect(),
        }
    }

    fn put(self, record: &Record) -> Record {
        let track = |number: usize| Track {
            cylinder: (number / DRIVE.heads) as u16,
            head: (number % DRIVE.heads) as u8,
        };
        let tracks = self.tracks();
        let pairs = tracks.iter().map(|(bad, spare)| Pair {
            bad: track(*bad),
            spare: track(*spare),
        });
        let pairs: Vec<Pair> = pairs.collect();
        record.with_pairs(&pairs).expect("no more than have room")
    }
}

/// The same world with a table. What stands on a bad track stands on its spare then, and the other
/// way round, so that the same sectors have the same bytes.
fn with_table(world: &World, table: Table) -> World {
    let mut world = world.clone();
    world.records[0] = table.put(&world.records[0]);
    exchange(&mut world.image, table);
    world
}

fn exchange(image: &mut [u8], table: Table) {
    let a_track = DRIVE.sectors_a_track * DRIVE.bytes_a_sector;
    for (bad, spare) in table.tracks() {
        for k in 0..a_track {
            image.swap(bad * a_track + k, spare * a_track + k);
        }
    }
}

/// Each of them moves as many sectors and leaves the same host memory, and the same image but for the
/// tracks that were exchanged.
fn assert_alike(worlds: &[World; 3]) {
    let mut left = worlds.clone();
    let mut moved = [0; 3];
    for (k, world) in left.iter_mut().enumerate() {
        for block in 0..world.blocks {
            moved[k] += library(world, BLOCK_STEP * block);
        }
        exchange(&mut world.image, TABLES[k]);
    }
    let [none, others @ ..] = &left;
    for other in others {
        assert!(none.host == other.host, "a table changes what is moved");
        assert!(none.image == other.image, "a table changes what is left");
    }
    assert!(moved.iter().all(|sectors| *sectors == moved[0]));
}

/// The nanoseconds of a turn's work in each world, the median of the rounds; who follows whom changes
/// from round to round.
fn measure(worlds: &mut [World; 3], work: impl Fn(&mut World) -> usize) -> [f64; 3] {
    let mut times = [const { Vec::new() }; 3];
    for round in 0..ROUNDS {
        for turn in 0..worlds.len() {
            let k = (round + turn * (1 + round % 2)) % worlds.len();
            let start = Instant::now();
            let calls = work(black_box(&mut worlds[k]));
            times[k].push(start.elapsed().as_nanos() as f64 / calls as f64);
        }
    }
    times.map(median)
}

/// All blocks of a turn; how many calls that were.
fn blocks(world: &mut World) -> usize {
    for _ in 0..world.times_each {
        for block in 0..world.blocks {
            library(world, BLOCK_STEP * block);
        }
    }
    world.times_each * world.blocks
}

/// A chain of seeks in place of the world's blocks, each to another track of the way.
fn lay_seeks(world: &mut World) {
    for k in 0..SEEKS {
        let number = k * 13 % 64 * DRIVE.sectors_a_track + k;
        let next = BLOCK_STEP * (k + 1);
        let block = &mut world.host[BLOCK_STEP * k..next];
        block.fill(0);
        block[0] = 0x8a;
        // XL, and LK but for the last
        block[1] = if k + 1 < SEEKS { 0x30 } else { 0x10 };
        block[4..8].copy_from_slice(&(number as u32).to_be_bytes());
        block[20..24].copy_from_slice(&(next as u32).to_be_bytes());
    }
}

fn seeks(world: &mut World) -> usize {
    run(world, 0, SEEKS as u32);
    1
}

fn print_times(times: [f64; 3]) {
    let [none, elsewhere, every_second] = times;
    print!(
        "{none:9.0} ns{:11.2}{:14.2}",
        elsewhere / none,
        every_second / none
    );
}

pub fn tell() {
    println!("\n32 pairs in the table beside none: no block comes to them, or every second track has one");
    println!(
        "{:>50}{:>37}",
        "the same block again", "other sectors each time"
    );
    print!("{:>7}{:>6}", "command", "count");
    for _ in 0..2 {
        print!("{:>12}{:>11}{:>14}", "none", "/elsewhere", "/every second");
    }
    println!();
    for command in COMMANDS {
        for count in COUNTS {
            print!("{command:7x}{count:6}");
            for kind in [Blocks::One, Blocks::Many] {
                let world = World::new(command, count, kind, WAY);
                let mut worlds = TABLES.map(|table| with_table(&world, table));
                assert_alike(&worlds);
                print_times(measure(&mut worlds, blocks));
            }
            println!();
        }
    }
    let mut world = World::new(COMMANDS[0], COUNTS[0], Blocks::One, WAY);
    lay_seeks(&mut world);
    let mut worlds = TABLES.map(|table| with_table(&world, table));
    print!("{:>13}", format!("{SEEKS} seeks"));
    print_times(measure(&mut worlds, seeks));
    println!();
}
