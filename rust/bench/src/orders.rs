//! What the order of tracks costs, and what a run of sectors a track does: the library beside itself, on the
//! same drive by head and by cylinder, and on drives with tracks of another length.

use crate::plain::Drive;
use crate::{library, median, Blocks, Stretch, World};
use crate::{BLOCK_STEP, COMMANDS, COUNTS, DRIVE, ROUNDS};
use std::hint::black_box;
use std::time::Instant;
use vsmd3200::{Geometry, Order, Record};

/// As many sectors as `DRIVE` has, or nearly so, on the longest tracks that there are.
const LONG_TRACKS: Drive = Drive {
    cylinders: 5,
    sectors_a_track: 255,
    ..DRIVE
};

/// The sectors of the one block that reads over tracks of either length, and how many bytes they have: with
/// few bytes to copy in each, more is seen of what a run costs.
const READ: u16 = 1000;
const SECTOR_BYTES: [usize; 2] = [64, 512];

/// Where a track stands in the image that a drive by head has at this number, if the drive is by cylinder.
fn by_cylinder(track: usize) -> usize {
    let (cylinder, head) = (track % DRIVE.cylinders, track / DRIVE.cylinders);
    cylinder * DRIVE.heads + head
}

/// The image with its tracks put elsewhere; marks are all the same.
fn rearranged(image: &[u8], to: impl Fn(usize) -> (usize, usize)) -> Vec<u8> {
    let a_track = DRIVE.sectors_a_track * DRIVE.bytes_a_sector;
    let mut left = image.to_vec();
    for track in 0..DRIVE.cylinders * DRIVE.heads {
        let (from, to) = to(track);
        let bytes = &image[from * a_track..][..a_track];
        left[to * a_track..][..a_track].copy_from_slice(bytes);
    }
    left
}

/// The same world by cylinder. Tracks are put where that order looks for them, so that each number has the
/// same bytes.
fn reordered(world: &World) -> World {
    let mut world = world.clone();
    let geometry = Geometry {
        order: Order::ByCylinder,
        ..world.records[0].geometry()
    };
    world.records[0] = Record::from_parts(true, geometry, 0);
    world.image = rearranged(&world.image, |track| (track, by_cylinder(track)));
    world
}

/// Both move as many sectors and leave the same host memory, and the same image but for where its tracks are.
fn assert_alike(worlds: &[World; 2], count: u16) {
    let mut left = worlds.clone();
    for world in &mut left {
        for block in 0..world.blocks {
            let moved = library(world, BLOCK_STEP * block);
            assert!(moved == usize::from(count), "a transfer was cut short");
        }
    }
    let [by_head, other] = &left;
    let back = rearranged(&other.image, |track| (by_cylinder(track), track));
    assert!(
        by_head.host == other.host,
        "the order changes what is moved"
    );
    assert!(by_head.image == back, "the order changes what is left");
}

/// The nanoseconds of a block in each of two worlds, the median of the rounds; each is first as often.
fn measure(worlds: &mut [World; 2], count: u16) -> [f64; 2] {
    let mut times = [const { Vec::new() }; 2];
    for round in 0..ROUNDS {
        for turn in 0..2 {
            let k = (round + turn) % 2;
            let world = black_box(&mut worlds[k]);
            let start = Instant::now();
            for _ in 0..world.times_each {
                for block in 0..world.blocks {
                    let moved = library(world, BLOCK_STEP * block);
                    assert!(moved == usize::from(count), "a transfer was cut short");
                }
            }
            let calls = world.times_each * world.blocks;
            times[k].push(start.elapsed().as_nanos() as f64 / calls as f64);
        }
    }
    times.map(median)
}

pub fn tell() {
    println!("\na drive by cylinder beside the same by head");
    println!(
        "{:>37}{:>27}",
        "the same block again", "other sectors each time"
    );
    print!("{:>7}{:>6}", "command", "count");
    for _ in 0..2 {
        print!("{:>12}{:>14}", "by head", "/by cylinder");
    }
    println!();
    for command in COMMANDS {
        for count in COUNTS {
            print!("{command:7x}{count:6}");
            for kind in [Blocks::One, Blocks::Many] {
                let whole = Stretch {
                    sectors: DRIVE.sectors(),
                    first: 40,
                };
                let world = World::new(command, count, kind, whole);
                let other = reordered(&world);
                let mut worlds = [world, other];
                assert_alike(&worlds, count);
                let [by_head, by_cylinder] = measure(&mut worlds, count);
                print!("{by_head:9.0} ns{:14.2}", by_cylinder / by_head);
            }
            println!();
        }
    }
    tell_runs();
}

/// One block again and again over tracks of 255 sectors and of 64: what is between the two is what the
/// shorter runs cost, and so the most that runs longer than a track could gain.
fn tell_runs() {
    println!("\n81 of {READ} sectors, the same block again, by the sectors that a track has");
    println!("{:>13}{:>12}{:>14}", "bytes", "255", "64 /255");
    for bytes_a_sector in SECTOR_BYTES {
        let mut worlds = [LONG_TRACKS, DRIVE].map(|drive| {
            let drive = Drive {
                bytes_a_sector,
                ..drive
            };
            let from_the_start = Stretch {
                sectors: drive.sectors(),
                first: 0,
            };
            World::on(drive, 0x81, READ, Blocks::One, from_the_start)
        });
        let [long, short] = measure(&mut worlds, READ);
        println!("{bytes_a_sector:13}{long:9.0} ns{:14.2}", short / long);
    }
}
