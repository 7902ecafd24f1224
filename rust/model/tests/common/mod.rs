//! The small drive of the paper, and worlds laid out by hand.
#![allow(dead_code)]

use model::{
    Block, Controller, Geometry, Holder, Order, Pair, Record, Table, Track, Volume, World,
};

pub const UN: u8 = 0x80;
pub const VO: u8 = 0x40;
pub const LK: u8 = 0x20;
pub const XL: u8 = 0x10;
pub const RV: u8 = 0x08;
pub const DE: u8 = 0x04;
pub const IE: u8 = 0x02;

/// The small drive as a UIB.
pub const SMALL_UIB: [u8; 18] = [
    0x00, 0x02, 0x02, 0x01, 0x04, 0x00, 0x00, 0x40, 0x10, 0x20, 0x01, 0x03, 0x00, 0x0a, 0x04, 0x00,
    0x01, 0xff,
];

/// Table 11 as it is printed.
pub const TABLE_11: [u8; 18] = [
    0x00, 0x0a, 0x00, 0x00, 0x40, 0x00, 0x02, 0x00, 0x10, 0x20, 0x01, 0x03, 0x02, 0x84, 0x05, 0x00,
    0x01, 0xff,
];

pub fn small() -> Geometry {
    Geometry {
        cylinders: 10,
        sectors_a_track: 4,
        bytes_a_sector: 64,
        volumes: [
            Volume {
                start_head: 0,
                heads: 2,
            },
            Volume {
                start_head: 2,
                heads: 1,
            },
        ],
        order: Order::ByHead,
    }
}

pub fn ready() -> Record {
    Record {
        initialized: true,
        geometry: small(),
        cylinder: 0,
        table: Table::NONE,
        holder: Holder::Nobody,
    }
}

/// A cylinder and a head over the whole drive.
pub type At = (u16, u8);

pub fn track(at: At) -> Track {
    Track::new(at.0, at.1)
}

/// A table of bad tracks and their spares.
pub fn table(pairs: &[(At, At)]) -> Table {
    Table::saying(pairs.len() as u16, |k| Pair {
        bad: track(pairs[k].0),
        spare: track(pairs[k].1),
    })
}

/// An 85 that names a bad track and its spare.
pub fn remap(options: u8, bad: At, spare: At) -> Block {
    Block {
        cylinder: bad.0,
        head: bad.1,
        sector_count: spare.0,
        buffer_address: spare.1 as u32 * 0x100_0000,
        ..block(0x85, options)
    }
}

pub fn unready() -> Record {
    Record {
        initialized: false,
        ..ready()
    }
}

/// An image of the small drive in which neighbouring sectors differ; all marks good.
pub fn image() -> Vec<u8> {
    let mut image = Vec::new();
    for k in 0..7680usize {
        image.push((k * 7 + k / 64 * 13) as u8);
    }
    image.resize(7800, 0);
    image
}

/// Unit 0 is a small drive, unit 1 is not initialized; the first controller runs.
pub fn world(host_bytes: usize) -> World {
    World {
        controller: Controller::First,
        host: vec![0xee; host_bytes],
        images: [image(), Vec::new()],
        records: [ready(), unready()],
        events: vec![0xdd; 520],
    }
}

pub fn block(command: u8, options: u8) -> Block {
    Block {
        command,
        options,
        status: 0,
        error: 0,
        cylinder: 0,
        head: 0,
        sector: 0,
        sector_count: 0,
        buffer_address: 0,
        memory_type: 0,
        address_modifier: 0,
        interrupt_level: 0,
        normal_vector: 0,
        not_used: 0,
        error_vector: 0,
        linked_block_address: 0,
        link_memory_type: 0,
        link_modifier: 0,
        skew: 0,
        element_count: 0,
    }
}

/// A block aimed at a logical sector.
pub fn logical(command: u8, options: u8, n: u32, count: u16, buffer: u32) -> Block {
    Block {
        cylinder: (n / 65_536) as u16,
        head: (n / 256 % 256) as u8,
        sector: (n % 256) as u8,
        sector_count: count,
        buffer_address: buffer,
        ..block(command, options | XL)
    }
}

/// A block aimed at a cylinder, head and sector.
pub fn physical(command: u8, options: u8, at: (u16, u8, u8), count: u16, buffer: u32) -> Block {
    Block {
        cylinder: at.0,
        head: at.1,
        sector: at.2,
        sector_count: count,
        buffer_address: buffer,
        ..block(command, options)
    }
}

pub fn put(memory: &mut [u8], at: usize, bytes: &[u8]) {
    for (k, byte) in bytes.iter().enumerate() {
        memory[at + k] = *byte;
    }
}

pub fn put_block(world: &mut World, at: usize, block: &Block) {
    put(&mut world.host, at, &block.bytes());
}

pub fn put_element(world: &mut World, at: usize, byte_count: u16, address: u32) {
    put(&mut world.host, at, &byte_count.to_be_bytes());
    put(&mut world.host, at + 2, &address.to_be_bytes());
    put(&mut world.host, at + 6, &[0, 0]);
}

/// The answer of one block at address 0 with no link: 0, or 10 and up.
pub fn one(world: &mut World, block: &Block) -> u8 {
    put_block(world, 0, block);
    let outcome = model::run(world, 0, 1);
    assert_eq!(outcome.blocks, 1);
    match outcome.answer {
        0 => assert_eq!(outcome.failed, 0),
        4 => assert!(outcome.failed >= 10),
        other => panic!("answer {}", other),
    }
    outcome.failed
}

pub fn event(world: &World, k: usize) -> &[u8] {
    &world.events[8 * (k - 1)..8 * k]
}

pub fn travel(world: &World, k: usize) -> i32 {
    let e = event(world, k);
    i32::from_be_bytes([e[4], e[5], e[6], e[7]])
}
