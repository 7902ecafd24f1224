//! The checks 10 to 19 and 22 to 24 on a block that has been copied out. Nothing is stored here: a list and
//! a UIB are read as they stand before the block's word 1 changes.

use crate::answers::passed;
use crate::block::{in_memory, odd, Block, Element, ELEMENT_BYTES};
use crate::faults::{seeded, Fault};
use crate::geometry::{Address, Geometry, Record, UIB_BYTES};
use crate::order::Order;
use crate::run::World;
use crate::spares::{Pair, Track};

/// The commands that are included, that of paper 02 among them.
pub const COMMANDS: [u8; 10] = [0x81, 0x82, 0x85, 0x86, 0x87, 0x89, 0x8a, 0x8c, 0xa1, 0xa2];

// The column "Commands" of the table of block answers, a line each; "for 85 the checks 11 and 16", and 24
// "not for 86".
const ASKED_24: [u8; 9] = [0x81, 0x82, 0x85, 0x87, 0x89, 0x8a, 0x8c, 0xa1, 0xa2];
const ASKED_11: [u8; 8] = [0x81, 0x82, 0x85, 0x89, 0x8a, 0x8c, 0xa1, 0xa2];
const ASKED_12_AND_13: [u8; 1] = [0x87];
const ASKED_14: [u8; 5] = [0x81, 0x82, 0x8a, 0xa1, 0xa2];
const ASKED_15: [u8; 4] = [0x81, 0x82, 0xa1, 0xa2];
const ASKED_16: [u8; 7] = [0x81, 0x82, 0x85, 0x8a, 0x8c, 0xa1, 0xa2];
const ASKED_17: [u8; 5] = [0x81, 0x82, 0x8c, 0xa1, 0xa2];
const ASKED_18: [u8; 2] = [0xa1, 0xa2];
const ASKED_19: [u8; 5] = [0x81, 0x82, 0x8c, 0xa1, 0xa2];
const ASKED_22_AND_23: [u8; 1] = [0x85];

const MOST_ELEMENTS: u8 = 64;

/// A range of host memory that data come from or go to.
#[derive(Clone, Copy, Debug, PartialEq, Eq)]
pub(crate) struct Piece {
    pub address: u32,
    pub bytes: u64,
}

/// What the checks have read and found, for a block that is accepted.
#[derive(Clone, Debug, PartialEq, Eq)]
pub(crate) struct Accepted {
    pub uib: Option<Geometry>,
    /// For 81, 82, 8A, A1 and A2 the logical number of the (first) sector.
    pub first: Option<u64>,
    pub pieces: Vec<Piece>,
    /// For 85 what is added to the table.
    pub pair: Option<Pair>,
}

/// The checks in order; the first that fails gives the answer.
pub(crate) fn judge(world: &World, block: &Block) -> Result<Accepted, u8> {
    let command = block.command;
    let unit = block.unit() as usize;
    let record = world.records[unit];
    let geometry = record.geometry;
    let mut accepted = Accepted {
        uib: None,
        first: None,
        pieces: Vec::new(),
        pair: None,
    };

    first_checks(world, block, &record)?;
    if ASKED_12_AND_13.contains(&command) {
        let uib = match read_uib(&world.host, block.buffer_address) {
            Some(uib) => Geometry::from_uib(&uib),
            None => return Err(12),
        };
        if !uib.within_limits() {
            return Err(13);
        }
        accepted.uib = Some(uib);
    }
    // the fault asks for the count before the volume
    if seeded(Fault::CountBeforeVolume) && ASKED_15.contains(&command) && block.sector_count == 0 {
        return Err(15);
    }
    if ASKED_14.contains(&command) && !geometry.volume_present(block.volume()) {
        return Err(14);
    }
    if ASKED_15.contains(&command) && block.sector_count == 0 {
        return Err(15);
    }
    // the fault looks into the table before it looks at the drive
    if seeded(Fault::TakenBefore16) && command == 0x85 {
        room_for(&record, &named_pair(&geometry, block))?;
    }
    if ASKED_16.contains(&command) {
        accepted.first = aimed_at(&record, block)?;
    }
    let need = if seeded(Fault::ImageOneByteShort) {
        // the mark of the last sector may be missing
        geometry.need().saturating_sub(1)
    } else {
        geometry.need()
    };
    // the fault asks it of 85 too
    let asked_17 = ASKED_17.contains(&command) || seeded(Fault::RemapAsked17) && command == 0x85;
    if asked_17 && (world.images[unit].len() as u64) < need {
        return Err(17);
    }
    if ASKED_19.contains(&command) {
        accepted.pieces = pieces(&world.host, &geometry, block)?;
    }
    if ASKED_22_AND_23.contains(&command) {
        let pair = named_pair(&geometry, block);
        room_for(&record, &pair)?;
        accepted.pair = Some(pair);
    }
    Ok(accepted)
}

/// Checks 10, 24 and 11. "24 drive held, directly after 10 .., not for 86": a record that counts as not
/// initialized has a holder too.
fn first_checks(world: &World, block: &Block, record: &Record) -> Result<(), u8> {
    let command = block.command;
    let held = record.holder.is_other_than(world.controller);
    // the fault looks at the drive before it looks at the command
    if seeded(Fault::HeldBefore10) && held && command != 0x86 {
        return Err(24);
    }
    // the fault is the board before 85 came
    let left_out = seeded(Fault::RemapUnlisted) && command == 0x85;
    if !COMMANDS.contains(&command) || left_out {
        return Err(10);
    }
    if held && asked_24(command) && !seeded(Fault::HeldAfter11) {
        return Err(24);
    }
    if ASKED_11.contains(&command) && !record.counts_as_initialized() {
        return Err(11);
    }
    // where the fault comes to it: of an 87, and of units that are initialized
    if held && asked_24(command) {
        return Err(24);
    }
    Ok(())
}

fn asked_24(command: u8) -> bool {
    if seeded(Fault::HandshakeRefused) && command == 0x86 {
        // every command
        return true;
    }
    if seeded(Fault::InitializeExempt) && command == 0x87 {
        // as it is exempt from 11
        return false;
    }
    ASKED_24.contains(&command)
}

/// Checks 18 and 19: the ranges of host memory that the data come from or go to. Only a list has
/// several.
fn pieces(host: &[u8], geometry: &Geometry, block: &Block) -> Result<Vec<Piece>, u8> {
    let bytes = data_bytes(geometry, block);
    let pieces = if ASKED_18.contains(&block.command) {
        read_list(host, block, bytes).ok_or(18)?
    } else {
        vec![Piece {
            address: block.buffer_address,
            bytes,
        }]
    };
    for piece in &pieces {
        // the fault does not look whether the address is odd
        if odd(piece.address) && !seeded(Fault::OddDataAddress) {
            return Err(19);
        }
        if !in_memory(host, piece.address as u64, piece.bytes) {
            return Err(19);
        }
    }
    Ok(pieces)
}

/// The two tracks of an 85. They are "physical over the whole drive", so VO has no say.
fn named_pair(geometry: &Geometry, block: &Block) -> Pair {
    let mut pair = block.pair();
    if seeded(Fault::RemapHeadsInVolume) {
        // as the head of a transfer is counted
        let start_head = geometry.volumes[block.volume() as usize].start_head;
        pair.bad.head = pair.bad.head.wrapping_add(start_head);
        pair.spare.head = pair.spare.head.wrapping_add(start_head);
    }
    pair
}

/// "then 22 if the tracks are equal or either is in the table already, then 23 if 32 pairs stand"
fn room_for(record: &Record, pair: &Pair) -> Result<(), u8> {
    if seeded(Fault::FullBeforeTaken) && record.table.full() {
        // the other way round
        return Err(23);
    }
    if record.table.taken(pair).is_some() {
        return Err(22);
    }
    if record.table.full() {
        return Err(23);
    }
    Ok(())
}

/// The UIB's bytes; None where its address is odd or it is not wholly in host memory.
fn read_uib(host: &[u8], address: u32) -> Option<[u8; UIB_BYTES]> {
    if odd(address) || !in_memory(host, address as u64, UIB_BYTES as u64) {
        return None;
    }
    let mut uib = [0; UIB_BYTES];
    for k in 0..UIB_BYTES {
        uib[k] = host[address as usize + k];
    }
    Some(uib)
}

/// How many bytes of host memory a transfer has to do with: count × B, and B for 8C, which
/// ignores the count.
pub(crate) fn data_bytes(geometry: &Geometry, block: &Block) -> u64 {
    let b = geometry.bytes_a_sector as u64;
    if block.command == 0x8c {
        b
    } else {
        block.sector_count as u64 * b
    }
}

/// Check 16, which goes by the address that is named, whatever track serves it. The first sector's
/// number, where the block names a sector.
fn aimed_at(record: &Record, block: &Block) -> Result<Option<u64>, u8> {
    let geometry = &record.geometry;
    let pair = named_pair(geometry, block);
    let named = Track::new(block.cylinder, block.head);
    let (inside, first) = match block.command {
        // "16 (either track)"
        0x85 => (pair.bad.on(geometry) && pair.spare.on(geometry), None),
        // "its head is counted over the whole drive, 0 to H − 1"
        0x8c => (named.on(geometry) && !refused_spare(record, named), None),
        _ => {
            let first = first_sector(record, block);
            (first.is_some(), first)
        }
    };
    if inside {
        Ok(first)
    } else {
        Err(16)
    }
}

/// Whether a fault refuses a track for being a spare.
fn refused_spare(record: &Record, named: Track) -> bool {
    seeded(Fault::SpareRefused) && record.table.has_spare(named)
}

/// The number of the first sector; None where check 16 fails.
pub(crate) fn first_sector(record: &Record, block: &Block) -> Option<u64> {
    let geometry = &record.geometry;
    let volume = block.volume();
    let first = first_number(geometry, block)?;
    // "8A: the one address only". "Testing only the first sector of a transfer" is easy to get
    // wrong, and is the fault; the count of a transfer is not 0 here.
    let one = block.command == 0x8a || seeded(Fault::FirstSectorAlone);
    let count = if one { 1 } else { block.sector_count as u64 };
    if first + count > geometry.volume_sectors(volume) {
        return None;
    }
    let found = record.find(volume, first)?;
    if refused_spare(record, found.named) {
        return None;
    }
    if seeded(Fault::SpareJudgedBy16) {
        // the spare has to be in the volume too
        let volume = geometry.volume(volume)?;
        return volume.has_head(found.track.head as u64).then_some(first);
    }
    Some(first)
}

/// The first sector's number, logical or physical. A physical address is judged part by part: a head
/// or a sector that is too large is not carried into the next part.
fn first_number(geometry: &Geometry, block: &Block) -> Option<u64> {
    if block.logical() {
        return Some(block.logical_sector() as u64);
    }
    aimed_by(geometry, block).logical(
        block.volume(),
        Address {
            cylinder: block.cylinder as u64,
            head: block.head as u64,
            sector: block.sector as u64,
        },
    )
}

/// The geometry by whose order a block's sectors are counted: the drive's.
pub(crate) fn aimed_by(geometry: &Geometry, block: &Block) -> Geometry {
    let mut aimed_by = *geometry;
    if seeded(Fault::SeekByHead) && block.command == 0x8a {
        // nothing is moved, so no order is looked for
        aimed_by.order = Order::ByHead;
    }
    aimed_by
}

/// Whether a list is one that is read: "a list of 1 to 64 elements that lies at an even address
/// and in memory". The count is looked at before anything is filled.
fn list_can_be_read(host: &[u8], block: &Block) -> bool {
    let most = if seeded(Fault::ListOf65) {
        // a bound off by one
        MOST_ELEMENTS + 1
    } else {
        MOST_ELEMENTS
    };
    1 <= block.element_count
        && block.element_count <= most
        && !odd(block.buffer_address)
        && in_memory(host, block.buffer_address as u64, list_bytes(block))
}

pub(crate) fn list_bytes(block: &Block) -> u64 {
    block.element_count as u64 * ELEMENT_BYTES as u64
}

/// Whether the block's list was read, its answer being known: "once checks 10 to 17 are passed".
pub(crate) fn list_was_read(host: &[u8], block: &Block, answer: u8) -> bool {
    ASKED_18.contains(&block.command) && passed(17, answer) && list_can_be_read(host, block)
}

/// The pieces of the list in list order; None where check 18 fails.
fn read_list(host: &[u8], block: &Block, wanted: u64) -> Option<Vec<Piece>> {
    if !list_can_be_read(host, block) {
        return None;
    }
    let mut pieces = Vec::new();
    let mut sum = 0;
    for k in 0..block.element_count as u64 {
        let element = Element::read(host, block.buffer_address as u64 + k * ELEMENT_BYTES as u64)?;
        // the fault looks at the sum alone
        let odd_count = element.byte_count % 2 != 0 && !seeded(Fault::OddByteCounts);
        if element.byte_count == 0 || odd_count {
            return None;
        }
        sum += element.byte_count as u64;
        pieces.push(Piece {
            address: element.address,
            bytes: element.byte_count as u64,
        });
    }
    if sum != wanted {
        return None;
    }
    Some(pieces)
}
