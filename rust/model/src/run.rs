//! The run of a chain of blocks.

use crate::block::Block;
use crate::errors::error_byte;
use crate::faults::{seeded, Fault};
use crate::footprint::Fetched;
use crate::geometry::{Found, Geometry, Record};
use crate::holders::{Controller, Holder};
use crate::judge::{aimed_by, judge, Accepted, Piece};
use crate::spares::{Table, Track};
use crate::trace::{visit_after, visit_before, Past, Trace, Visit};

/// Everything a run is handed and hands back: the controller that runs it, with a host memory and events
/// of its own, and the drives, which two controllers can share.
#[derive(Clone, Debug, PartialEq, Eq)]
pub struct World {
    pub controller: Controller,
    pub host: Vec<u8>,
    pub images: [Vec<u8>; 2],
    pub records: [Record; 2],
    pub events: Vec<u8>,
}

/// What a run returns beside the world.
#[derive(Clone, Copy, Debug, PartialEq, Eq)]
pub struct Outcome {
    pub answer: u8,
    /// With answer 4 the failed block's answer number, otherwise 0.
    pub failed: u8,
    pub blocks: u32,
    pub sectors: u32,
}

pub const LEAST_EVENT_BYTES: usize = 512;
pub const MOST_ALLOWANCE: u32 = 64;

/// Words 2 to 7 that 86 writes: "this board's own identity".
const IDENTITY: [u16; 6] = [0x3200, 0x0103, 0x0000, 0x0611, 0x07c3, 0x0000];

/// How an accepted block went, or a refused one.
#[derive(Clone, Copy, Debug, PartialEq, Eq)]
pub(crate) struct Done {
    /// 0 for status 80.
    pub answer: u8,
    pub sectors: u16,
    pub travel: i32,
    /// The cylinder of the last sector tried, for 81, 82, A1 and A2.
    pub tried_cylinder: u64,
    pub moved_unreadable: bool,
}

const NOTHING_MOVED: Done = Done {
    answer: 0,
    sectors: 0,
    travel: 0,
    tried_cylinder: 0,
    moved_unreadable: false,
};

/// A run, changing the world in place.
pub fn run(world: &mut World, first: u32, allowance: u32) -> Outcome {
    run_traced(world, first, allowance).0
}

/// A run, with what happened at each block.
pub fn run_traced(world: &mut World, first: u32, allowance: u32) -> (Outcome, Trace) {
    // "Checks 1, 2, 3 in that order"
    let least = if seeded(Fault::EventsOneByteLess) {
        // a bound off by one
        LEAST_EVENT_BYTES - 1
    } else {
        LEAST_EVENT_BYTES
    };
    if world.events.len() < least {
        return refused(1);
    }
    if allowance == 0 || allowance > MOST_ALLOWANCE {
        return refused(2);
    }
    match Block::read(&world.host, first) {
        Some(block) => run_chain(world, first, block, allowance),
        None => refused(3),
    }
}

/// "all unchanged, counts 0"
fn refused(answer: u8) -> (Outcome, Trace) {
    let outcome = Outcome {
        answer,
        failed: 0,
        blocks: 0,
        sectors: 0,
    };
    (outcome, Trace::default())
}

fn run_chain(
    world: &mut World,
    first: u32,
    first_block: Block,
    allowance: u32,
) -> (Outcome, Trace) {
    let mut chain = Chain {
        past: Past::new(&world.host),
        tables: [world.records[0].table, world.records[1].table],
        world,
    };
    let mut trace = Trace::of(chain.world.controller);
    let mut outcome = Outcome {
        answer: 0,
        failed: 0,
        blocks: 0,
        sectors: 0,
    };
    let mut at = first;
    let mut block = first_block;
    let mut left = if seeded(Fault::AllowanceOneMore) {
        // a fetch that spends nothing
        allowance + 1
    } else {
        allowance
    };
    loop {
        // "Each fetch spends one of the allowance; a block fetched is a block run, refused or not."
        left -= 1;
        outcome.blocks += 1;
        let (visit, fetched) = chain.run_block(outcome.blocks, at, &block);
        trace.blocks.push(visit);
        trace.fetched.push(fetched);
        outcome.sectors += visit.sectors as u32;
        if visit.answer != 0 {
            // "A failed block's link isn't followed."
            outcome.answer = 4;
            outcome.failed = visit.answer;
            // the fault goes on where the failed block has a link
            if !(seeded(Fault::FailedLinkFollowed) && block.link()) {
                return (outcome, trace);
            }
        }
        if !block.link() {
            outcome.answer = 0;
            return (outcome, trace);
        }
        // "6 before 5"; the fault looks at the link first
        let link_bad = Block::read(&chain.world.host, block.linked_block_address).is_none();
        if left == 0 && !(seeded(Fault::FiveBeforeSix) && link_bad) {
            outcome.answer = 6;
            return (outcome, trace);
        }
        // The link followed is the one of the 28 bytes copied out; the block it leads to "is then
        // read as it stands".
        let link = if seeded(Fault::LinkAfterTransfer) {
            // the block may have been stored over since it was fetched
            Block::read(&chain.world.host, at).map_or(0, |now| now.linked_block_address)
        } else {
            block.linked_block_address
        };
        at = link;
        let memory = if seeded(Fault::LaterBlockAsAtStart) {
            // blocks fetched ahead
            &chain.past.at_start
        } else {
            &chain.world.host
        };
        block = match Block::read(memory, at) {
            Some(next) => next,
            None => {
                outcome.answer = 5;
                return (outcome, trace);
            }
        };
    }
}

/// A run under way.
struct Chain<'a> {
    world: &'a mut World,
    past: Past,
    /// The tables at the start of the run, for a fault.
    tables: [Table; 2],
}

impl Chain<'_> {
    /// The k-th block of the run, k from 1, its 28 bytes already copied out.
    fn run_block(&mut self, k: u32, at: u32, block: &Block) -> (Visit, Fetched) {
        if seeded(Fault::StatusBeforeList) {
            // a list or UIB under word 1 is not what it was
            self.store_word_1(at, 0x81, 0x00);
        }
        let judged = judge(self.world, block);
        let before = visit_before(self.world, &self.past, at, block, &judged);
        let (done, visit) = match &judged {
            Err(answer) => {
                if seeded(Fault::RefusedFormatReports) && block.command == 0x8c {
                    // told of sectors that nobody formatted
                    self.report_format(at, block);
                }
                let done = Done {
                    answer: *answer,
                    ..NOTHING_MOVED
                };
                (done, before)
            }
            Ok(accepted) => {
                // "status 81 and error 00 are stored in the block; then the transfer happens"
                if !seeded(Fault::NoStatusBeforeData) {
                    // the fault leaves word 1 as it was fetched
                    self.store_word_1(at, 0x81, 0x00);
                }
                let done = self.perform(at, block, accepted);
                let visit = visit_after(before, self.world, block, accepted, &done);
                (done, visit)
            }
        };
        let status = if done.answer == 0 { 0x80 } else { 0x82 };
        let error = error_byte(done.answer);
        self.store_word_1(at, status, error);
        self.store_event(k, status, error, block, done.travel);
        let fetched = Fetched::new(self.world, at, block, &judged, &done);
        self.hold(at, block, done.answer);
        let visit = Visit {
            held_after: self.world.records[block.unit() as usize].holder,
            ..visit
        };
        (visit, fetched)
    }

    /// Who holds the drive once the block has ended, by the 28 bytes that were copied out.
    fn hold(&mut self, at: u32, block: &Block, answer: u8) {
        let mut asked = *block;
        if seeded(Fault::ReserveAfterTransfer) {
            // its data may lie over its options
            asked.options = self.world.host[at as usize + 1];
        }
        let Some(holder) = holder_after(self.world.controller, &asked, answer) else {
            return;
        };
        let unit = if seeded(Fault::HolderOfOtherUnit) {
            // one drive for the other
            1 - block.unit()
        } else {
            block.unit()
        };
        self.world.records[unit as usize].holder = holder;
    }

    fn perform(&mut self, at: u32, block: &Block, accepted: &Accepted) -> Done {
        match block.command {
            0x85 => self.remap(block, accepted),
            0x86 => self.handshake(at),
            0x87 => self.initialize(block, accepted),
            0x89 => self.move_heads(block, 0),
            0x8a => self.seek(block, accepted),
            0x8c => self.format(at, block, accepted),
            0x81 | 0xa1 => self.read(block, accepted),
            _ => self.write(block, accepted),
        }
    }

    fn handshake(&mut self, at: u32) -> Done {
        let mut place = at as u64 + 4;
        for word in IDENTITY {
            self.store(place, (word / 256) as u8);
            self.store(place + 1, (word % 256) as u8);
            place += 2;
        }
        NOTHING_MOVED
    }

    /// The unit as a block finds it: its geometry and the table by which it lands.
    fn drive(&self, unit: usize) -> Record {
        let mut drive = self.world.records[unit];
        if seeded(Fault::TableAsAtStart) {
            // pairs of this run are for the next
            drive.table = self.tables[unit];
        }
        if seeded(Fault::TableOfUnit0) {
            // one table for the board
            drive.table = self.world.records[0].table;
        }
        drive
    }

    /// "85 moves neither data nor heads": it adds its pair to the table and that is all.
    fn remap(&mut self, block: &Block, accepted: &Accepted) -> Done {
        let unit = block.unit() as usize;
        let Some(pair) = accepted.pair else {
            return NOTHING_MOVED;
        };
        if seeded(Fault::RemapMovesData) {
            // the spare is to hold what the bad track held
            self.copy_track(unit, pair.bad, pair.spare);
        }
        self.world.records[unit].table.add(pair);
        if seeded(Fault::RemapMovesHeads) {
            // as if it went to see the spare
            return self.move_heads(block, pair.spare.cylinder as u64);
        }
        NOTHING_MOVED
    }

    /// What a fault does: the sectors of one track stored on another.
    fn copy_track(&mut self, unit: usize, from: Track, to: Track) {
        let mut drive = self.world.records[unit];
        drive.table = Table::NONE;
        let bytes = drive.geometry.sectors_a_track as u64 * drive.geometry.bytes_a_sector as u64;
        let first = |track| drive.find_on_track(track, 0).map(|found| found.place);
        let (Some(from), Some(to)) = (first(from), first(to)) else {
            return;
        };
        let b = drive.geometry.bytes_a_sector as u64;
        for k in 0..bytes {
            let image = &mut self.world.images[unit];
            let byte = image.get((from * b + k) as usize).copied();
            if let (Some(byte), Some(place)) = (byte, image.get_mut((to * b + k) as usize)) {
                *place = byte;
            }
        }
    }

    /// "87 replaces the unit record; the heads are at cylinder 0", and it "clears the table", all of its
    /// room. Its travel is zero.
    fn initialize(&mut self, block: &Block, accepted: &Accepted) -> Done {
        let record = &mut self.world.records[block.unit() as usize];
        let old_cylinder = record.cylinder;
        if let Some(mut geometry) = accepted.uib {
            if seeded(Fault::OrderKept) && record.counts_as_initialized() {
                // as if the drive were strapped for good
                geometry.order = record.geometry.order;
            }
            // the fault keeps a record that is good already
            if !(seeded(Fault::RecordKept) && record.counts_as_initialized()) {
                *record = Record {
                    initialized: true,
                    geometry,
                    cylinder: 0,
                    table: if seeded(Fault::TableKept) {
                        // the drive has its bad tracks still
                        record.table
                    } else if seeded(Fault::PastPairsLeft) {
                        // an empty table laid over the old bytes
                        record.table.uncounted()
                    } else {
                        Table::NONE
                    },
                    // that is told when the block has ended
                    holder: record.holder,
                };
            }
        }
        if seeded(Fault::InitializeTravels) {
            // as a restore travels
            return Done {
                travel: -(old_cylinder as i32),
                ..NOTHING_MOVED
            };
        }
        NOTHING_MOVED
    }

    fn seek(&mut self, block: &Block, accepted: &Accepted) -> Done {
        let mut drive = self.drive(block.unit() as usize);
        if seeded(Fault::SeekNotMapped) {
            // nothing is moved, so nothing has to be spared
            drive.table = Table::NONE;
        }
        drive.geometry = aimed_by(&drive.geometry, block);
        let first = accepted.first.unwrap_or(0);
        match drive.find(block.volume(), first) {
            Some(found) => self.move_heads(block, found.cylinder),
            None => NOTHING_MOVED,
        }
    }

    /// The heads go to a cylinder: "Travel is the new cylinder minus the old one".
    fn move_heads(&mut self, block: &Block, cylinder: u64) -> Done {
        let record = &mut self.world.records[block.unit() as usize];
        let travel = cylinder as i32 - record.cylinder as i32;
        // Below C, which is at most 4,096.
        record.cylinder = cylinder as u16;
        Done {
            travel,
            ..NOTHING_MOVED
        }
    }

    /// "8C takes B bytes and writes them to every sector of the named track", or of its spare where
    /// the track is a bad one. Once it has, the block says how many those were.
    fn format(&mut self, at: u32, block: &Block, accepted: &Accepted) -> Done {
        let unit = block.unit() as usize;
        let mut drive = self.drive(unit);
        let geometry = drive.geometry;
        if seeded(Fault::FormatNotMapped) {
            // a format is of the track itself
            drive.table = Table::NONE;
        }
        if seeded(Fault::FormatReportsFirst) {
            // the words may lie under the data
            self.report_format(at, block);
        }
        let named = Track::new(block.cylinder, block.head);
        let mut cylinder = block.cylinder as u64;
        let mut sectors = 0;
        for sector in 0..geometry.sectors_a_track as u64 {
            let Some(found) = drive.find_on_track(named, sector) else {
                break;
            };
            self.sector_from_host(unit, &geometry, found.place, &accepted.pieces, 0);
            cylinder = found.cylinder;
            sectors += 1;
        }
        if !seeded(Fault::FormatReportsFirst) && !seeded(Fault::FormatReportsNothing) {
            self.report_format(at, block);
        }
        if seeded(Fault::FormatCountsOne) {
            // one buffer, one sector
            sectors = 1;
        }
        let heads = self.move_heads(block, cylinder);
        Done { sectors, ..heads }
    }

    /// Paper 02, K1: "lower byte of word 3 is the last sector formatted, word 4 the number of sectors
    /// formatted".
    fn report_format(&mut self, at: u32, block: &Block) {
        let unit = block.unit() as usize;
        let sectors = self.world.records[unit].geometry.sectors_a_track;
        let last = if seeded(Fault::FormatLastIsCount) {
            // sectors are counted from 0
            sectors
        } else {
            sectors.wrapping_sub(1)
        };
        let word_3 = at as u64 + 6;
        self.store(word_3 + 1, (last % 256) as u8);
        self.store(word_3 + 2, (sectors / 256) as u8);
        self.store(word_3 + 3, (sectors % 256) as u8);
    }

    /// "81 and A1 copy sectors to host memory, through the elements joined in list order."
    fn read(&mut self, block: &Block, accepted: &Accepted) -> Done {
        let unit = block.unit() as usize;
        let drive = self.drive(unit);
        let geometry = drive.geometry;
        let Some(first) = sector_of(&drive, block, accepted, 0) else {
            return NOTHING_MOVED;
        };
        let mut tried_cylinder = first.cylinder;
        let mut answer = 0;
        let mut sectors: u16 = 0;
        let mut moved_unreadable = false;
        while sectors < block.sector_count {
            let Some(found) = sector_of(&drive, block, accepted, sectors as u64) else {
                break;
            };
            let unreadable = self.unreadable(unit, &geometry, found.marked);
            // "the sector that stopped a read counts as tried"; the fault stays on the one before
            if !(seeded(Fault::StoppedReadStaysBehind) && unreadable) {
                tried_cylinder = found.cylinder;
            }
            if unreadable {
                // the fault stops whatever the options say
                if !block.disable_read_data_errors() || seeded(Fault::DisableIgnored) {
                    answer = 20;
                    break;
                }
                moved_unreadable = true;
            }
            let k = sectors as u64;
            self.sector_to_host(unit, &geometry, found.place, &accepted.pieces, k);
            sectors += 1;
        }
        let heads = self.move_heads(block, tried_cylinder);
        Done {
            answer,
            sectors,
            tried_cylinder,
            moved_unreadable,
            ..heads
        }
    }

    /// "82 and A2 ignore marks."
    fn write(&mut self, block: &Block, accepted: &Accepted) -> Done {
        let unit = block.unit() as usize;
        let drive = self.drive(unit);
        let geometry = drive.geometry;
        let Some(first) = sector_of(&drive, block, accepted, 0) else {
            return NOTHING_MOVED;
        };
        let mut tried_cylinder = first.cylinder;
        let mut sectors: u16 = 0;
        while sectors < block.sector_count {
            let k = sectors as u64;
            let Some(found) = sector_of(&drive, block, accepted, k) else {
                break;
            };
            tried_cylinder = found.cylinder;
            self.sector_from_host(unit, &geometry, found.place, &accepted.pieces, k);
            sectors += 1;
        }
        let heads = self.move_heads(block, tried_cylinder);
        Done {
            sectors,
            tried_cylinder,
            ..heads
        }
    }

    /// A sector's mark: "0 good, any other unreadable".
    fn unreadable(&self, unit: usize, geometry: &Geometry, place: u64) -> bool {
        let next = if seeded(Fault::MarkOfNextSector) {
            // a mark too far
            1
        } else {
            0
        };
        let at = (geometry.marks_at() + place + next) as usize;
        let mark = self.world.images[unit].get(at).copied().unwrap_or(0);
        if seeded(Fault::MarkForgotten) {
            // every sector is good
            return false;
        }
        if seeded(Fault::MarkOfOneAlone) {
            // another mark passes
            return mark == 1;
        }
        mark != 0
    }

    /// The sector at a place is copied to where the k-th sector of the transfer goes, k from 0.
    /// Where pieces share bytes, the later store stands.
    fn sector_to_host(
        &mut self,
        unit: usize,
        geometry: &Geometry,
        place: u64,
        pieces: &[Piece],
        k: u64,
    ) {
        let b = geometry.bytes_a_sector as u64;
        for byte in 0..b {
            let number = self.world.images[unit][(place * b + byte) as usize];
            if let Some(address) = joined(pieces, k * b + byte) {
                self.store(address, number);
            }
        }
    }

    /// The sector at a place gets the bytes that the k-th sector of the transfer takes from host
    /// memory as it stands now, the 81 00 of the block's own word 1 included.
    fn sector_from_host(
        &mut self,
        unit: usize,
        geometry: &Geometry,
        place: u64,
        pieces: &[Piece],
        k: u64,
    ) {
        let b = geometry.bytes_a_sector as u64;
        for byte in 0..b {
            if let Some(address) = joined(pieces, k * b + byte) {
                let number = self.world.host[address as usize];
                self.world.images[unit][(place * b + byte) as usize] = number;
            }
        }
    }

    /// Every byte stored in host memory passes here.
    fn store(&mut self, address: u64, byte: u8) {
        self.world.host[address as usize] = byte;
        self.past.stored[address as usize] = true;
    }

    fn store_word_1(&mut self, at: u32, status: u8, error: u8) {
        self.store(at as u64 + 2, status);
        self.store(at as u64 + 3, error);
    }

    /// "The event entry for the k-th block, k from 1, is the 8 bytes at 8(k − 1)".
    fn store_event(&mut self, k: u32, status: u8, error: u8, block: &Block, travel: i32) {
        let mut level = 0;
        let mut vector = 0;
        if seeded(Fault::LevelWithoutInterrupt) {
            // told though nobody asked
            level = block.interrupt_level;
        }
        if block.interrupt() {
            level = block.interrupt_level;
            // the fault has one vector for both ends
            vector = if status == 0x80 || seeded(Fault::NormalVectorAlways) {
                block.normal_vector
            } else {
                block.error_vector
            };
        }
        let travel = travel.to_be_bytes();
        let entry = [
            status, error, level, vector, travel[0], travel[1], travel[2], travel[3],
        ];
        let at = 8 * (k as usize - 1);
        for byte in 0..8 {
            self.world.events[at + byte] = entry[byte];
        }
    }
}

/// The holder that a block leaves its drive with; None where it leaves the one that there was. "RV on a
/// successful block takes or keeps the drive; a successful block without RV gives it up; 86 does
/// neither. A failed block leaves the holder as it was."
fn holder_after(controller: Controller, block: &Block, answer: u8) -> Option<Holder> {
    if left_alone(block, answer) || seeded(Fault::HoldersUnknown) {
        return None;
    }
    let transfer = matches!(block.command, 0x81 | 0x82 | 0xa1 | 0xa2);
    // the fault looks for RV where data are moved, and nowhere else
    let heeded = transfer || !seeded(Fault::ReserveOfTransfersAlone);
    if !block.reserve() || !heeded {
        return Some(Holder::Nobody);
    }
    if seeded(Fault::HolderAlwaysFirst) {
        // one name for all
        return Some(Holder::First);
    }
    Some(controller.as_holder())
}

/// Whether a block has no say in who holds its drive; each fault lets one have it, or one more be
/// without.
fn left_alone(block: &Block, answer: u8) -> bool {
    let reserve = block.reserve();
    let by_fault = |takes: Fault, gives_up: Fault| seeded(if reserve { takes } else { gives_up });
    if block.command == 0x86 {
        return !by_fault(Fault::HandshakeTakes, Fault::HandshakeGivesUp);
    }
    if answer == 20 {
        return !by_fault(Fault::StoppedReadTakes, Fault::StoppedReadGivesUp);
    }
    if answer != 0 {
        return !by_fault(Fault::RefusedBlockTakes, Fault::RefusedBlockGivesUp);
    }
    seeded(Fault::DriveKept) && !reserve
        || seeded(Fault::InitializeLeavesHolder) && block.command == 0x87
}

/// The address of the k-th byte, k from 0, of the pieces joined in order. None past their end,
/// where no transfer goes: the pieces sum to the bytes moved.
fn joined(pieces: &[Piece], k: u64) -> Option<u64> {
    let mut before = 0;
    for piece in pieces {
        if k < before + piece.bytes {
            return Some(piece.address as u64 + (k - before));
        }
        before += piece.bytes;
    }
    None
}

/// Where the k-th sector of a transfer is found, k from 0: each sector by itself. Check 16 has seen to
/// it that there is one, and check 17 that the image has its bytes and its mark.
fn sector_of(drive: &Record, block: &Block, accepted: &Accepted, k: u64) -> Option<Found> {
    let first = accepted.first?;
    let listed = matches!(block.command, 0xa1 | 0xa2);
    let unmapped =
        seeded(Fault::FirstSectorMappedAlone) && k > 0 || seeded(Fault::ListNotMapped) && listed;
    if unmapped {
        // the sector as if there were no table
        let mut drive = *drive;
        drive.table = Table::NONE;
        return drive.find(block.volume(), first + k);
    }
    if seeded(Fault::SpanFollowsSpare) {
        // mapped once, and then one place after the other
        let found = drive.find(block.volume(), first)?;
        if found.track != found.named {
            return going_on(drive, found, k);
        }
    }
    drive.find(block.volume(), first + k)
}

/// What a fault takes for the k-th sector: so many places on from the one where the first is found.
fn going_on(drive: &Record, first: Found, k: u64) -> Option<Found> {
    let geometry = &drive.geometry;
    let place = first.place + k;
    let a_cylinder = geometry.drive_heads() * geometry.sectors_a_track as u64;
    let found = Found {
        cylinder: place / a_cylinder,
        place,
        marked: place,
        ..first
    };
    (place < geometry.drive_sectors()).then_some(found)
}
