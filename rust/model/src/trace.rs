//! What happened at each block of a run, so that a count can be kept of the traps that a set of
//! worlds has walked into. Nothing here has a part in what a run does.

use crate::block::{Block, BLOCK_BYTES};
use crate::footprint::{Fetched, Footprint};
use crate::geometry::{Found, Record};
use crate::holders::{Controller, Holder};
use crate::judge::{first_sector, list_bytes, list_was_read, Accepted, Piece};
use crate::order::Order;
use crate::run::{Done, World};
use crate::spares::{Taken, Track};

/// The blocks in the order they were run.
#[derive(Clone, Debug, Default, PartialEq, Eq)]
pub struct Trace {
    pub blocks: Vec<Visit>,
    /// The same blocks, with what a footprint wants to know of each.
    pub(crate) fetched: Vec<Fetched>,
    /// Who ran them.
    controller: Controller,
}

impl Trace {
    pub(crate) fn of(controller: Controller) -> Trace {
        Trace {
            controller,
            ..Trace::default()
        }
    }

    /// The chain's footprint in host memory, of which only the length counts.
    pub fn footprint(&self, host: &[u8]) -> Footprint {
        Footprint::of(self.controller, &self.fetched, host)
    }
}

/// One block run.
#[derive(Clone, Copy, Debug, PartialEq, Eq)]
pub struct Visit {
    pub at: u32,
    pub unit: u8,
    pub command: u8,
    pub options: u8,
    /// 0 if it ended 80, else its answer, 10 and up.
    pub answer: u8,
    /// Sectors copied by this block.
    pub sectors: u16,
    pub travel: i32,
    /// A1, A2: the list was read and shares a byte with the block's own word 1.
    pub list_under_own_status: bool,
    /// 87: the block was accepted and its UIB shares a byte with its own word 1.
    pub uib_under_own_status: bool,
    /// A1: it stopped at an unreadable sector with an element partly filled.
    pub stopped_inside_element: bool,
    /// 81, 82, A1, A2: the last sector tried is on another cylinder than the first.
    pub crossed_cylinder: bool,
    /// 81, 82, A1, A2: the transfer was on volume 1.
    pub on_volume_1: bool,
    /// 8C: the track formatted belongs to no volume.
    pub on_no_volume: bool,
    /// 81, A1: an unreadable sector was moved because of DE.
    pub moved_unreadable: bool,
    /// 82, A2, 8C: the data taken include a byte of the block's own word 1.
    pub took_own_status: bool,
    /// 81, A1: the data moved were stored over a byte of the block's own word 1.
    pub stored_over_own_status: bool,
    /// A1: the data moved were stored over a byte of the block's own list.
    pub stored_over_own_list: bool,
    /// A1, A2: two elements of an accepted list share a byte of host memory.
    pub elements_overlap: bool,
    /// An earlier block of this chain stored a byte in this block, word 1 left aside, before it
    /// was fetched.
    pub overwritten: bool,
    /// The bytes fetched, word 1 left aside, were not those at the start of the run.
    pub overwritten_with_other_bytes: bool,
    /// 85, refused by 22: what there was against its tracks.
    pub taken: Option<Taken>,
    /// What the table of the unit had to do with it.
    pub landing: Landing,
    /// What the order of the unit's tracks had to do with it.
    pub course: Course,
    /// Who ran it.
    pub controller: Controller,
    /// Who held the drive when the block was judged, and who did when it had ended.
    pub holder: Holder,
    pub held_after: Holder,
    /// Refused by 24, on a unit whose record counts as not initialized besides.
    pub held_and_not_ready: bool,
}

/// How an accepted 81, 82, 8A, 8C, A1 or A2 landed, over the sectors that it tried.
#[derive(Clone, Copy, Debug, Default, PartialEq, Eq)]
pub struct Landing {
    /// The pairs that stood.
    pub pairs: u16,
    /// A sector of a bad track was tried on its spare.
    pub on_spare: bool,
    /// The greatest index of a pair by which one was.
    pub by_pair: Option<usize>,
    /// And another sector, before or after it, was not on a bad track.
    pub in_part: bool,
    /// Such a spare belongs to the other volume.
    pub in_other_volume: bool,
    /// Such a spare belongs to no volume.
    pub in_no_volume: bool,
    /// A bad track and its own spare were both named.
    pub with_its_spare: bool,
    /// A sector of a spare was named directly.
    pub spare_named: bool,
    /// The heads ended on another cylinder than that of the track that was named last.
    pub heads_elsewhere: bool,
    /// A read moved a sector whose own place, on the bad track, is marked unreadable.
    pub bad_mark_passed: bool,
    /// A read stopped at a mark of a spare.
    pub stopped_on_spare: bool,
}

/// How a block went along the tracks of its volume. The tracks are those that are named, whichever serves
/// them.
#[derive(Clone, Copy, Debug, Default, PartialEq, Eq)]
pub struct Course {
    /// The order of the unit when the block was judged.
    pub order: Order,
    /// An accepted 81, 82, A1 or A2 went from a track to the one on the next cylinder under the same
    /// head, though the volume has another head.
    pub next_cylinder: bool,
    /// Or went from cylinder C − 1 of a head to cylinder 0 of the next.
    pub next_head: bool,
    /// How many cylinders lie between the first and the last sector that it tried.
    pub cylinders: u16,
    /// XL was clear.
    pub physical: bool,
    /// Refused by 16, where a drive of the other order has all the sectors that the block names.
    pub outside_alone: bool,
    /// 87, accepted: the unit was initialized and had the other order.
    pub changed: bool,
}

/// What earlier blocks have done to host memory: the bytes at the start of the run, and which
/// ones have been stored since.
pub(crate) struct Past {
    pub at_start: Vec<u8>,
    pub stored: Vec<bool>,
}

impl Past {
    pub fn new(host: &[u8]) -> Past {
        Past {
            at_start: host.to_vec(),
            stored: vec![false; host.len()],
        }
    }

    /// Whether a byte of the block, word 1 left aside, was stored since the start of the run.
    fn overwritten(&self, at: u32) -> bool {
        bytes_but_word_1(at).any(|place| self.stored[place])
    }

    /// Whether such a byte is not what it was at the start of the run.
    fn overwritten_with_other_bytes(&self, host: &[u8], at: u32) -> bool {
        bytes_but_word_1(at).any(|place| self.at_start[place] != host[place])
    }
}

fn bytes_but_word_1(at: u32) -> impl Iterator<Item = usize> {
    (0..BLOCK_BYTES)
        .filter(|k| *k != 2 && *k != 3)
        .map(move |k| at as usize + k)
}

/// Whether two ranges of memory share a byte.
fn share(one: u64, one_bytes: u64, other: u64, other_bytes: u64) -> bool {
    one < other + other_bytes && other < one + one_bytes
}

/// As much of the pieces, joined in order, as the first bytes fill.
pub(crate) fn filled(pieces: &[Piece], bytes: u64) -> Vec<Piece> {
    let mut parts = Vec::new();
    let mut left = bytes;
    for piece in pieces {
        let part = if piece.bytes < left {
            piece.bytes
        } else {
            left
        };
        if part > 0 {
            parts.push(Piece {
                address: piece.address,
                bytes: part,
            });
        }
        left -= part;
    }
    parts
}

fn any_shares(pieces: &[Piece], at: u64, bytes: u64) -> bool {
    pieces
        .iter()
        .any(|piece| share(piece.address as u64, piece.bytes, at, bytes))
}

/// Whether so many bytes end between two elements, or before the first.
fn ends_between_elements(pieces: &[Piece], bytes: u64) -> bool {
    let mut sum = 0;
    for piece in pieces {
        if sum == bytes {
            return true;
        }
        sum += piece.bytes;
    }
    sum == bytes
}

fn two_share(pieces: &[Piece]) -> bool {
    for (k, one) in pieces.iter().enumerate() {
        if any_shares(&pieces[k + 1..], one.address as u64, one.bytes) {
            return true;
        }
    }
    false
}

/// The visit as known when the block has been fetched and judged and nothing is stored yet.
pub(crate) fn visit_before(
    world: &World,
    past: &Past,
    at: u32,
    block: &Block,
    judged: &Result<Accepted, u8>,
) -> Visit {
    let answer = match judged {
        Ok(_) => 0,
        Err(answer) => *answer,
    };
    let record = &world.records[block.unit() as usize];
    let geometry = record.geometry;
    let word_1 = at as u64 + 2;
    let accepted = judged.is_ok();
    let transfer = matches!(block.command, 0x81 | 0x82 | 0xa1 | 0xa2);
    let takes = matches!(block.command, 0x82 | 0xa2 | 0x8c);
    let pieces: &[Piece] = match judged {
        Ok(accepted) => &accepted.pieces,
        Err(_) => &[],
    };
    let buffer = block.buffer_address as u64;
    let in_a_volume = geometry
        .volumes
        .iter()
        .any(|volume| volume.has_head(block.head as u64));
    Visit {
        at,
        unit: block.unit(),
        command: block.command,
        options: block.options,
        answer,
        sectors: 0,
        travel: 0,
        list_under_own_status: list_was_read(&world.host, block, answer)
            && share(buffer, list_bytes(block), word_1, 2),
        uib_under_own_status: accepted && block.command == 0x87 && share(buffer, 18, word_1, 2),
        stopped_inside_element: false,
        crossed_cylinder: false,
        on_volume_1: accepted && transfer && block.volume() == 1,
        on_no_volume: accepted && block.command == 0x8c && !in_a_volume,
        moved_unreadable: false,
        took_own_status: takes && any_shares(pieces, word_1, 2),
        stored_over_own_status: false,
        stored_over_own_list: false,
        elements_overlap: two_share(pieces),
        overwritten: past.overwritten(at),
        overwritten_with_other_bytes: past.overwritten_with_other_bytes(&world.host, at),
        taken: taken(record, block, answer),
        landing: Landing {
            pairs: record.table.count(),
            ..Landing::default()
        },
        course: Course {
            order: geometry.order,
            physical: !block.logical(),
            outside_alone: answer == 16 && inside_by_the_other(record, block),
            changed: match judged {
                Ok(Accepted { uib: Some(uib), .. }) => {
                    record.counts_as_initialized() && uib.order != geometry.order
                }
                _ => false,
            },
            ..Course::default()
        },
        controller: world.controller,
        holder: record.holder,
        held_after: record.holder,
        held_and_not_ready: answer == 24 && !record.counts_as_initialized(),
    }
}

/// Whether a transfer that 16 refuses would be let through on the same drive with the other order.
fn inside_by_the_other(record: &Record, block: &Block) -> bool {
    let mut other = *record;
    other.geometry.order = record.geometry.order.other();
    let transfer = matches!(block.command, 0x81 | 0x82 | 0xa1 | 0xa2);
    transfer && first_sector(&other, block).is_some()
}

fn taken(record: &Record, block: &Block, answer: u8) -> Option<Taken> {
    if answer != 22 {
        return None;
    }
    record.table.taken(&block.pair())
}

/// The visit with what is known once an accepted block has ended.
pub(crate) fn visit_after(
    before: Visit,
    world: &World,
    block: &Block,
    accepted: &Accepted,
    done: &Done,
) -> Visit {
    let reads = matches!(block.command, 0x81 | 0xa1);
    let transfer = matches!(block.command, 0x81 | 0x82 | 0xa1 | 0xa2);
    let record = &world.records[block.unit() as usize];
    let first = accepted.first.and_then(|n| record.find(block.volume(), n));
    let first_cylinder = first.map_or(0, |found| found.cylinder);
    let b = record.geometry.bytes_a_sector as u64;
    let moved = if reads { done.sectors as u64 * b } else { 0 };
    let stored = filled(&accepted.pieces, moved);
    let list = block.buffer_address as u64;
    Visit {
        answer: done.answer,
        sectors: done.sectors,
        travel: done.travel,
        stopped_inside_element: block.command == 0xa1
            && done.answer == 20
            && !ends_between_elements(&accepted.pieces, moved),
        crossed_cylinder: transfer && done.tried_cylinder != first_cylinder,
        moved_unreadable: done.moved_unreadable,
        stored_over_own_status: any_shares(&stored, before.at as u64 + 2, 2),
        stored_over_own_list: block.command == 0xa1 && any_shares(&stored, list, list_bytes(block)),
        landing: landing(before.landing, world, block, accepted, done),
        course: if transfer {
            let heads = record.geometry.volumes[block.volume() as usize].heads;
            course(before.course, heads, &tried(record, block, accepted, done))
        } else {
            before.course
        },
        ..before
    }
}

/// The sectors that a block tried, in their order; no command that names a sector or a track changes
/// the table, so they are found as they were then.
fn tried(record: &Record, block: &Block, accepted: &Accepted, done: &Done) -> Vec<Found> {
    let stopped = (done.answer == 20) as u64;
    let number = |k| record.find(block.volume(), accepted.first.unwrap_or(0) + k);
    let named = Track::new(block.cylinder, block.head);
    match block.command {
        0x81 | 0x82 | 0xa1 | 0xa2 => (0..done.sectors as u64 + stopped)
            .filter_map(number)
            .collect(),
        0x8a => number(0).into_iter().collect(),
        0x8c => record.find_on_track(named, 0).into_iter().collect(),
        _ => Vec::new(),
    }
}

fn landing(
    before: Landing,
    world: &World,
    block: &Block,
    accepted: &Accepted,
    done: &Done,
) -> Landing {
    let unit = block.unit() as usize;
    let record = &world.records[unit];
    if record.table.count() == 0 {
        return before;
    }
    let tried = tried(record, block, accepted, done);
    let spared: Vec<&Found> = tried.iter().filter(|f| f.track != f.named).collect();
    let pairs = record.table.pairs();
    let by = |found: &&Found| pairs.iter().position(|pair| pair.bad == found.named);
    let reads = matches!(block.command, 0x81 | 0xa1);
    let stopped = done.answer == 20;
    let moved = &tried[..tried.len().min(done.sectors as usize)];
    Landing {
        on_spare: !spared.is_empty(),
        by_pair: spared.iter().filter_map(by).max(),
        in_part: !spared.is_empty() && spared.len() < tried.len(),
        in_other_volume: spared.iter().any(|found| {
            let spare = volume_of(record, found.track);
            spare.is_some() && spare != volume_of(record, found.named)
        }),
        in_no_volume: spared.iter().any(|f| volume_of(record, f.track).is_none()),
        with_its_spare: spared
            .iter()
            .any(|found| tried.iter().any(|other| other.named == found.track)),
        spare_named: tried.iter().any(|f| record.table.has_spare(f.named)),
        heads_elsewhere: tried.last().is_some_and(|last| {
            last.track != last.named && last.track.cylinder != last.named.cylinder
        }),
        bad_mark_passed: reads && moved.iter().any(|found| passed_mark(world, unit, found)),
        stopped_on_spare: stopped && tried.last().is_some_and(|last| last.track != last.named),
        ..before
    }
}

fn course(before: Course, heads: u8, tried: &[Found]) -> Course {
    let goes = |to: fn(Track, Track) -> bool| {
        let mut steps = tried.windows(2);
        steps.any(|two| to(two[0].named, two[1].named))
    };
    let along = goes(|from, to| from.head == to.head && from.cylinder + 1 == to.cylinder);
    let cylinder = |found: Option<&Found>| found.map_or(0, |found| found.named.cylinder);
    Course {
        next_cylinder: along && heads > 1,
        next_head: goes(|from, to| from.head + 1 == to.head && from.cylinder > to.cylinder),
        cylinders: cylinder(tried.last()).abs_diff(cylinder(tried.first())),
        ..before
    }
}

/// The volume that a track belongs to, if it belongs to one.
fn volume_of(record: &Record, track: Track) -> Option<usize> {
    let mut volumes = record.geometry.volumes.iter();
    volumes.position(|volume| volume.has_head(track.head as u64))
}

/// Whether the sector that was named is marked, where another was moved that is not.
fn passed_mark(world: &World, unit: usize, found: &Found) -> bool {
    let geometry = &world.records[unit].geometry;
    let s = geometry.sectors_a_track as u64;
    let named = found.named.cylinder as u64 * geometry.drive_heads() + found.named.head as u64;
    let marked = |place: u64| {
        let at = (geometry.marks_at() + place) as usize;
        world.images[unit].get(at).is_some_and(|mark| *mark != 0)
    };
    found.track != found.named && marked(named * s + found.place % s) && !marked(found.marked)
}
