//! What a chain has to do with, for demand 3: the units that its blocks name, the host bytes that
//! it reads and those that it writes, in the memory of the controller that runs it. The paper lists
//! them by the block; here the list is marked, byte by byte, over the blocks that were fetched.
//! Nothing here has a part in what a run does.

use crate::answers::{let_through, passed};
use crate::block::{Block, BLOCK_BYTES};
use crate::faults::{seeded, Fault};
use crate::geometry::UIB_BYTES;
use crate::holders::Controller;
use crate::judge::{data_bytes, list_bytes, list_was_read, Accepted, Piece};
use crate::run::{Done, World};
use crate::trace::filled;
use std::ops::Range;

/// The units named, and for each byte of the controller's memory whether it is read and whether it is
/// written.
#[derive(Clone, Debug, PartialEq, Eq)]
pub struct Footprint {
    pub controller: Controller,
    pub units: [bool; 2],
    pub read: Vec<bool>,
    pub written: Vec<bool>,
}

/// What two chains have in common that demand 3 does not let them have. The event buffers are not
/// asked here: each chain is handed its own.
#[derive(Clone, Copy, Debug, PartialEq, Eq)]
pub struct Common {
    /// A unit that a block of each names.
    pub unit: bool,
    /// A host byte that one writes and the other reads.
    pub written_and_read: bool,
    /// A host byte that both write.
    pub written_by_both: bool,
}

impl Common {
    pub fn nothing(&self) -> bool {
        !self.unit && !self.written_and_read && !self.written_by_both
    }
}

impl Footprint {
    /// The footprint of the blocks that were fetched; a refused run has fetched none.
    pub(crate) fn of(controller: Controller, fetched: &[Fetched], host: &[u8]) -> Footprint {
        let mut footprint = Footprint {
            controller,
            units: [false; 2],
            read: vec![false; host.len()],
            written: vec![false; host.len()],
        };
        for each in fetched {
            // the faults look at the units of accepted blocks alone, or at all but held ones
            let forgotten = seeded(Fault::RefusedUnitForgotten) && each.refused()
                || seeded(Fault::HeldUnitForgotten) && each.answer == 24;
            if !forgotten {
                footprint.units[each.block.unit() as usize] = true;
            }
            mark(&mut footprint.read, each, each.read(host));
            mark(&mut footprint.written, each, each.written());
        }
        footprint
    }

    /// "If the blocks they fetch name no unit in common, ... and no host byte that one writes is
    /// read or written by the other": what there is against it. Drives are the same "whichever
    /// controller runs them"; a host byte is one controller's.
    pub fn common(&self, other: &Footprint) -> Common {
        let one_controller = self.controller == other.controller;
        // one fault has drives for each controller, the other one memory for both
        let one_drive = one_controller || !seeded(Fault::DrivesOfEachController);
        let one_memory = one_controller || seeded(Fault::OneMemoryForBoth);
        let written_and_read = both(&self.written, &other.read) || both(&self.read, &other.written);
        Common {
            unit: one_drive && both(&self.units, &other.units),
            written_and_read: one_memory && written_and_read,
            written_by_both: one_memory && both(&self.written, &other.written),
        }
    }
}

/// Whether a place is in both sets.
fn both(one: &[bool], other: &[bool]) -> bool {
    one.iter().zip(other).any(|(one, other)| *one && *other)
}

/// A block that was fetched, and what came of it.
#[derive(Clone, Debug, PartialEq, Eq)]
pub(crate) struct Fetched {
    at: u32,
    block: Block,
    /// 0 if it ended 80, else its answer.
    answer: u8,
    /// Where the data of an accepted block lie.
    pieces: Vec<Piece>,
    /// How many bytes of data the block asks for, accepted or not.
    asked: u64,
    /// The bytes of the sectors copied.
    moved: u64,
}

/// The lines of the paper's list.
#[derive(Clone, Copy, PartialEq, Eq)]
enum Line {
    Block,
    Uib,
    List,
    DataTaken,
    Word1,
    Identity,
    Formatted,
    DataMoved,
}

type Touched = Vec<(Line, Range<u64>)>;

impl Fetched {
    /// The block as known when it has ended.
    pub fn new(
        world: &World,
        at: u32,
        block: &Block,
        judged: &Result<Accepted, u8>,
        done: &Done,
    ) -> Fetched {
        let geometry = world.records[block.unit() as usize].geometry;
        Fetched {
            at,
            block: *block,
            answer: done.answer,
            pieces: match judged {
                Ok(accepted) => accepted.pieces.clone(),
                Err(_) => Vec::new(),
            },
            asked: data_bytes(&geometry, block),
            moved: done.sectors as u64 * geometry.bytes_a_sector as u64,
        }
    }

    fn refused(&self) -> bool {
        !let_through(self.answer)
    }

    /// Whether an 8C reports what it formatted; the fault takes a refused one for one that does.
    fn formatted(&self) -> bool {
        self.answer == 0 || seeded(Fault::RefusedFormatWordsWritten)
    }

    /// "the 28 of each fetched block; a UIB that passed check 12; a list of 1 to 64 elements that
    /// lies at an even address and in memory, once checks 10 to 17 are passed; the data of 82, A2
    /// and 8C"
    fn read(&self, host: &[u8]) -> Touched {
        let block = &self.block;
        let mut read = vec![(Line::Block, range(self.at, BLOCK_BYTES as u64))];
        if block.command == 0x87 && passed(12, self.answer) {
            let uib = range(block.buffer_address, UIB_BYTES as u64);
            read.push((Line::Uib, uib));
        }
        if list_was_read(host, block, self.answer) {
            let list = range(block.buffer_address, list_bytes(block));
            read.push((Line::List, list));
        }
        if matches!(block.command, 0x82 | 0xa2 | 0x8c) {
            for piece in &self.pieces {
                read.push((Line::DataTaken, range(piece.address, piece.bytes)));
            }
        }
        read.extend(self.taken_for_read(host));
        read
    }

    /// "word 1 of each fetched block, words 2 to 7 for 86, the data bytes that 81 and A1 moved"; and
    /// for an 8C that ended 80 the lower byte of word 3, and word 4 (paper 02, K1)
    fn written(&self) -> Touched {
        let at = self.at as u64;
        let mut written = vec![(Line::Word1, at + 2..at + 4)];
        if self.block.command == 0x86 {
            written.push((Line::Identity, at + 4..at + 16));
        }
        if self.block.command == 0x85 && seeded(Fault::RemapWordsWritten) {
            // as if it reported the tracks that it was given
            written.push((Line::Identity, at + 4..at + 12));
        }
        if self.block.command == 0x8c && self.formatted() {
            let word_5 = at + 10;
            let end = if seeded(Fault::WordAfterFormatWords) {
                // one word too many
                word_5 + 2
            } else {
                word_5
            };
            written.push((Line::Formatted, at + 7..end));
        }
        if matches!(self.block.command, 0x81 | 0xa1) {
            let moved = if seeded(Fault::UnmovedRestWritten) {
                // as if no mark had stopped it
                self.asked
            } else {
                self.moved
            };
            for piece in filled(&self.pieces, moved) {
                written.push((Line::DataMoved, range(piece.address, piece.bytes)));
            }
        }
        written
    }

    /// What the faults take for read that nobody reads, as far as memory goes.
    fn taken_for_read(&self, host: &[u8]) -> Touched {
        let block = &self.block;
        let address = block.buffer_address;
        let takes = matches!(block.command, 0x82 | 0x8c);
        let lists = matches!(block.command, 0xa1 | 0xa2);
        let (line, bytes) = if seeded(Fault::RefusedDataRead) && takes && self.refused() {
            (Line::DataTaken, self.asked)
        } else if seeded(Fault::UnreadListRead) && self.answer == 18 {
            (Line::List, list_bytes(block))
        } else if seeded(Fault::MisplacedUibRead) && self.answer == 12 {
            (Line::Uib, UIB_BYTES as u64)
        } else if seeded(Fault::HeldUibRead) && self.answer == 24 && block.command == 0x87 {
            (Line::Uib, UIB_BYTES as u64)
        } else if seeded(Fault::HeldListRead) && self.answer == 24 && lists {
            (Line::List, list_bytes(block))
        } else {
            return Vec::new();
        };
        let memory = host.len() as u64;
        let range = range(address, bytes);
        vec![(line, range.start.min(memory)..range.end.min(memory))]
    }

    /// Whether a fault forgets a line of the list.
    fn forgotten(&self, line: Line) -> bool {
        let refused = self.refused();
        match line {
            Line::Block => seeded(Fault::BlockNotRead),
            Line::Uib => seeded(Fault::UibNotRead) || refused && seeded(Fault::RefusedUibNotRead),
            Line::List => {
                seeded(Fault::ListNotRead) || refused && seeded(Fault::RefusedListNotRead)
            }
            Line::DataTaken if self.block.command == 0x8c => seeded(Fault::FormatDataNotRead),
            Line::DataTaken => seeded(Fault::DataNotRead),
            Line::Word1 => seeded(Fault::Word1NotWritten),
            Line::Identity => seeded(Fault::IdentityNotWritten),
            Line::Formatted => seeded(Fault::FormatWordsNotWritten),
            Line::DataMoved => {
                seeded(Fault::DataNotWritten)
                    || self.answer == 20 && seeded(Fault::StoppedDataNotWritten)
            }
        }
    }
}

fn range(from: u32, bytes: u64) -> Range<u64> {
    from as u64..from as u64 + bytes
}

/// Marks each byte of what a block touched.
fn mark(bytes: &mut [bool], fetched: &Fetched, touched: Touched) {
    for (line, range) in touched {
        if fetched.forgotten(line) {
            continue;
        }
        let end = end(line, &range, bytes.len() as u64);
        for place in range.start..end {
            bytes[place as usize] = true;
        }
    }
}

/// Where a range ends; two faults put the end of the data elsewhere.
fn end(line: Line, range: &Range<u64>, memory: u64) -> u64 {
    let data = matches!(line, Line::DataTaken | Line::DataMoved);
    if data && seeded(Fault::LastWordForgotten) {
        return range.end - 2;
    }
    if data && seeded(Fault::ByteAfterData) {
        return (range.end + 1).min(memory);
    }
    range.end
}
