//! Two chains over one starting state, for demand 3.
//!
//! All that the two have in host memory is laid side by side in a drawn order, with small gaps or
//! none. So the chains keep apart, and touch at their edges. Data that are not going to be moved
//! have no room of their own and lie over whatever comes next. Then two things, one of each chain,
//! may be laid over one another, or both chains be given one unit. All of this is only meant: what
//! came of it the footprints say.

mod layout;
mod steps;

use super::chain::{Aim, Maker, Unit, BLOCK, UIB};
use super::drives::geometry;
use super::memory::Memory;
use super::{orders, tables, Theme};
use crate::case::Case;
use crate::draw::Draw;
use model::{Block, Controller, Geometry, Record};

/// What a chain has in host memory.
#[derive(Clone, Copy, PartialEq, Eq)]
enum Kind {
    Block,
    /// The block of an 86.
    Handshake,
    /// The block of an 85, in pairs that are about tables.
    Remap,
    /// A list or a UIB.
    Table,
    /// The data of 82, A2 and 8C.
    Taken,
    /// The data of 81 and A1.
    Stored,
}

struct Thing {
    chain: usize,
    kind: Kind,
    /// The bytes that it has for itself.
    room: u64,
    at: u64,
}

/// Which units the blocks of the two chains name.
#[derive(Clone, Copy)]
enum Units {
    /// Chain 0 this one, chain 1 the other.
    Apart(usize),
    One(usize),
    Any,
}

/// How a chain ends.
#[derive(Clone, Copy, PartialEq, Eq)]
enum End {
    Done,
    Stopped,
    Refused,
    /// With a link back into the chain, or to no block.
    Linked,
}

/// A block and what belongs to it. Things are told by their numbers; where they lie comes later.
struct Step {
    block: Block,
    /// The drive that the block meets.
    drive: Record,
    aim: Option<Aim>,
    /// The thing that the block lies in, and where in it.
    place: (usize, u64),
    /// The block is not in memory but in the sectors that this step reads to its place.
    read_by: Option<usize>,
    /// The list or the UIB.
    table: Option<usize>,
    uib: [u8; UIB],
    /// What stands at the start of the table instead of what should.
    spoiled: Vec<u8>,
    /// The bytes of each piece of data, and the thing.
    pieces: Vec<(u64, usize)>,
    /// The address of the UIB or of the first piece is odd.
    odd: bool,
}

struct Plan {
    maker: Maker,
    /// Who runs each chain.
    controllers: [Controller; 2],
    things: Vec<Thing>,
    chains: [Vec<Step>; 2],
    ends: [End; 2],
    /// Unit, geometry and place of each sector that is to be unreadable.
    unreadable: Vec<(usize, Geometry, u64)>,
    /// Data of one chain, and what of the other they lie over.
    over: Option<(usize, usize)>,
}

/// The pair with an index: two cases that differ in first block, allowance and event buffer, and where
/// drives are held in the controller, and in nothing else. Two controllers begin with memories of the
/// same bytes.
pub fn pair(theme: Theme, seed: u64, index: u64) -> [Case; 2] {
    let mut draw = Draw::of(theme.seed(seed) ^ 0xd3, index);
    let over = draw.percent(40);
    let unit = draw.below(2) as usize;
    // A pair that breaks the condition in two ways shows less.
    let one_unit = if over { 1 } else { 5 };
    let units = draw.weighted(&[
        (20, Units::Apart(unit)),
        (one_unit, Units::One(unit)),
        (1, Units::Any),
    ]);
    let mut plan = Plan::new(theme, draw);
    for chain in 0..2 {
        plan.chain(chain, units);
    }
    plan.lay_out(over);
    let images = plan.fill();
    [0, 1].map(|chain| plan.case(chain, &images))
}

impl Plan {
    fn new(theme: Theme, mut draw: Draw) -> Plan {
        let units = [0, 1].map(|_| {
            let meant = small(theme, &mut draw);
            if theme == Theme::Held {
                return Unit::held_as(&mut draw, meant);
            }
            if theme == Theme::Orders {
                return Unit::ordered_as(&mut draw, meant, false);
            }
            if theme.tables() {
                return Unit::tabled_as(&mut draw, meant, false);
            }
            let is_ready = draw.percent(85);
            Unit::with(&mut draw, meant, false, is_ready)
        });
        let memory = Memory::new(&mut draw, 0, 0);
        let controllers = controllers(theme, &mut draw);
        let maker = Maker {
            theme,
            draw,
            slips: 0,
            memory,
            units,
            at: Vec::new(),
            blocks: Vec::new(),
            plants: Vec::new(),
        };
        Plan {
            maker,
            controllers,
            things: Vec::new(),
            chains: [Vec::new(), Vec::new()],
            ends: [End::Done; 2],
            unreadable: Vec::new(),
            over: None,
        }
    }

    fn thing(&mut self, chain: usize, kind: Kind, room: u64) -> usize {
        self.things.push(Thing {
            chain,
            kind,
            room,
            at: 0,
        });
        self.things.len() - 1
    }

    fn case(&mut self, chain: usize, images: &[Vec<u8>; 2]) -> Case {
        let blocks = self.chains[chain].len() as u64;
        let first = self.at(&self.chains[chain][0]);
        let draw = &mut self.maker.draw;
        let fewer = draw.between(1, blocks);
        let more = blocks + draw.below(4);
        let events = 512 + draw.even(20) as usize;
        let mut case = Case {
            controller: self.controllers[chain],
            host: self.maker.memory.bytes.clone(),
            images: images.clone(),
            events: draw.bytes(events),
            records: [self.maker.units[0].record, self.maker.units[1].record],
            first,
            allowance: draw.weighted(&[(16, more), (3, fewer), (1, 64)]) as u32,
            inspections: Vec::new(),
        };
        if draw.one_in(40) {
            refuse_run(draw, &self.maker.memory, &mut case);
        }
        case
    }
}

/// The two chains are the first controller's, but where drives are held.
fn controllers(theme: Theme, draw: &mut Draw) -> [Controller; 2] {
    if theme == Theme::Held {
        [0, 1].map(|_| draw.pick(&Controller::BOTH))
    } else {
        [Controller::First; 2]
    }
}

/// The smaller of two drives: its image is copied many times.
fn small(theme: Theme, draw: &mut Draw) -> Geometry {
    let any = if theme == Theme::Orders {
        orders::geometry
    } else if theme.tables() {
        tables::geometry
    } else {
        geometry
    };
    let (one, other) = (any(draw), any(draw));
    if one.need() < other.need() {
        one
    } else {
        other
    }
}

/// Lets the run be refused, by 1, 2 or 3.
fn refuse_run(draw: &mut Draw, memory: &Memory, case: &mut Case) {
    match draw.below(3) {
        0 => case.events.truncate(511),
        1 => case.allowance = draw.pick(&[0, 65, 0x101]),
        _ => case.first = memory.misplaced(draw, BLOCK),
    }
}
