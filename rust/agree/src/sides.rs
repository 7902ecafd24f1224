//! The two that are compared: the library, and the model.

use crate::case::{record_in, record_left, Case, RecordBytes, HOLDER_AT};
use crate::standing::{self, Told};
use model::{Holder, Outcome, Part, Trace, World};

/// All that a side leaves of a case.
pub struct Left {
    pub outcome: Outcome,
    pub host: Vec<u8>,
    pub images: [Vec<u8>; 2],
    pub events: Vec<u8>,
    pub records: [RecordBytes; 2],
    pub parts: Vec<Part>,
    pub told: Vec<Told>,
    /// A buffer next to which bytes were changed that had not been lent.
    pub outside: Option<&'static str>,
}

/// Who stands against the model.
#[derive(Clone, Copy, PartialEq, Eq)]
pub enum Opponent {
    Library,
    /// The model itself, to try the worlds without the library.
    Itself,
}

impl Opponent {
    pub fn run(self, case: &Case) -> Left {
        match self {
            Opponent::Library => library::run(case),
            Opponent::Itself => model_side(case).0,
        }
    }

    /// The same chain made of steps, as long as a link is to be followed and fewer blocks were run than
    /// the allowance has. Nothing is inspected. A line where a step was refused that no run is.
    pub fn steps(self, case: &Case) -> Result<Left, String> {
        match self {
            Opponent::Library => library::steps(case),
            Opponent::Itself => unreachable!("the model makes no steps"),
        }
    }

    /// The record of a drive that is released, and whether somebody held it.
    pub fn release(self, bytes: &RecordBytes) -> (RecordBytes, bool) {
        match self {
            Opponent::Library => library::release(bytes),
            Opponent::Itself => released(bytes),
        }
    }
}

/// The same as it should be: byte 17 of a record that names a holder becomes 0, and no other byte
/// changes.
pub fn released(bytes: &RecordBytes) -> (RecordBytes, bool) {
    let mut left = *bytes;
    let held = record_in(bytes).holder != Holder::Nobody;
    if held {
        left[HOLDER_AT] = 0;
    }
    (left, held)
}

fn world(case: &Case) -> World {
    World {
        controller: case.controller,
        host: case.host.clone(),
        images: case.images.clone(),
        records: [record_in(&case.records[0]), record_in(&case.records[1])],
        events: case.events.clone(),
    }
}

/// The model's run, with what happened at each block.
pub fn model_side(case: &Case) -> (Left, Trace) {
    let mut world = world(case);
    let (outcome, trace) = model::run_traced(&mut world, case.first, case.allowance);
    let own = [world.images[0].len() as u64, world.images[1].len() as u64];
    let parts = case
        .inspections
        .iter()
        .map(|i| model::inspect(&world.records, i.image_lens.unwrap_or(own), i.unit, i.place))
        .collect();
    let records = [
        record_left(&case.records[0], &world.records[0]),
        record_left(&case.records[1], &world.records[1]),
    ];
    let left = Left {
        outcome,
        host: world.host,
        images: world.images,
        events: world.events,
        records,
        parts,
        told: standing::ask(case, &records, standing::answer),
        outside: None,
    };
    (left, trace)
}

/// Host memory as the model has it when the k-th block is fetched, k from 1.
pub fn memory_at_fetch(case: &Case, k: u32) -> Vec<u8> {
    let mut world = world(case);
    if k > 1 {
        model::run(&mut world, case.first, k - 1);
    }
    world.host
}

#[cfg(not(feature = "library"))]
mod library {
    use super::{Case, Left, RecordBytes};

    pub fn run(_: &Case) -> Left {
        unreachable!("refused at the command line")
    }

    pub fn steps(_: &Case) -> Result<Left, String> {
        unreachable!("refused at the command line")
    }

    pub fn release(_: &RecordBytes) -> (RecordBytes, bool) {
        unreachable!("refused at the command line")
    }
}

#[cfg(feature = "library")]
mod library {
    use super::{Case, Left, RecordBytes};
    use crate::case::Inspection;
    use crate::standing::{self, Answer, Asked};
    use model::{Controller, Outcome, Part};
    use vsmd3200::{Record, StepRefused};

    const GUARD: u8 = 0xa5;

    /// A lent buffer with bytes on both sides that are not lent, and that have to stay. The first
    /// lent byte stands at any alignment.
    struct Guarded {
        bytes: Vec<u8>,
        before: usize,
        len: usize,
    }

    impl Guarded {
        fn new(lent: &[u8], before: usize) -> Guarded {
            let mut bytes = Vec::with_capacity(before + lent.len() + 32);
            bytes.resize(before, GUARD);
            bytes.extend_from_slice(lent);
            bytes.resize(before + lent.len() + 32, GUARD);
            Guarded {
                bytes,
                before,
                len: lent.len(),
            }
        }

        fn lent(&mut self) -> &mut [u8] {
            &mut self.bytes[self.before..self.before + self.len]
        }

        fn guards_stand(&self) -> bool {
            let after = &self.bytes[self.before + self.len..];
            let all = |bytes: &[u8]| bytes.iter().all(|byte| *byte == GUARD);
            all(&self.bytes[..self.before]) && all(after)
        }

        fn into_lent(mut self) -> Vec<u8> {
            self.bytes.truncate(self.before + self.len);
            self.bytes.split_off(self.before)
        }
    }

    /// All that is lent of a case, with its guards.
    struct Lent {
        host: Guarded,
        image0: Guarded,
        image1: Guarded,
        events: Guarded,
        records: [Record; 2],
    }

    impl Lent {
        fn of(case: &Case) -> Lent {
            let shift = case.host.len() % 8;
            Lent {
                host: Guarded::new(&case.host, 32 + shift),
                image0: Guarded::new(&case.images[0], 33 + shift),
                image1: Guarded::new(&case.images[1], 34 + shift),
                events: Guarded::new(&case.events, 35 + shift),
                records: case.records.map(Record::from_bytes),
            }
        }

        /// What is left of it, and what these inspections find.
        fn left(self, outcome: Outcome, inspections: &[Inspection]) -> Left {
            let named = [
                ("host memory", &self.host),
                ("image 0", &self.image0),
                ("image 1", &self.image1),
                ("events", &self.events),
            ];
            let outside = named
                .iter()
                .find(|(_, buffer)| !buffer.guards_stand())
                .map(|(name, _)| *name);
            let images = [self.image0.into_lent(), self.image1.into_lent()];
            let parts = inspections
                .iter()
                .map(|i| part(&images, &self.records, i))
                .collect();
            Left {
                outcome,
                host: self.host.into_lent(),
                images,
                events: self.events.into_lent(),
                records: self.records.map(|record| *record.as_bytes()),
                parts,
                told: Vec::new(),
                outside,
            }
        }
    }

    pub fn run(case: &Case) -> Left {
        let mut lent = Lent::of(case);
        let outcome = call(case, &mut lent);
        let outcome = Outcome {
            answer: outcome.answer.number(),
            failed: outcome.failed.map_or(0, |failed| failed.number()),
            blocks: outcome.blocks,
            sectors: outcome.sectors,
        };
        let left = lent.left(outcome, &case.inspections);
        Left {
            told: standing::ask(case, &left.records, told),
            ..left
        }
    }

    /// The outcome is the one that a run has which ended as the loop did. The loop goes by `follow` alone,
    /// as a board's would: a step that said it of a block which failed would be seen by the blocks after it.
    pub fn steps(case: &Case) -> Result<Left, String> {
        let mut lent = Lent::of(case);
        let controller = named(case.controller);
        let (mut at, mut failed, mut blocks, mut sectors) = (case.first, 0, 0, 0);
        let answer = loop {
            let stepped = vsmd3200::step_as(
                lent.host.lent(),
                lent.image0.lent(),
                lent.image1.lent(),
                lent.events.lent(),
                &mut lent.records,
                at,
                blocks,
                controller,
            );
            let stepped = match stepped {
                Ok(stepped) => stepped,
                Err(StepRefused::BlockBad) if blocks == 0 => break 3,
                Err(StepRefused::BlockBad) => break 5,
                Err(refused) => return Err(format!("step {} is refused: {}", blocks + 1, refused)),
            };
            failed = stepped.answer.map_or(0, |failed| failed.number());
            blocks += 1;
            sectors += stepped.sectors;
            if !stepped.follow {
                break if failed == 0 { 0 } else { 4 };
            }
            if blocks >= case.allowance {
                break 6;
            }
            at = stepped.link;
        };
        let outcome = Outcome {
            answer,
            failed,
            blocks,
            sectors,
        };
        Ok(lent.left(outcome, &[]))
    }

    /// A controller by the wrapper's name for it.
    fn named(controller: Controller) -> vsmd3200::Controller {
        match controller {
            Controller::First => vsmd3200::Controller::First,
            Controller::Second => vsmd3200::Controller::Second,
        }
    }

    /// The run by the call that is for its controller. The first has two: which of them is made goes by
    /// whether host memory has an odd length, so that both are tried.
    fn call(case: &Case, lent: &mut Lent) -> vsmd3200::Outcome {
        let Case {
            first, allowance, ..
        } = *case;
        let (host, image0, image1) = (lent.host.lent(), lent.image0.lent(), lent.image1.lent());
        let (events, records) = (lent.events.lent(), &mut lent.records);
        let controller = named(case.controller);
        if case.controller == Controller::First && host.len() % 2 == 0 {
            vsmd3200::run(host, image0, image1, events, records, first, allowance)
        } else {
            vsmd3200::run_as(
                host, image0, image1, events, records, first, allowance, controller,
            )
        }
    }

    /// What the wrapper makes of a record when its drive is released, and whether it says that somebody
    /// held it.
    pub fn release(bytes: &RecordBytes) -> (RecordBytes, bool) {
        let mut record = Record::from_bytes(*bytes);
        let held = record.release();
        (*record.as_bytes(), held)
    }

    fn part(images: &[Vec<u8>; 2], records: &[Record; 2], asked: &Inspection) -> Part {
        match asked.image_lens {
            None => lent_part(images, records, asked),
            Some(lens) => {
                let lens = lens.map(|len| len as usize);
                let part = vsmd3200::part_of(records, lens, asked.unit, asked.place);
                Part {
                    unit: part.image as u8,
                    at: part.at as u64,
                    bytes: part.bytes as u64,
                }
            }
        }
    }

    fn told(bytes: &RecordBytes, asked: Asked) -> Answer {
        let record = Record::from_bytes(*bytes);
        let sector = match asked {
            Asked::Need => {
                let need = record.image_need().map(|need| vec![need]);
                return need.ok_or(standing::NOT_INITIALIZED);
            }
            Asked::Of { volume, number } => record.sector_of(volume, number),
            Asked::At {
                cylinder,
                head,
                sector,
            } => record.sector_at(cylinder, head, sector),
        };
        let numbers = sector.map(|sector| vec![sector.place, sector.first, sector.mark]);
        numbers.map_err(|untold| untold as u32)
    }

    /// Which part of which image was lent, told from where the lent bytes stand.
    fn lent_part(images: &[Vec<u8>; 2], records: &[Record; 2], asked: &Inspection) -> Part {
        let lent = vsmd3200::inspect(&images[0], &images[1], records, asked.unit, asked.place);
        let start = lent.as_ptr() as usize;
        let unit = (0..2u8)
            .find(|unit| {
                images[*unit as usize]
                    .as_ptr_range()
                    .contains(&lent.as_ptr())
            })
            .unwrap_or(0);
        Part {
            unit,
            at: start.wrapping_sub(images[unit as usize].as_ptr() as usize) as u64,
            bytes: lent.len() as u64,
        }
    }
}
