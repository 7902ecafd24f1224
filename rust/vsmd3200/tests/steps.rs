//! Chains made of steps: they leave what a run leaves, and a step that is refused leaves every byte.

mod common;

use common::{SMALL, UIB};
use vsmd3200::bytes::{block, command, option, record, status};
use vsmd3200::{
    run_as, step_as, BlockAnswer, Controller, Outcome, Pair, Record, RunAnswer, StepRefused,
    Stepped, Track, EVENTS_LEN_LEAST, EVENT_LEN,
};

/// All that is lent to a run or a step.
#[derive(Clone, Debug, PartialEq)]
struct Lent {
    host: Vec<u8>,
    image: Vec<u8>,
    events: Vec<u8>,
    records: [Record; 2],
}

impl Lent {
    /// Host memory of 300 bytes without a block, an image whose sectors differ, no unit initialized.
    fn new() -> Lent {
        let mut image: Vec<u8> = (0..7680usize)
            .map(|k| (k * 7 + k / 64 * 13) as u8)
            .collect();
        image.resize(7800, 0);
        Lent {
            host: vec![0; 300],
            image,
            events: vec![0xdd; EVENTS_LEN_LEAST],
            records: [Record::UNINITIALIZED; 2],
        }
    }

    /// Initialize at 0 linked to a read of 2 from logical 7 at 28, the UIB at 56, the data at 100.
    fn example() -> Lent {
        let mut lent = Lent::new();
        lent.lay(0, command::INITIALIZE, option::LK, 56, 28);
        lent.lay(28, command::READ, option::XL | option::IE, 100, 0);
        lent.host[28 + block::AT_LOGICAL + 3] = 7;
        lent.host[28 + block::AT_COUNT + 1] = 2;
        lent.host[28 + block::AT_LEVEL] = 3;
        lent.host[28 + block::AT_NORMAL_VECTOR] = 0x40;
        lent.host[56..74].copy_from_slice(&UIB);
        lent
    }

    fn lay(&mut self, at: usize, command: u8, options: u8, address: u32, link: u32) {
        let laid = &mut self.host[at..at + block::LEN];
        laid[block::AT_COMMAND] = command;
        laid[block::AT_OPTIONS] = options;
        laid[block::AT_ADDRESS..][..4].copy_from_slice(&address.to_be_bytes());
        laid[block::AT_LINK..][..4].copy_from_slice(&link.to_be_bytes());
    }

    fn run(&mut self, first: u32, allowance: u32, controller: Controller) -> Outcome {
        run_as(
            &mut self.host,
            &mut self.image,
            &mut [],
            &mut self.events,
            &mut self.records,
            first,
            allowance,
            controller,
        )
    }

    fn step(
        &mut self,
        at: u32,
        index: u32,
        controller: Controller,
    ) -> Result<Stepped, StepRefused> {
        step_as(
            &mut self.host,
            &mut self.image,
            &mut [],
            &mut self.events,
            &mut self.records,
            at,
            index,
            controller,
        )
    }

    /// The chain in a loop of steps, up to an allowance, and what a run would say of it.
    fn steps(&mut self, first: u32, allowance: u32, controller: Controller) -> Outcome {
        let mut outcome = Outcome {
            answer: RunAnswer::AllowanceSpent,
            failed: None,
            blocks: 0,
            sectors: 0,
        };
        let mut at = first;
        while outcome.blocks < allowance {
            let stepped = match self.step(at, outcome.blocks, controller) {
                Ok(stepped) => stepped,
                Err(refused) => {
                    assert_eq!(refused, StepRefused::BlockBad);
                    outcome.answer = RunAnswer::LinkBad;
                    return outcome;
                }
            };
            outcome.blocks += 1;
            outcome.sectors += stepped.sectors;
            if stepped.answer.is_some() {
                outcome.answer = RunAnswer::BlockFailed;
                outcome.failed = stepped.answer;
                return outcome;
            }
            if !stepped.follow {
                outcome.answer = RunAnswer::Done;
                return outcome;
            }
            at = stepped.link;
        }
        outcome
    }
}

/// Whether a chain from 0 leaves the same by steps as by a run, and how it ends.
fn both_ways(lent: &Lent, allowance: u32) -> Outcome {
    left_both_ways(lent, allowance).0
}

/// The same, with what both of them leave.
fn left_both_ways(lent: &Lent, allowance: u32) -> (Outcome, Lent) {
    let [first, second] = Controller::ALL.map(|controller| {
        let (mut by_run, mut by_steps) = (lent.clone(), lent.clone());
        let outcome = by_run.run(0, allowance, controller);
        assert_eq!(by_steps.steps(0, allowance, controller), outcome);
        assert_eq!(by_steps, by_run);
        (outcome, by_run)
    });
    assert_eq!(first, second);
    first
}

#[test]
fn the_example_is_made_of_two_steps() {
    let lent = Lent::example();
    let outcome = both_ways(&lent, 64);
    assert_eq!(outcome.answer, RunAnswer::Done);
    assert_eq!((outcome.blocks, outcome.sectors), (2, 2));

    let mut lent = lent;
    let first = Stepped {
        answer: None,
        follow: true,
        sectors: 0,
        link: 28,
    };
    assert_eq!(lent.step(0, 0, Controller::First), Ok(first));
    // of the read nothing is done yet
    assert_eq!(lent.records[0], Record::from_parts(true, SMALL, 0));
    assert_eq!(lent.host[28 + block::AT_STATUS], 0);
    assert_eq!(lent.events[EVENT_LEN..], [0xdd; EVENTS_LEN_LEAST][8..]);
    let second = Stepped {
        answer: None,
        follow: false,
        sectors: 2,
        link: 0,
    };
    assert_eq!(lent.step(28, 1, Controller::First), Ok(second));
    assert_eq!(lent.host[100..164], lent.image[448..512]);
    assert_eq!(lent.host[164..228], lent.image[768..832]);
    assert_eq!(lent.events[..8], [0x80, 0, 0, 0, 0, 0, 0, 0]);
    assert_eq!(lent.events[8..16], [0x80, 0, 3, 0x40, 0, 0, 0, 1]);
    assert_eq!(lent.records[0], Record::from_parts(true, SMALL, 1));
}

#[test]
fn every_end_of_a_chain_is_found_by_steps() {
    // the allowance is spent, and the initialize has a link
    let outcome = both_ways(&Lent::example(), 1);
    assert_eq!(outcome.answer, RunAnswer::AllowanceSpent);
    // the second of the read's sectors is unreadable
    let mut failing = Lent::example();
    failing.image[7680 + 12] = 1;
    let outcome = both_ways(&failing, 64);
    assert_eq!(outcome.failed, Some(BlockAnswer::Unreadable));
    assert_eq!((outcome.blocks, outcome.sectors), (2, 1));
    // odd, and not wholly in host memory
    for link in [29, 274, u32::MAX - 1] {
        let mut astray = Lent::example();
        astray.lay(0, command::INITIALIZE, option::LK, 56, link);
        let outcome = both_ways(&astray, 64);
        assert_eq!((outcome.answer, outcome.blocks), (RunAnswer::LinkBad, 1));
    }
    // a handshake that links to itself
    let mut circle = Lent::new();
    circle.lay(0, command::HANDSHAKE, option::LK, 0, 0);
    let outcome = both_ways(&circle, 64);
    assert_eq!(outcome.answer, RunAnswer::AllowanceSpent);
    assert_eq!(outcome.blocks, 64);
}

/// The read's data go over the read itself. A run follows the link that it fetched, and a step tells it.
#[test]
fn the_link_is_the_one_that_was_fetched() {
    let mut lent = Lent::example();
    lent.lay(0, command::READ, option::XL | option::LK, 0, 200);
    lent.host[block::AT_COUNT + 1] = 1;
    lent.lay(200, command::HANDSHAKE, 0, 0, 0);
    lent.records[0] = Record::from_parts(true, SMALL, 4);
    let outcome = both_ways(&lent, 64);
    assert_eq!((outcome.answer, outcome.blocks), (RunAnswer::Done, 2));
    let stepped = lent.step(0, 0, Controller::First).unwrap();
    assert_eq!(
        (stepped.follow, stepped.link, stepped.sectors),
        (true, 200, 1)
    );
    assert_ne!(lent.host[block::AT_LINK + 3], 200);
}

/// An 85 of the track on a cylinder, head 0, whose spare is on cylinder 9, head 2.
fn lay_remap(lent: &mut Lent, at: usize, options: u8, cylinder: u8, link: u32) -> Pair {
    lent.lay(at, command::MAP_TRACK, options, 0, link);
    lent.host[at + block::AT_CYLINDER + 1] = cylinder;
    lent.host[at + block::AT_SPARE_CYLINDER + 1] = 9;
    lent.host[at + block::AT_SPARE_HEAD] = 2;
    let track = |cylinder, head| Track { cylinder, head };
    Pair {
        bad: track(cylinder.into(), 0),
        spare: track(9, 2),
    }
}

/// The small drive with its heads on cylinder 0 and no pairs, and 5A in all of their room.
fn with_other_bytes() -> Record {
    let mut bytes = *Record::from_parts(true, SMALL, 0).as_bytes();
    bytes[record::AT_TABLE..].fill(0x5a);
    Record::from_bytes(bytes)
}

/// An 85 at 0, an initialize at 28, and another 85 at 74. A run stores the record once and a loop of
/// steps three times, the first pair too; the initialize leaves nothing of it.
#[test]
fn an_initialize_clears_the_table_both_ways() {
    let mut lent = Lent::example();
    lent.records[0] = with_other_bytes();
    let first = lay_remap(&mut lent, 0, option::LK, 1, 28);
    lent.lay(28, command::INITIALIZE, option::LK, 56, 74);
    let last = lay_remap(&mut lent, 74, 0, 2, 0);
    let fresh = Record::from_parts(true, SMALL, 0);
    let left = |blocks| {
        let (outcome, left) = left_both_ways(&lent, blocks);
        assert_eq!((outcome.blocks, outcome.failed), (blocks, None));
        assert_eq!(left.records[1], Record::UNINITIALIZED);
        left.records[0]
    };
    // the pair is stored, and what stands past it is as it came
    assert_eq!(Some(left(1)), with_other_bytes().with_pairs(&[first]));
    assert_eq!(left(2), fresh);
    assert_eq!(left(2).as_bytes()[record::AT_TABLE..], [0; 256]);
    assert_eq!(Some(left(3)), fresh.with_pairs(&[last]));
}

/// The drive is initialized as it was: the bytes of the table are all that is another afterwards. An
/// initialize that is refused leaves them, and so does every other block.
#[test]
fn the_room_of_a_table_is_cleared_by_an_initialize_alone() {
    let mut lent = Lent::example();
    lent.records[0] = with_other_bytes();
    lent.lay(0, command::INITIALIZE, 0, 56, 0);
    let (outcome, left) = left_both_ways(&lent, 1);
    assert_eq!(outcome.answer, RunAnswer::Done);
    assert_eq!(left.records[0], Record::from_parts(true, SMALL, 0));

    lent.host[56 + 12] = 0xff;
    let (outcome, left) = left_both_ways(&lent, 1);
    assert_eq!(outcome.failed, Some(BlockAnswer::UibOutsideLimits));
    assert_eq!(left.records, lent.records);

    lent.lay(0, command::RESTORE, 0, 0, 0);
    let (outcome, left) = left_both_ways(&lent, 1);
    assert_eq!(outcome.answer, RunAnswer::Done);
    assert_eq!(left.records, lent.records);
}

#[test]
fn a_block_that_fails_is_no_error() {
    let mut lent = Lent::new();
    lent.lay(0, command::RESTORE, option::LK, 0, 0x8001_0203);
    let stepped = Stepped {
        answer: Some(BlockAnswer::NotInitialized),
        follow: false,
        sectors: 0,
        link: 0x8001_0203,
    };
    assert_eq!(lent.step(0, 0, Controller::First), Ok(stepped));
    assert_eq!(lent.host[block::AT_STATUS], status::FAILED);
    assert_eq!(lent.events[..8], [0x82, 0x40, 0, 0, 0, 0, 0, 0]);
}

#[test]
fn a_step_that_is_refused_leaves_every_byte() {
    let before = Lent::example();
    let mut lent = before.clone();
    let entries = (EVENTS_LEN_LEAST / EVENT_LEN) as u32;
    for controller in Controller::ALL {
        // room for the entry is asked first
        for index in [entries, 1 << 29, u32::MAX] {
            for at in [0, 1] {
                let refused = lent.step(at, index, controller);
                assert_eq!(refused, Err(StepRefused::EntryShort));
            }
        }
        for at in [1, 273, 274, 300, u32::MAX - 1, u32::MAX] {
            let refused = lent.step(at, 0, controller);
            assert_eq!(refused, Err(StepRefused::BlockBad));
        }
    }
    assert_eq!(lent, before);
    lent.events.truncate(7);
    let refused = lent.step(0, 0, Controller::First);
    assert_eq!(refused, Err(StepRefused::EntryShort));
    lent.events.clear();
    let refused = lent.step(0, 0, Controller::First);
    assert_eq!(refused, Err(StepRefused::EntryShort));
    assert_eq!((&lent.host, &lent.image), (&before.host, &before.image));
}

/// A step takes a short event buffer, and a loop of steps goes past 64 blocks where it is long.
#[test]
fn the_event_buffer_is_as_long_as_the_loop_wants() {
    let mut lent = Lent::new();
    lent.lay(0, command::HANDSHAKE, option::LK, 0, 0);
    lent.events = vec![0xdd; 8 * 100 + 7];
    for index in 0..100 {
        let stepped = lent.step(0, index, Controller::First).unwrap();
        assert!(stepped.follow);
        let at = EVENT_LEN * index as usize;
        assert_eq!(lent.events[at..at + 8], [0x80, 0, 0, 0, 0, 0, 0, 0]);
        assert!(lent.events[at + 8..].iter().all(|byte| *byte == 0xdd));
    }
    let refused = lent.step(0, 100, Controller::First);
    assert_eq!(refused, Err(StepRefused::EntryShort));
}

/// Between two steps of a chain the other controller may ask.
#[test]
fn a_drive_is_held_from_step_to_step() {
    let (first, second) = (Controller::First, Controller::Second);
    let mut lent = Lent::new();
    lent.records[0] = Record::from_parts(true, SMALL, 4);
    lent.lay(0, command::RESTORE, option::RV | option::LK, 0, 28);
    lent.lay(28, command::RESTORE, 0, 0, 0);
    let held = Some(BlockAnswer::DriveHeld);
    assert_eq!(lent.step(0, 0, first).unwrap().answer, None);
    assert_eq!(lent.records[0].holder(), Some(first));
    assert_eq!(lent.step(28, 1, second).unwrap().answer, held);
    assert_eq!(lent.step(28, 1, first).unwrap().answer, None);
    assert_eq!(lent.records[0].holder(), None);
    assert_eq!(lent.step(28, 1, second).unwrap().answer, None);
}
