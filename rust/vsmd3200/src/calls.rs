//! The foreign calls, and the safe functions around them.

use crate::answers::{answer_text, StepRefused};
use crate::layouts::{
    Controller, Outcome, Record, Stepped, LAYOUT_VERSION, OUTCOME_LEN, RECORD_LEN, STEPPED_LEN,
};

/// The functions of the archive, as `include/vsmd3200.h` declares them. Each lent slice crosses
/// as a pointer and a length. Lengths have 64 bits there, whatever those of this machine have.
pub(crate) mod foreign {
    extern "C" {
        pub fn vsmd_layout_version() -> u32;
        pub fn vsmd_record_len() -> u64;
        pub fn vsmd_outcome_len() -> u64;
        pub fn vsmd_run(
            host: *mut u8,
            host_len: u64,
            image0: *mut u8,
            image0_len: u64,
            image1: *mut u8,
            image1_len: u64,
            events: *mut u8,
            events_len: u64,
            record0: *mut u8,
            record0_len: u64,
            record1: *mut u8,
            record1_len: u64,
            outcome: *mut u8,
            outcome_len: u64,
            first: u32,
            allowance: u32,
        ) -> u32;
        pub fn vsmd_run_as(
            host: *mut u8,
            host_len: u64,
            image0: *mut u8,
            image0_len: u64,
            image1: *mut u8,
            image1_len: u64,
            events: *mut u8,
            events_len: u64,
            record0: *mut u8,
            record0_len: u64,
            record1: *mut u8,
            record1_len: u64,
            outcome: *mut u8,
            outcome_len: u64,
            first: u32,
            allowance: u32,
            controller: u32,
        ) -> u32;
        pub fn vsmd_step_as(
            host: *mut u8,
            host_len: u64,
            image0: *mut u8,
            image0_len: u64,
            image1: *mut u8,
            image1_len: u64,
            events: *mut u8,
            events_len: u64,
            record0: *mut u8,
            record0_len: u64,
            record1: *mut u8,
            record1_len: u64,
            stepped: *mut u8,
            stepped_len: u64,
            at: u32,
            index: u32,
            controller: u32,
        ) -> u32;
        pub fn vsmd_inspect(
            record0: *const u8,
            record0_len: u64,
            record1: *const u8,
            record1_len: u64,
            image0_len: u64,
            image1_len: u64,
            unit: u32,
            place: u64,
            image: *mut u32,
            at: *mut u64,
            bytes: *mut u64,
        ) -> u32;
        pub fn vsmd_image_need(record: *const u8, record_len: u64, bytes: *mut u64) -> u32;
        pub fn vsmd_sector_of(
            record: *const u8,
            record_len: u64,
            volume: u32,
            number: u64,
            place: *mut u64,
            first: *mut u64,
            mark: *mut u64,
        ) -> u32;
        pub fn vsmd_sector_at(
            record: *const u8,
            record_len: u64,
            cylinder: u16,
            head: u16,
            sector: u16,
            place: *mut u64,
            first: *mut u64,
            mark: *mut u64,
        ) -> u32;
    }
}

/// A part of one of the two images.
#[derive(Clone, Copy, Debug, PartialEq, Eq, Hash)]
pub struct Part {
    /// Which image, 0 or 1.
    pub image: u32,
    /// The part's first byte.
    pub at: usize,
    /// How many bytes it has.
    pub bytes: usize,
}

/// Whether the linked library has the layouts of this crate. Every call here asks it and panics
/// where it has not; a board that asks at its start can tell before it runs anything.
pub fn layouts_match() -> bool {
    // SAFETY: the three functions take nothing, touch nothing, and return a constant.
    let (version, record, outcome) = unsafe {
        (
            foreign::vsmd_layout_version(),
            foreign::vsmd_record_len(),
            foreign::vsmd_outcome_len(),
        )
    };
    // what a step leaves is as long as an outcome, and has no function of its own
    let lengths = [RECORD_LEN, OUTCOME_LEN, STEPPED_LEN].map(|len| len as u64);
    version == LAYOUT_VERSION && [record, outcome, outcome] == lengths
}

/// The layouts of the archive have to be those that this crate lays its bytes out by.
pub(crate) fn assert_layouts() {
    assert!(
        layouts_match(),
        "the linked library has other layouts than this crate was written for"
    );
}

/// Runs the chain of blocks that begins at the address `first` of host memory, fetching at most
/// `allowance` blocks. The run is the first controller's; [`run_as`] is for either.
///
/// `image0`, `image1` and `records` are the two units' images and records. The k-th block run
/// leaves its entry in the 8 bytes of `events` from 8(k − 1) on. What the blocks wrote stands
/// in host memory and the images afterwards; a record is another where a block changed it (an
/// initialize, heads that stand elsewhere, a pair more in its table, another holder of the drive).
/// An initialize that succeeds clears all 32 pairs of its table, those past the ones that count too.
/// With the answers 1, 2 and 3 nothing is changed.
///
/// # Panics
///
/// Where the linked library has other layouts than this crate.
pub fn run(
    host: &mut [u8],
    image0: &mut [u8],
    image1: &mut [u8],
    events: &mut [u8],
    records: &mut [Record; 2],
    first: u32,
    allowance: u32,
) -> Outcome {
    assert_layouts();
    let [record0, record1] = records;
    let record0 = record0.as_mut_bytes();
    let record1 = record1.as_mut_bytes();
    let mut outcome = [0; OUTCOME_LEN];
    // SAFETY: each pointer comes from a slice or an array that is borrowed for the whole call and
    // goes with its own length; being borrowed mutably they do not overlap, and none is null. The
    // library is proved to touch no byte outside of them and keeps none of them.
    let answer = unsafe {
        foreign::vsmd_run(
            host.as_mut_ptr(),
            host.len() as u64,
            image0.as_mut_ptr(),
            image0.len() as u64,
            image1.as_mut_ptr(),
            image1.len() as u64,
            events.as_mut_ptr(),
            events.len() as u64,
            record0.as_mut_ptr(),
            record0.len() as u64,
            record1.as_mut_ptr(),
            record1.len() as u64,
            outcome.as_mut_ptr(),
            outcome.len() as u64,
            first,
            allowance,
        )
    };
    told(&outcome, answer)
}

/// The same for one of two controllers that share the drives: their images, and their records with
/// geometry, cylinder, bad tracks and holder. Host memory and events are the controller's own.
///
/// A block for a drive that the other controller holds is refused with
/// [`BlockAnswer::DriveHeld`](crate::BlockAnswer::DriveHeld), whatever its command, an initialize too;
/// only a handshake is let through. A block other than a handshake that succeeds takes or keeps the
/// drive where its option RV is set, and gives it up where it is not; one that fails leaves the holder
/// as it was.
///
/// The images and records are borrowed for the whole call, so that two calls never work on one drive
/// at once.
///
/// # Panics
///
/// Where the linked library has other layouts than this crate.
#[allow(clippy::too_many_arguments)] // those of `run`, in their order, and one
pub fn run_as(
    host: &mut [u8],
    image0: &mut [u8],
    image1: &mut [u8],
    events: &mut [u8],
    records: &mut [Record; 2],
    first: u32,
    allowance: u32,
    controller: Controller,
) -> Outcome {
    assert_layouts();
    let [record0, record1] = records;
    let record0 = record0.as_mut_bytes();
    let record1 = record1.as_mut_bytes();
    let mut outcome = [0; OUTCOME_LEN];
    // SAFETY: as in `run`; the number of a controller is one that the library knows, and it would
    // only refuse another.
    let answer = unsafe {
        foreign::vsmd_run_as(
            host.as_mut_ptr(),
            host.len() as u64,
            image0.as_mut_ptr(),
            image0.len() as u64,
            image1.as_mut_ptr(),
            image1.len() as u64,
            events.as_mut_ptr(),
            events.len() as u64,
            record0.as_mut_ptr(),
            record0.len() as u64,
            record1.as_mut_ptr(),
            record1.len() as u64,
            outcome.as_mut_ptr(),
            outcome.len() as u64,
            first,
            allowance,
            controller.number(),
        )
    };
    told(&outcome, answer)
}

/// The outcome that a run left. The buffers of the layouts are as long as the library asks, and the
/// controller is one of the two, so it refuses nothing.
fn told(outcome: &[u8; OUTCOME_LEN], answer: u32) -> Outcome {
    match Outcome::from_bytes(outcome) {
        Some(outcome) if u32::from(outcome.answer.number()) == answer => outcome,
        _ => panic!(
            "the linked library left no outcome of this crate's layout, and answered {answer:#X}: {}",
            answer_text(answer)
        ),
    }
}

/// Runs the one block at the address `at` of host memory, for one of two controllers, and follows no
/// link: for a board that makes the chain in a loop of its own. Each call then takes as long as one
/// block, the board can look at something else between two, and the stack does not grow with the chain.
///
/// What is lent is what [`run_as`] is lent, and each block does what it does in a run. Its entry is the
/// one with the number `index`, in the 8 bytes of `events` from 8 × `index` on; the buffer need not be
/// longer than that. [`Stepped`] says how the block ended, and whether and where the chain goes on. A
/// block that fails is no error of the call.
///
/// A step has no allowance, and a chain may link in a circle: the loop stops by an allowance of its own.
/// Where nobody else changes anything in between, the allowance is 1 to 64 and `events` has 512 bytes,
/// the steps of a chain leave what a run of it leaves, in every byte. With another allowance or a
/// shorter buffer a run would do nothing.
///
/// ```
/// use vsmd3200::bytes::{block, command, option};
/// use vsmd3200::{step_as, Controller, Record};
///
/// let mut host = [0u8; 64]; // a handshake at 0, linked to another at 32
/// host[block::AT_COMMAND] = command::HANDSHAKE;
/// host[block::AT_OPTIONS] = option::LK;
/// host[block::AT_LINK..block::AT_LINK + 4].copy_from_slice(&32u32.to_be_bytes());
/// host[32 + block::AT_COMMAND] = command::HANDSHAKE;
/// let mut events = [0u8; 64]; // room for eight entries
/// let mut records = [Record::UNINITIALIZED; 2];
/// let (mut at, mut blocks, allowance) = (0, 0, 8);
/// while blocks < allowance {
///     let stepped = step_as(
///         &mut host, &mut [], &mut [], &mut events, &mut records, at, blocks, Controller::First,
///     )?;
///     blocks += 1;
///     if !stepped.follow {
///         break;
///     }
///     at = stepped.link;
/// }
/// assert_eq!((blocks, at), (2, 32));
/// assert_eq!((events[0], events[8], events[16]), (0x80, 0x80, 0x00));
/// # Ok::<(), vsmd3200::StepRefused>(())
/// ```
///
/// # Errors
///
/// Where the event buffer has no room for the entry, and where the block is at an odd address or not
/// wholly in host memory, asked in this order. Nothing is changed then.
///
/// # Panics
///
/// Where the linked library has other layouts than this crate.
#[allow(clippy::too_many_arguments)] // those of `run_as`, with block and entry for first and allowance
pub fn step_as(
    host: &mut [u8],
    image0: &mut [u8],
    image1: &mut [u8],
    events: &mut [u8],
    records: &mut [Record; 2],
    at: u32,
    index: u32,
    controller: Controller,
) -> Result<Stepped, StepRefused> {
    assert_layouts();
    let [record0, record1] = records;
    let record0 = record0.as_mut_bytes();
    let record1 = record1.as_mut_bytes();
    let mut stepped = [0; STEPPED_LEN];
    // SAFETY: as in `run_as`, with `stepped` in the place of the outcome.
    let code = unsafe {
        foreign::vsmd_step_as(
            host.as_mut_ptr(),
            host.len() as u64,
            image0.as_mut_ptr(),
            image0.len() as u64,
            image1.as_mut_ptr(),
            image1.len() as u64,
            events.as_mut_ptr(),
            events.len() as u64,
            record0.as_mut_ptr(),
            record0.len() as u64,
            record1.as_mut_ptr(),
            record1.len() as u64,
            stepped.as_mut_ptr(),
            stepped.len() as u64,
            at,
            index,
            controller.number(),
        )
    };
    if let Some(refused) = StepRefused::from_number(code) {
        return Err(refused);
    }
    match Stepped::from_bytes(&stepped) {
        Some(stepped) if code == 0 => Ok(stepped),
        _ => panic!(
            "the linked library left no step of this crate's layout, and answered {code:#X}: {}",
            answer_text(code)
        ),
    }
}

/// Which part of which image the sector at a place of a unit is, for images of these lengths.
///
/// The place counts sectors from the start of the image; no table has a say in it, so a bad track and
/// its spare are each seen where they stand. Nor is it asked who holds the drive. Where there is no
/// such sector (unit over 1, unit not initialized, place too large, image too short) it is a part of
/// length 0 at the start of unit 0's image.
///
/// # Panics
///
/// Where the linked library has other layouts than this crate.
pub fn part_of(records: &[Record; 2], image_lens: [usize; 2], unit: u32, place: u64) -> Part {
    assert_layouts();
    let record0 = records[0].as_bytes();
    let record1 = records[1].as_bytes();
    let (mut image, mut at, mut bytes) = (0, 0, 0);
    // SAFETY: the two records are borrowed for the whole call and go with their own lengths; the
    // three numbers are locals that nothing else has. The library is proved to touch
    // nothing else and keeps none of them.
    let refused = unsafe {
        foreign::vsmd_inspect(
            record0.as_ptr(),
            record0.len() as u64,
            record1.as_ptr(),
            record1.len() as u64,
            image_lens[0] as u64,
            image_lens[1] as u64,
            unit,
            place,
            &mut image,
            &mut at,
            &mut bytes,
        )
    };
    assert!(refused == 0, "the linked library refused a record");
    Part {
        image,
        at: in_image(at),
        bytes: in_image(bytes),
    }
}

/// A number of a part. The part lies in an image whose length was a `usize`.
fn in_image(number: u64) -> usize {
    usize::try_from(number).expect("the linked library left its image")
}

/// The sector at a place of a unit, lent as that part of the unit's image.
///
/// Where there is no such sector, as [`part_of`] says, it is a part of length 0 at the start of
/// unit 0's image.
///
/// # Panics
///
/// Where the linked library has other layouts than this crate.
pub fn inspect<'a>(
    image0: &'a [u8],
    image1: &'a [u8],
    records: &[Record; 2],
    unit: u32,
    place: u64,
) -> &'a [u8] {
    let part = part_of(records, [image0.len(), image1.len()], unit, place);
    let image = if part.image == 0 { image0 } else { image1 };
    &image[part.at..part.at + part.bytes]
}
