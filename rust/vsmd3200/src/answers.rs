//! The answers of a run and of a failed block, and the codes of a refused call, by their numbers
//! and in words. The words are those of `vsmd_answer_text` in `include/vsmd3200.h`.

use core::error::Error;
use core::fmt;

/// How a run ended.
#[derive(Clone, Copy, Debug, PartialEq, Eq, Hash)]
#[repr(u8)]
pub enum RunAnswer {
    /// The last block had no link and ended with status 80.
    Done = 0,
    /// The event buffer has fewer than 512 bytes. Nothing was changed.
    EventsShort = 1,
    /// The allowance is 0 or over 64. Nothing was changed.
    AllowanceBad = 2,
    /// The first block's address is odd, or the block is not wholly in host memory. Nothing was
    /// changed.
    FirstBad = 3,
    /// A block ended with status 82; the outcome says which answer it got.
    BlockFailed = 4,
    /// A link leads to an odd address, or to a block that is not wholly in host memory.
    LinkBad = 5,
    /// The allowance is spent, and the last block run has a link.
    AllowanceSpent = 6,
}

/// Why a block failed.
#[derive(Clone, Copy, Debug, PartialEq, Eq, Hash)]
#[repr(u8)]
pub enum BlockAnswer {
    /// The command is not one of the ten.
    CommandUnknown = 10,
    /// The unit is not initialized, or its record counts as if it were not.
    NotInitialized = 11,
    /// The UIB's address is odd, or the UIB is not wholly in host memory.
    UibMisplaced = 12,
    /// The UIB is outside the limits of a geometry.
    UibOutsideLimits = 13,
    /// The unit has no volume 1.
    VolumeAbsent = 14,
    /// The sector count is 0.
    CountZero = 15,
    /// The first sector or the last is outside the volume, or a track outside the drive.
    SectorOutside = 16,
    /// The image is shorter than the geometry needs.
    ImageShort = 17,
    /// The list has no elements or over 64, is misplaced, or its byte counts are wrong.
    ListBad = 18,
    /// A data address is odd, or its range is not in host memory.
    DataMisplaced = 19,
    /// A sector is unreadable; the sectors before it were moved.
    Unreadable = 20,
    /// The bad track and the spare are one, or one of them is in the table already.
    TracksTaken = 22,
    /// The table has 32 pairs.
    TableFull = 23,
    /// The other controller holds the drive. Asked before [`BlockAnswer::NotInitialized`].
    DriveHeld = 24,
}

/// Why a call was refused: what the library returns in the place of a run's answer. No block was
/// run, and nothing was changed.
///
/// This crate lends buffers that are long enough and names controllers that there are, so that none
/// of its calls is refused by these but [`step_as`](crate::step_as), whose [`StepRefused`] has the
/// last. The codes are for whoever hears of a call that was made through C.
#[derive(Clone, Copy, Debug, PartialEq, Eq, Hash)]
#[repr(u16)]
pub enum RefusedCall {
    /// Record 0 is shorter than its layout.
    Record0Short = 0x1F1,
    /// Record 1 is shorter than its layout.
    Record1Short = 0x1F2,
    /// The outcome is shorter than its layout.
    OutcomeShort = 0x1F3,
    /// There is no controller with that number.
    ControllerUnknown = 0x1F4,
    /// The room for what a step leaves is shorter than its layout.
    SteppedShort = 0x1F5,
    /// The event buffer has no room for the entry of a step.
    EntryShort = 0x1F6,
    /// The record that was asked is of a unit that is not initialized.
    RecordNotInitialized = 0x1F7,
    /// The unit has no such sector.
    SectorNotThere = 0x1F8,
}

/// Why a step was refused. The block was not run, and nothing was changed.
#[derive(Clone, Copy, Debug, PartialEq, Eq, Hash)]
#[repr(u16)]
pub enum StepRefused {
    /// The block's address is odd, or the block is not wholly in host memory. The number is that of
    /// [`RunAnswer::FirstBad`], since a step has one block.
    BlockBad = 3,
    /// The event buffer has no room for the entry.
    EntryShort = 0x1F6,
}

/// What is said of a number that is no answer.
const NO_ANSWER: &str = "no answer of this library";

/// An answer in words by its number: of a run, of a block that failed, or of a call that was
/// refused. Their numbers are apart. A number that is no answer has a text as well.
///
/// ```
/// assert_eq!(vsmd3200::answer_text(11), "the unit is not initialized");
/// assert_eq!(vsmd3200::answer_text(21), "no answer of this library");
/// ```
pub fn answer_text(code: u32) -> &'static str {
    if let Some(refused) = RefusedCall::from_number(code) {
        return refused.text();
    }
    let Ok(number) = u8::try_from(code) else {
        return NO_ANSWER;
    };
    match (
        RunAnswer::from_number(number),
        BlockAnswer::from_number(number),
    ) {
        (Some(run), _) => run.text(),
        (None, Some(block)) => block.text(),
        (None, None) => NO_ANSWER,
    }
}

impl RunAnswer {
    /// All of them, by number.
    pub const ALL: [RunAnswer; 7] = [
        RunAnswer::Done,
        RunAnswer::EventsShort,
        RunAnswer::AllowanceBad,
        RunAnswer::FirstBad,
        RunAnswer::BlockFailed,
        RunAnswer::LinkBad,
        RunAnswer::AllowanceSpent,
    ];

    /// The answer in words, for a log or a console.
    pub const fn text(self) -> &'static str {
        match self {
            RunAnswer::Done => "the last block had no link and ended with status 80",
            RunAnswer::EventsShort => "the event buffer has fewer than 512 bytes",
            RunAnswer::AllowanceBad => "the allowance is 0 or over 64",
            RunAnswer::FirstBad => {
                "the first block is at an odd address or not wholly in host memory"
            }
            RunAnswer::BlockFailed => "a block ended with status 82",
            RunAnswer::LinkBad => {
                "a link leads to a block at an odd address or not wholly in host memory"
            }
            RunAnswer::AllowanceSpent => "the allowance is spent and the last block has a link",
        }
    }

    /// The answer with a number, 0 to 6.
    pub fn from_number(number: u8) -> Option<RunAnswer> {
        RunAnswer::ALL.get(usize::from(number)).copied()
    }

    /// The answer's number.
    pub const fn number(self) -> u8 {
        self as u8
    }
}

impl BlockAnswer {
    /// All of them, by number.
    pub const ALL: [BlockAnswer; 14] = [
        BlockAnswer::CommandUnknown,
        BlockAnswer::NotInitialized,
        BlockAnswer::UibMisplaced,
        BlockAnswer::UibOutsideLimits,
        BlockAnswer::VolumeAbsent,
        BlockAnswer::CountZero,
        BlockAnswer::SectorOutside,
        BlockAnswer::ImageShort,
        BlockAnswer::ListBad,
        BlockAnswer::DataMisplaced,
        BlockAnswer::Unreadable,
        BlockAnswer::TracksTaken,
        BlockAnswer::TableFull,
        BlockAnswer::DriveHeld,
    ];

    /// The answer in words, for a log or a console.
    pub const fn text(self) -> &'static str {
        match self {
            BlockAnswer::CommandUnknown => "the command is not one of the ten",
            BlockAnswer::NotInitialized => "the unit is not initialized",
            BlockAnswer::UibMisplaced => {
                "the UIB is at an odd address or not wholly in host memory"
            }
            BlockAnswer::UibOutsideLimits => "the UIB is outside the limits of a geometry",
            BlockAnswer::VolumeAbsent => "the unit has no volume 1",
            BlockAnswer::CountZero => "the sector count is 0",
            BlockAnswer::SectorOutside => {
                "the first sector or the last is outside the volume, or a track outside the drive"
            }
            BlockAnswer::ImageShort => "the image is shorter than the geometry needs",
            BlockAnswer::ListBad => {
                "the list has no elements or over 64, is misplaced, or has wrong byte counts"
            }
            BlockAnswer::DataMisplaced => "a data address is odd or its range not in host memory",
            BlockAnswer::Unreadable => {
                "a sector is marked unreadable; the sectors before it were moved"
            }
            BlockAnswer::TracksTaken => {
                "the bad track and the spare are one, or one of them is in the table already"
            }
            BlockAnswer::TableFull => "the table has 32 pairs",
            BlockAnswer::DriveHeld => "the other controller holds the drive",
        }
    }

    /// The answer with a number, 10 to 20 or 22 to 24.
    pub fn from_number(number: u8) -> Option<BlockAnswer> {
        let mut all = BlockAnswer::ALL.into_iter();
        all.find(|answer| answer.number() == number)
    }

    /// Whether the block was refused before transfer, which 10 to 19 and 22 to 24 say: it changed nothing
    /// but its own status word and its event entry.
    pub const fn before_transfer(self) -> bool {
        !matches!(self, BlockAnswer::Unreadable)
    }

    /// The answer's number.
    pub const fn number(self) -> u8 {
        self as u8
    }
}

impl RefusedCall {
    /// All of them, by number.
    pub const ALL: [RefusedCall; 8] = [
        RefusedCall::Record0Short,
        RefusedCall::Record1Short,
        RefusedCall::OutcomeShort,
        RefusedCall::ControllerUnknown,
        RefusedCall::SteppedShort,
        RefusedCall::EntryShort,
        RefusedCall::RecordNotInitialized,
        RefusedCall::SectorNotThere,
    ];

    /// The refusal in words, for a log or a console.
    pub const fn text(self) -> &'static str {
        match self {
            RefusedCall::Record0Short => "record 0 is shorter than its layout",
            RefusedCall::Record1Short => "record 1 is shorter than its layout",
            RefusedCall::OutcomeShort => "the outcome is shorter than its layout",
            RefusedCall::ControllerUnknown => "there is no controller with that number",
            RefusedCall::SteppedShort => {
                "the room for what a step leaves is shorter than its layout"
            }
            RefusedCall::EntryShort => "the event buffer has no room for the entry",
            RefusedCall::RecordNotInitialized => "the record is of a unit that is not initialized",
            RefusedCall::SectorNotThere => "the unit has no such sector",
        }
    }

    /// The refusal with a number, 1F1 to 1F8 (hex).
    pub fn from_number(number: u32) -> Option<RefusedCall> {
        let mut all = RefusedCall::ALL.into_iter();
        all.find(|refused| refused.number() == number)
    }

    /// The refusal's number.
    pub const fn number(self) -> u32 {
        self as u32
    }
}

impl StepRefused {
    /// Both of them, by number.
    pub const ALL: [StepRefused; 2] = [StepRefused::BlockBad, StepRefused::EntryShort];

    /// The refusal in words, for a log or a console.
    pub const fn text(self) -> &'static str {
        match self {
            StepRefused::BlockBad => "the block is at an odd address or not wholly in host memory",
            StepRefused::EntryShort => RefusedCall::EntryShort.text(),
        }
    }

    /// The refusal with a number, 3 or 1F6 (hex).
    pub fn from_number(number: u32) -> Option<StepRefused> {
        let mut all = StepRefused::ALL.into_iter();
        all.find(|refused| refused.number() == number)
    }

    /// The refusal's number.
    pub const fn number(self) -> u32 {
        self as u32
    }
}

impl fmt::Display for RunAnswer {
    fn fmt(&self, f: &mut fmt::Formatter) -> fmt::Result {
        f.pad(self.text())
    }
}

impl fmt::Display for BlockAnswer {
    fn fmt(&self, f: &mut fmt::Formatter) -> fmt::Result {
        f.pad(self.text())
    }
}

impl fmt::Display for RefusedCall {
    fn fmt(&self, f: &mut fmt::Formatter) -> fmt::Result {
        f.pad(self.text())
    }
}

impl fmt::Display for StepRefused {
    fn fmt(&self, f: &mut fmt::Formatter) -> fmt::Result {
        f.pad(self.text())
    }
}

impl Error for StepRefused {}
