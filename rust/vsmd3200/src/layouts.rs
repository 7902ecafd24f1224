//! The layouts in which records, outcomes and what a step leaves cross, version 2: bytes, numbers
//! big-endian.

use crate::answers::{BlockAnswer, RunAnswer};
use crate::bytes::{holder, order, outcome, pair, record, stepped, track};

/// The version of the layouts that this crate was written for.
pub const LAYOUT_VERSION: u32 = 2;

/// The bytes of a record.
pub const RECORD_LEN: usize = record::LEN;

/// The bytes that a record had in version 1 of the layouts, which [`Record::upgrade`] takes.
pub const RECORD_LEN_V1: usize = record::LEN_V1;

/// The bytes of an outcome.
pub const OUTCOME_LEN: usize = outcome::LEN;

/// The bytes that a step leaves.
pub const STEPPED_LEN: usize = stepped::LEN;

/// The most pairs that the table of a record has.
pub const PAIRS_MOST: usize = 32;

/// The four bytes with which the record of an initialized unit opens: version, flag, and the
/// length in two bytes. With any other four a record counts as not initialized.
const OPENING: [u8; 4] = [LAYOUT_VERSION as u8, 0x01, 0x01, 0x14];

/// The same of version 1.
const OPENING_V1: [u8; 4] = [0x01, 0x01, 0x00, 0x10];

/// The four bytes with which an outcome opens: version, 00, and the length in two bytes.
const OUTCOME_OPENING: [u8; 4] = [LAYOUT_VERSION as u8, 0x00, 0x00, OUTCOME_LEN as u8];

/// The same of what a step leaves.
const STEPPED_OPENING: [u8; 4] = [LAYOUT_VERSION as u8, 0x00, 0x00, STEPPED_LEN as u8];

/// One of the two controllers that can share the drives. Unit n of both is drive n.
#[derive(Clone, Copy, Debug, PartialEq, Eq, Hash)]
#[repr(u8)]
pub enum Controller {
    /// Number 0, which [`run`](crate::run) is for.
    First = 0,
    /// Number 1.
    Second = 1,
}

impl Controller {
    /// Both of them, by number.
    pub const ALL: [Controller; 2] = [Controller::First, Controller::Second];

    /// The controller's number.
    pub const fn number(self) -> u32 {
        self as u32
    }
}

/// The heads of a volume: the first one, and how many. Volume 1 is absent when it has none.
#[derive(Clone, Copy, Debug, Default, PartialEq, Eq, Hash)]
pub struct Volume {
    /// The volume's first head, counted over the whole drive.
    pub start_head: u8,
    /// How many heads it has.
    pub heads: u8,
}

/// Which track of a volume comes after which: the order by which logical sectors are numbered and
/// transfers go on. An initialize takes it from the UIB's attribute "increment by head", bit 04 of
/// byte E. Where a sector stands in the image is the same in both.
#[derive(Clone, Copy, Debug, Default, PartialEq, Eq, Hash)]
#[repr(u8)]
pub enum Order {
    /// The heads of a cylinder one after the other, then the next cylinder. With N heads, logical
    /// sector n is sector n mod S, head (n div S) mod N, cylinder n div (S × N).
    #[default]
    ByHead = order::BY_HEAD,
    /// The cylinders of a head one after the other, then the next head. Logical sector n is sector
    /// n mod S, cylinder (n div S) mod C, head n div (S × C).
    ByCylinder = order::BY_CYLINDER,
}

impl Order {
    /// Both of them, by number.
    pub const ALL: [Order; 2] = [Order::ByHead, Order::ByCylinder];

    /// The order's number in a record.
    pub const fn number(self) -> u8 {
        self as u8
    }
}

/// The shape of a drive, as a record holds it. Any numbers can stand in one; the library judges
/// them.
#[derive(Clone, Copy, Debug, Default, PartialEq, Eq, Hash)]
pub struct Geometry {
    /// C, 1 to 4,096.
    pub cylinders: u16,
    /// S, 1 to 255.
    pub sectors_a_track: u16,
    /// B, even, 64 to 4,096.
    pub bytes_a_sector: u16,
    /// The two volumes; they share no head, and neither ends past head 64.
    pub volumes: [Volume; 2],
    /// The order of the tracks of each volume.
    pub order: Order,
}

/// A track: a cylinder, and a head counted over the whole drive. Any numbers can stand in one; the
/// library judges them.
#[derive(Clone, Copy, Debug, Default, PartialEq, Eq, Hash)]
pub struct Track {
    /// The cylinder, below C.
    pub cylinder: u16,
    /// The head, whatever volume it belongs to, if it belongs to one.
    pub head: u8,
}

/// A bad track, and the spare that commands work on instead of it.
#[derive(Clone, Copy, Debug, Default, PartialEq, Eq, Hash)]
pub struct Pair {
    /// The track that is not used any more.
    pub bad: Track,
    /// The track that serves it.
    pub spare: Track,
}

/// A unit record, kept as the 276 bytes of its layout.
///
/// A run hands a record back byte for byte unless a block changed it. So a record that a board
/// keeps in flash may have any bytes at all: zeros, erased cells and the record of another
/// version count as not initialized. [`Record::upgrade`] takes a record of version 1. What stands in
/// the table past the pairs that count is never judged and comes back as it came, until an initialize
/// succeeds: that makes every byte of the table 00. Two records are equal where all of their bytes are.
#[derive(Clone, Copy, Debug, PartialEq, Eq, Hash)]
#[repr(transparent)]
pub struct Record([u8; RECORD_LEN]);

impl Record {
    /// A unit that no initialize has reached yet.
    pub const UNINITIALIZED: Record = Record([0; RECORD_LEN]);

    /// The record with these parts and no pairs, of a drive that nobody holds.
    pub const fn from_parts(initialized: bool, geometry: Geometry, cylinder: u16) -> Record {
        let mut bytes = [0; RECORD_LEN];
        bytes[0] = OPENING[0];
        bytes[1] = if initialized { OPENING[1] } else { 0x00 };
        bytes[2] = OPENING[2];
        bytes[3] = OPENING[3];
        bytes = with_word(bytes, record::AT_CYLINDERS, geometry.cylinders);
        bytes = with_word(bytes, record::AT_SECTORS_A_TRACK, geometry.sectors_a_track);
        bytes = with_word(bytes, record::AT_BYTES_A_SECTOR, geometry.bytes_a_sector);
        let [zero, one] = geometry.volumes;
        bytes[record::AT_VOLUME0_START_HEAD] = zero.start_head;
        bytes[record::AT_VOLUME0_HEADS] = zero.heads;
        bytes[record::AT_VOLUME1_START_HEAD] = one.start_head;
        bytes[record::AT_VOLUME1_HEADS] = one.heads;
        bytes[record::AT_ORDER] = geometry.order.number();
        Record(with_word(bytes, record::AT_CYLINDER, cylinder))
    }

    /// The same record with these pairs and no other; the bytes past them stay as they are. None where
    /// they are over 32, which no table has room for. Whether a drive can have them is judged when the
    /// record is used: a track outside the drive, or one track twice, makes it count as not initialized.
    pub fn with_pairs(&self, pairs: &[Pair]) -> Option<Record> {
        if pairs.len() > PAIRS_MOST {
            return None;
        }
        let mut bytes = with_word(self.0, record::AT_PAIRS, pairs.len() as u16);
        let rooms = bytes[record::AT_TABLE..].chunks_exact_mut(pair::LEN);
        for (room, pair) in rooms.zip(pairs) {
            put_track(&mut room[pair::AT_BAD..], pair.bad);
            put_track(&mut room[pair::AT_SPARE..], pair.spare);
        }
        Some(Record(bytes))
    }

    /// The record of version 2 for one of version 1 that a board has kept: the same unit without
    /// pairs, by head and held by nobody. Any bytes that are not the record of an initialized unit
    /// there give [`Record::UNINITIALIZED`].
    pub fn upgrade(old: &[u8; RECORD_LEN_V1]) -> Record {
        if old[..4] != OPENING_V1 {
            return Record::UNINITIALIZED;
        }
        let mut bytes = [0; RECORD_LEN];
        bytes[..4].copy_from_slice(&OPENING);
        bytes[4..RECORD_LEN_V1].copy_from_slice(&old[4..]);
        Record(bytes)
    }

    /// The record that stands in these bytes, whatever they are.
    pub const fn from_bytes(bytes: [u8; RECORD_LEN]) -> Record {
        Record(bytes)
    }

    /// The bytes, for whoever stores the record.
    pub const fn as_bytes(&self) -> &[u8; RECORD_LEN] {
        &self.0
    }

    pub(crate) fn as_mut_bytes(&mut self) -> &mut [u8; RECORD_LEN] {
        &mut self.0
    }

    /// Whether the record says that its unit is initialized. A geometry outside the limits, a
    /// cylinder that the geometry does not have, or a table that the drive cannot have makes it
    /// count as not initialized all the same.
    pub fn initialized(&self) -> bool {
        self.0[..4] == OPENING
            && self.0[record::AT_ORDER] <= order::BY_CYLINDER
            && self.0[record::AT_HOLDER] <= holder::SECOND
    }

    /// Which controller holds the drive, if one does. A record that is not of this layout, by its
    /// version or its length, is held by nobody, and so is one that has any other number there;
    /// whether it says that its unit is initialized does not matter.
    pub fn holder(&self) -> Option<Controller> {
        match self.0[record::AT_HOLDER] {
            holder::FIRST if self.of_this_layout() => Some(Controller::First),
            holder::SECOND if self.of_this_layout() => Some(Controller::Second),
            _ => None,
        }
    }

    /// Gives the drive up, whoever holds it: for a board that knows that the machine with the
    /// holder's controller is gone. Whether there was a holder; where there was none the record
    /// stays as it is. So one with a number there that is no holder's goes on counting as not
    /// initialized, and either controller's initialize mends it.
    pub fn release(&mut self) -> bool {
        let held = self.holder().is_some();
        if held {
            self.0[record::AT_HOLDER] = holder::NONE;
        }
        held
    }

    fn of_this_layout(&self) -> bool {
        self.0[0] == OPENING[0] && self.0[2..4] == OPENING[2..]
    }

    /// The geometry. A number in byte 16 that is no order's reads as by head; such a record counts as
    /// not initialized.
    pub const fn geometry(&self) -> Geometry {
        Geometry {
            cylinders: self.word(record::AT_CYLINDERS),
            sectors_a_track: self.word(record::AT_SECTORS_A_TRACK),
            bytes_a_sector: self.word(record::AT_BYTES_A_SECTOR),
            volumes: [
                self.volume(record::AT_VOLUME0_START_HEAD),
                self.volume(record::AT_VOLUME1_START_HEAD),
            ],
            order: match self.0[record::AT_ORDER] {
                order::BY_CYLINDER => Order::ByCylinder,
                _ => Order::ByHead,
            },
        }
    }

    /// The cylinder that the heads stand on.
    pub const fn cylinder(&self) -> u16 {
        self.word(record::AT_CYLINDER)
    }

    /// Whether the record is initialized, its geometry and its cylinder.
    pub fn parts(&self) -> (bool, Geometry, u16) {
        (self.initialized(), self.geometry(), self.cylinder())
    }

    /// How many pairs the record says that its table has. One that says over 32 counts as not
    /// initialized.
    pub const fn pairs_said(&self) -> u16 {
        self.word(record::AT_PAIRS)
    }

    /// The pairs of the table in the order in which they were added, at most 32.
    pub fn pairs(&self) -> impl ExactSizeIterator<Item = Pair> + '_ {
        let pairs = usize::from(self.pairs_said()).min(PAIRS_MOST);
        (0..pairs).map(|index| self.pair_at(index))
    }

    /// The pair with an index, from 0; None where the table has no such pair.
    pub fn pair(&self, index: usize) -> Option<Pair> {
        self.pairs().nth(index)
    }

    const fn pair_at(&self, index: usize) -> Pair {
        let at = record::AT_TABLE + pair::LEN * index;
        Pair {
            bad: self.track(at + pair::AT_BAD),
            spare: self.track(at + pair::AT_SPARE),
        }
    }

    const fn track(&self, at: usize) -> Track {
        Track {
            cylinder: self.word(at + track::AT_CYLINDER),
            head: self.0[at + track::AT_HEAD],
        }
    }

    const fn word(&self, at: usize) -> u16 {
        u16::from_be_bytes([self.0[at], self.0[at + 1]])
    }

    const fn volume(&self, at: usize) -> Volume {
        Volume {
            start_head: self.0[at],
            heads: self.0[at + 1],
        }
    }
}

/// The bytes with a number stored in two of them.
const fn with_word(mut bytes: [u8; RECORD_LEN], at: usize, word: u16) -> [u8; RECORD_LEN] {
    let [upper, lower] = word.to_be_bytes();
    bytes[at] = upper;
    bytes[at + 1] = lower;
    bytes
}

fn put_track(room: &mut [u8], track: Track) {
    room[track::AT_CYLINDER..track::AT_HEAD].copy_from_slice(&track.cylinder.to_be_bytes());
    room[track::AT_HEAD] = track.head;
    room[track::AT_LAST] = 0x00;
}

impl Default for Record {
    fn default() -> Record {
        Record::UNINITIALIZED
    }
}

/// What a run came to.
#[derive(Clone, Copy, Debug, PartialEq, Eq, Hash)]
pub struct Outcome {
    /// How the run ended.
    pub answer: RunAnswer,
    /// Why the last block failed, where the answer is [`RunAnswer::BlockFailed`].
    pub failed: Option<BlockAnswer>,
    /// How many blocks were run, refused ones included.
    pub blocks: u32,
    /// How many sectors were moved.
    pub sectors: u32,
}

impl Outcome {
    /// The outcome that stands in some bytes. None where they are not an outcome of this
    /// version: then the library is another than this crate was written for.
    pub fn from_bytes(bytes: &[u8; OUTCOME_LEN]) -> Option<Outcome> {
        let [o0, o1, o2, o3, answer, failed, z0, z1, b0, b1, b2, b3, s0, s1, s2, s3] = *bytes;
        if [o0, o1, o2, o3] != OUTCOME_OPENING || [z0, z1] != [0, 0] {
            return None;
        }
        let answer = RunAnswer::from_number(answer)?;
        let failed = match failed {
            0 => None,
            number => Some(BlockAnswer::from_number(number)?),
        };
        Some(Outcome {
            answer,
            failed,
            blocks: u32::from_be_bytes([b0, b1, b2, b3]),
            sectors: u32::from_be_bytes([s0, s1, s2, s3]),
        })
    }
}

/// What a step came to: how its block ended, and where the chain goes on.
#[derive(Clone, Copy, Debug, PartialEq, Eq, Hash)]
pub struct Stepped {
    /// Why the block failed; None where it ended with status 80.
    pub answer: Option<BlockAnswer>,
    /// Whether the block's link is to be followed: LK is set, and the block ended with status 80.
    pub follow: bool,
    /// How many sectors were moved.
    pub sectors: u32,
    /// The link as it stood in the block when it was fetched, whether it is to be followed or not.
    pub link: u32,
}

impl Stepped {
    /// What stands in the bytes that a step left. None where they are not of this version: then the
    /// library is another than this crate was written for.
    pub fn from_bytes(bytes: &[u8; STEPPED_LEN]) -> Option<Stepped> {
        let [o0, o1, o2, o3, answer, follow, z0, z1, s0, s1, s2, s3, l0, l1, l2, l3] = *bytes;
        if [o0, o1, o2, o3] != STEPPED_OPENING || [z0, z1] != [0, 0] {
            return None;
        }
        let answer = match answer {
            0 => None,
            number => Some(BlockAnswer::from_number(number)?),
        };
        let follow = match follow {
            0 => false,
            1 => true,
            _ => return None,
        };
        Some(Stepped {
            answer,
            follow,
            sectors: u32::from_be_bytes([s0, s1, s2, s3]),
            link: u32::from_be_bytes([l0, l1, l2, l3]),
        })
    }
}
