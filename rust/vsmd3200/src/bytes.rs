//! Where the bytes of each layout stand, and what they say: the constants of `include/vsmd3200.h`
//! by the same names. `VSMD_BLOCK_AT_COMMAND` there is [`block::AT_COMMAND`] here.
//!
//! Numbers are big-endian in all of them. Blocks, lists and UIBs lie in host memory, each at an
//! even address.
//!
//! ```
//! use vsmd3200::bytes::{block, command, option, status};
//! use vsmd3200::{run, Record};
//!
//! let mut host = [0u8; 64];
//! host[block::AT_COMMAND] = command::HANDSHAKE;
//! host[block::AT_OPTIONS] = option::LK;
//! host[block::AT_LINK..block::AT_LINK + 4].copy_from_slice(&32u32.to_be_bytes());
//! host[32 + block::AT_COMMAND] = command::HANDSHAKE;
//! let mut records = [Record::UNINITIALIZED; 2];
//! let outcome = run(&mut host, &mut [], &mut [], &mut [0; 512], &mut records, 0, 2);
//! assert_eq!(outcome.blocks, 2);
//! assert_eq!(host[32 + block::AT_STATUS], status::OK);
//! ```

/// The block: what a host lays out in its memory to ask for something.
pub mod block {
    /// The bytes of a block.
    pub const LEN: usize = 28;

    /// One of [`command`](super::command).
    pub const AT_COMMAND: usize = 0;
    /// Bits of [`option`](super::option).
    pub const AT_OPTIONS: usize = 1;
    /// One of [`status`](super::status), stored by a run.
    pub const AT_STATUS: usize = 2;
    /// The error byte, stored by a run; 00 at status 80.
    pub const AT_ERROR: usize = 3;
    /// The cylinder, two bytes, where XL is clear; for 85 the bad track's.
    pub const AT_CYLINDER: usize = 4;
    /// The head, counted from the volume's start head; for 85 and 8C over the whole drive.
    pub const AT_HEAD: usize = 6;
    /// The sector.
    pub const AT_SECTOR: usize = 7;
    /// The logical sector in the volume, four bytes, in the place of cylinder, head and sector
    /// where XL is set.
    pub const AT_LOGICAL: usize = 4;
    /// The sector count, two bytes.
    pub const AT_COUNT: usize = 8;
    /// The address of the data, four bytes; for 87 that of the UIB, for A1 and A2 that of the list.
    pub const AT_ADDRESS: usize = 10;
    /// The memory type; not judged.
    pub const AT_MEMORY_TYPE: usize = 14;
    /// The address modifier; not judged.
    pub const AT_MODIFIER: usize = 15;
    /// The interrupt level.
    pub const AT_LEVEL: usize = 16;
    /// The interrupt vector where the block ends with status 80.
    pub const AT_NORMAL_VECTOR: usize = 17;
    /// The interrupt vector where the block ends with status 82.
    pub const AT_ERROR_VECTOR: usize = 19;
    /// The address of the next block, four bytes, where LK is set.
    pub const AT_LINK: usize = 20;
    /// The memory type of the link; not judged.
    pub const AT_LINK_MEMORY_TYPE: usize = 24;
    /// The address modifier of the link; not judged.
    pub const AT_LINK_MODIFIER: usize = 25;
    /// The skew; not used.
    pub const AT_SKEW: usize = 26;
    /// For A1 and A2 how many elements the list has.
    pub const AT_ELEMENTS: usize = 27;

    /// The spare's cylinder in an 85, two bytes.
    pub const AT_SPARE_CYLINDER: usize = 8;
    /// The spare's head in an 85, counted over the whole drive.
    pub const AT_SPARE_HEAD: usize = 10;
    /// The last sector formatted, which an 8C leaves that ends with status 80.
    pub const AT_LAST_FORMATTED: usize = 7;
    /// How many sectors it formatted, two bytes.
    pub const AT_FORMATTED: usize = 8;
    /// The board's identity, which an 86 leaves, [`IDENTITY_LEN`](super::IDENTITY_LEN) bytes.
    pub const AT_IDENTITY: usize = 4;
}

/// The bytes of the identity that an 86 leaves: 3200 0103 0000 0611 07C3 0000 (hex).
pub const IDENTITY_LEN: usize = 12;

/// The commands. Any other is [`BlockAnswer::CommandUnknown`](crate::BlockAnswer::CommandUnknown).
pub mod command {
    /// Sectors to host memory.
    pub const READ: u8 = 0x81;
    /// Sectors from host memory.
    pub const WRITE: u8 = 0x82;
    /// A bad track gets a spare.
    pub const MAP_TRACK: u8 = 0x85;
    /// The board says who it is.
    pub const HANDSHAKE: u8 = 0x86;
    /// The unit gets the geometry and the order of a UIB.
    pub const INITIALIZE: u8 = 0x87;
    /// The heads go to cylinder 0.
    pub const RESTORE: u8 = 0x89;
    /// The heads go to an address.
    pub const SEEK: u8 = 0x8A;
    /// One sector of data to every sector of a track.
    pub const FORMAT: u8 = 0x8C;
    /// Sectors to the pieces of a list.
    pub const SCATTER: u8 = 0xA1;
    /// Sectors from the pieces of a list.
    pub const GATHER: u8 = 0xA2;
}

/// The options of a block, by the letters that the manual has for them.
pub mod option {
    /// Unit 1; clear for unit 0.
    pub const UN: u8 = 0x80;
    /// Volume 1; clear for volume 0. For 81, 82, 8A, A1 and A2.
    pub const VO: u8 = 0x40;
    /// The block has a link, followed where it ends with status 80.
    pub const LK: u8 = 0x20;
    /// A logical sector; clear for cylinder, head and sector. For 81, 82, 8A, A1 and A2.
    pub const XL: u8 = 0x10;
    /// Reserves the drive; clear gives it up.
    pub const RV: u8 = 0x08;
    /// 81 and A1 move unreadable sectors too, and go on.
    pub const DE: u8 = 0x04;
    /// Asks for an interrupt: level and vector stand in the event entry.
    pub const IE: u8 = 0x02;
    /// Correction; not judged.
    pub const EC: u8 = 0x01;
}

/// What stands in the status byte.
pub mod status {
    /// The block succeeded.
    pub const OK: u8 = 0x80;
    /// Stored when the block is accepted, until its final status takes its place.
    pub const IN_PROGRESS: u8 = 0x81;
    /// The block failed.
    pub const FAILED: u8 = 0x82;
}

/// The most elements that the list of a scatter or a gather may have; the fewest are 1.
pub const ELEMENTS_MOST: usize = 64;

/// An element of such a list. The pieces that the elements name are joined in their order.
pub mod element {
    /// The bytes of an element.
    pub const LEN: usize = 8;

    /// The byte count, two bytes, even and not 0.
    pub const AT_COUNT: usize = 0;
    /// The address of the piece, four bytes, even.
    pub const AT_ADDRESS: usize = 2;
    /// The memory type; not judged.
    pub const AT_MEMORY_TYPE: usize = 6;
    /// The address modifier; not judged.
    pub const AT_MODIFIER: usize = 7;
}

/// The UIB, from which an initialize takes a drive's geometry and order (the manual's Table 10).
/// What is called not used here is neither judged nor kept.
pub mod uib {
    /// The bytes of a UIB.
    pub const LEN: usize = 18;

    /// The first head of volume 0.
    pub const AT_VOLUME0_START_HEAD: usize = 0;
    /// The heads of volume 0, at least 1.
    pub const AT_VOLUME0_HEADS: usize = 1;
    /// The first head of volume 1.
    pub const AT_VOLUME1_START_HEAD: usize = 2;
    /// The heads of volume 1; 0 where there is none.
    pub const AT_VOLUME1_HEADS: usize = 3;
    /// S.
    pub const AT_SECTORS_A_TRACK: usize = 4;
    /// The skew; not used.
    pub const AT_SKEW: usize = 5;
    /// B, two bytes.
    pub const AT_BYTES_A_SECTOR: usize = 6;
    /// The gap before a header; not used.
    pub const AT_GAP1: usize = 8;
    /// The gap before the data; not used.
    pub const AT_GAP2: usize = 9;
    /// The interleave; not used.
    pub const AT_INTERLEAVE: usize = 10;
    /// The retries; not used.
    pub const AT_RETRIES: usize = 11;
    /// C, two bytes.
    pub const AT_CYLINDERS: usize = 12;
    /// The attributes, of which [`INCREMENT_BY_HEAD`] alone is used.
    pub const AT_ATTRIBUTES: usize = 14;
    /// Four units and extended addressing; not used.
    pub const AT_EXTENDED: usize = 15;
    /// The level of the status change interrupt; not used.
    pub const AT_CHANGE_LEVEL: usize = 16;
    /// The vector of the status change interrupt; not used.
    pub const AT_CHANGE_VECTOR: usize = 17;

    /// The attribute that makes a drive [by head](crate::Order::ByHead); without it the drive is
    /// [by cylinder](crate::Order::ByCylinder).
    pub const INCREMENT_BY_HEAD: u8 = 0x04;
}

/// The unit record, which [`Record`](crate::Record) keeps.
pub mod record {
    /// The bytes of a record.
    pub const LEN: usize = 276;
    /// The bytes that a record had in version 1 of the layouts.
    pub const LEN_V1: usize = 16;

    /// The version of the layouts, 02.
    pub const AT_VERSION: usize = 0;
    /// 01 where the unit is initialized.
    pub const AT_INITIALIZED: usize = 1;
    /// The length, two bytes.
    pub const AT_LENGTH: usize = 2;
    /// C, two bytes.
    pub const AT_CYLINDERS: usize = 4;
    /// S, two bytes.
    pub const AT_SECTORS_A_TRACK: usize = 6;
    /// B, two bytes.
    pub const AT_BYTES_A_SECTOR: usize = 8;
    /// The first head of volume 0.
    pub const AT_VOLUME0_START_HEAD: usize = 10;
    /// The heads of volume 0.
    pub const AT_VOLUME0_HEADS: usize = 11;
    /// The first head of volume 1.
    pub const AT_VOLUME1_START_HEAD: usize = 12;
    /// The heads of volume 1.
    pub const AT_VOLUME1_HEADS: usize = 13;
    /// The cylinder that the heads stand on, two bytes.
    pub const AT_CYLINDER: usize = 14;
    /// One of [`order`](super::order).
    pub const AT_ORDER: usize = 16;
    /// One of [`holder`](super::holder).
    pub const AT_HOLDER: usize = 17;
    /// How many pairs count, two bytes.
    pub const AT_PAIRS: usize = 18;
    /// The room for 32 pairs, those that count first. An initialize that succeeds makes all of it 00.
    pub const AT_TABLE: usize = 20;
}

/// The order of a drive's tracks, by the number in its record.
pub mod order {
    /// The heads of a cylinder first.
    pub const BY_HEAD: u8 = 0x00;
    /// The cylinders of a head first.
    pub const BY_CYLINDER: u8 = 0x01;
}

/// Who holds a drive, by the number in its record.
pub mod holder {
    /// Nobody.
    pub const NONE: u8 = 0x00;
    /// The first controller.
    pub const FIRST: u8 = 0x01;
    /// The second.
    pub const SECOND: u8 = 0x02;
}

/// A pair of a record's table.
pub mod pair {
    /// The bytes of a pair.
    pub const LEN: usize = 8;

    /// The bad track.
    pub const AT_BAD: usize = 0;
    /// The spare.
    pub const AT_SPARE: usize = 4;
}

/// A track of a pair: four bytes.
pub mod track {
    /// The cylinder, two bytes.
    pub const AT_CYLINDER: usize = 0;
    /// The head, counted over the whole drive.
    pub const AT_HEAD: usize = 2;
    /// 00.
    pub const AT_LAST: usize = 3;
}

/// The outcome of a run, which [`Outcome`](crate::Outcome) is read from.
pub mod outcome {
    /// The bytes of an outcome.
    pub const LEN: usize = 16;

    /// The version of the layouts, 02.
    pub const AT_VERSION: usize = 0;
    /// The length, two bytes.
    pub const AT_LENGTH: usize = 2;
    /// The run's answer.
    pub const AT_ANSWER: usize = 4;
    /// Why a block failed; 00 where none did.
    pub const AT_FAILED: usize = 5;
    /// The blocks run, four bytes.
    pub const AT_BLOCKS: usize = 8;
    /// The sectors moved, four bytes.
    pub const AT_SECTORS: usize = 12;
}

/// What a step leaves, which [`Stepped`](crate::Stepped) is read from.
pub mod stepped {
    /// The bytes that a step leaves.
    pub const LEN: usize = 16;

    /// The version of the layouts, 02.
    pub const AT_VERSION: usize = 0;
    /// The length, two bytes.
    pub const AT_LENGTH: usize = 2;
    /// Why the block failed; 00 where it ended with status 80.
    pub const AT_ANSWER: usize = 4;
    /// 01 where the block's link is to be followed.
    pub const AT_FOLLOW: usize = 5;
    /// The sectors moved, four bytes.
    pub const AT_SECTORS: usize = 8;
    /// The link as it stood in the block when it was fetched, four bytes.
    pub const AT_LINK: usize = 12;
}

/// An entry of the event buffer.
pub mod event {
    /// The bytes of an entry.
    pub const LEN: usize = 8;

    /// The final status.
    pub const AT_STATUS: usize = 0;
    /// The error byte.
    pub const AT_ERROR: usize = 1;
    /// The interrupt level.
    pub const AT_LEVEL: usize = 2;
    /// The interrupt vector.
    pub const AT_VECTOR: usize = 3;
    /// The travel, four bytes in two's complement.
    pub const AT_TRAVEL: usize = 4;
}
