//! The command parser of a board that takes the place of an Interphase V/SMD 3200, as a safe
//! library without `std`.
//!
//! The work is done by a library written and proved in Rattle, which crosses to other languages
//! through C. This crate is the Rust side of that boundary and no more: it lends slices, keeps
//! records and outcomes in the bytes of their layouts, and gives the numbers names.
//!
//! [`run`] runs a chain of blocks on host memory, two images and two unit records, and [`run_as`]
//! does so for either of two controllers. [`step_as`] runs one block by itself, for a board that
//! makes the chain in a loop of its own. [`inspect`] lends one sector of an image. A [`Record`] tells
//! how long the image of its unit has to be, and where a sector stands in it. What is where in a
//! block, a list, a UIB and the other layouts has its names in [`bytes`].
//!
//! ```
//! use vsmd3200::{run, Record, RunAnswer};
//!
//! let mut host = [0u8; 28];
//! host[0] = 0x86; // one block at address 0: a handshake, no options, no link
//! let mut events = [0u8; 512];
//! let mut records = [Record::UNINITIALIZED; 2];
//! let outcome = run(&mut host, &mut [], &mut [], &mut events, &mut records, 0, 1);
//! assert_eq!((outcome.answer, outcome.blocks), (RunAnswer::Done, 1));
//! assert_eq!(host[2..6], [0x80, 0x00, 0x32, 0x00]); // status, error, and who is there
//! assert_eq!(events[..4], [0x80, 0x00, 0x00, 0x00]);
//! ```
//!
//! A record holds the unit's bad tracks and their spares as well. Command 85 adds a pair of them; a
//! board that knows its drive can make a record with them, and see them in one:
//!
//! ```
//! use vsmd3200::{Geometry, Pair, Record, Track};
//!
//! # let geometry = Geometry::default();
//! let bad = Track { cylinder: 1, head: 0 };
//! let spare = Track { cylinder: 9, head: 2 };
//! let record = Record::from_parts(true, geometry, 0);
//! let record = record.with_pairs(&[Pair { bad, spare }]).unwrap();
//! assert_eq!(record.pairs().len(), 1);
//! assert_eq!(record.pair(0), Some(Pair { bad, spare }));
//! ```
//!
//! Mapping moves a track as a whole and never folds two: two different sectors of the drive, neither
//! on a track that serves as a spare, share neither a byte of the image nor a mark. A spare that is
//! named itself is where the sectors of its bad track are.
//!
//! A drive counts its tracks by head or by cylinder, as its UIB said or as a board makes its record:
//!
//! ```
//! use vsmd3200::{Geometry, Order, Record};
//!
//! # let geometry = Geometry::default();
//! let by_cylinder = Geometry { order: Order::ByCylinder, ..geometry };
//! let record = Record::from_parts(true, by_cylinder, 0);
//! assert_eq!(record.geometry().order, Order::ByCylinder);
//! assert_eq!(Geometry::default().order, Order::ByHead);
//! ```
//!
//! Where a sector stands is told by the record alone, bad tracks and order included:
//!
//! ```
//! use vsmd3200::{Geometry, Order, Record, Standing, Untold, Volume};
//!
//! let volumes = [Volume { start_head: 0, heads: 2 }, Volume::default()];
//! let (cylinders, order) = (10, Order::ByHead);
//! let geometry = Geometry { cylinders, sectors_a_track: 4, bytes_a_sector: 64, volumes, order };
//! let record = Record::from_parts(true, geometry, 0);
//! assert_eq!(record.image_need(), Some(80 * 65));
//! let standing = Standing { place: 8, first: 512, mark: 5128 };
//! assert_eq!(record.sector_of(0, 8), Ok(standing));
//! assert_eq!(record.sector_at(1, 0, 0), Ok(standing));
//! assert_eq!(record.sector_of(0, 80), Err(Untold::SectorNotThere));
//! ```
//!
//! Two controllers may share the drives. Each runs its chains by [`run_as`] on a host memory and an
//! event buffer of its own; images and records are those of both. The first takes drive 0 here, and
//! the second is refused until the drive is given up:
//!
//! ```
//! use vsmd3200::{run_as, BlockAnswer, Controller, Geometry, Order, Record, Volume};
//!
//! # let volumes = [Volume { start_head: 0, heads: 1 }, Volume::default()];
//! # let (cylinders, order) = (2, Order::ByHead);
//! # let geometry = Geometry { cylinders, sectors_a_track: 1, bytes_a_sector: 64, volumes, order };
//! let mut records = [Record::from_parts(true, geometry, 0), Record::UNINITIALIZED];
//! let mut restore = |options, controller| {
//!     let (mut host, mut events) = ([0u8; 28], [0u8; 512]);
//!     host[..2].copy_from_slice(&[0x89, options]);
//!     let outcome = run_as(
//!         &mut host, &mut [], &mut [], &mut events, &mut records, 0, 1, controller,
//!     );
//!     (outcome.failed, records[0].holder())
//! };
//! const RV: u8 = 0x08;
//! let (first, second) = (Controller::First, Controller::Second);
//! assert_eq!(restore(RV, first), (None, Some(first)));
//! assert_eq!(restore(RV, second), (Some(BlockAnswer::DriveHeld), Some(first)));
//! assert_eq!(restore(0, first), (None, None));
//! assert_eq!(restore(RV, second), (None, Some(second)));
//! ```
//!
//! Nothing is kept between calls, nothing is allocated, and two calls may be made at the same
//! time: the borrows see to it that they work on different buffers.

#![no_std]
#![warn(missing_docs)]

mod answers;
pub mod bytes;
mod calls;
mod event;
mod layouts;
mod places;

pub use answers::{answer_text, BlockAnswer, RefusedCall, RunAnswer, StepRefused};
pub use calls::{inspect, layouts_match, part_of, run, run_as, step_as, Part};
pub use event::Event;
pub use layouts::{
    Controller, Geometry, Order, Outcome, Pair, Record, Stepped, Track, Volume, LAYOUT_VERSION,
    OUTCOME_LEN, PAIRS_MOST, RECORD_LEN, RECORD_LEN_V1, STEPPED_LEN,
};
pub use places::{Standing, Untold};

/// The version of this crate and of the header that goes with it; CHANGELOG.md says what each one
/// means for a caller. The layouts have a number of their own, [`LAYOUT_VERSION`].
pub const VERSION: &str = env!("CARGO_PKG_VERSION");

/// The fewest bytes of an event buffer that a run takes: 64 entries of [`EVENT_LEN`]. A step takes any
/// that has room for its entry.
pub const EVENTS_LEN_LEAST: usize = 512;

/// The bytes of one entry of the event buffer: status, error, level, vector, and the travel of
/// the heads as a big-endian number in two's complement. [`Outcome::events`] reads the entries.
pub const EVENT_LEN: usize = bytes::event::LEN;

/// The largest allowance that a run takes; the smallest is 1.
pub const ALLOWANCE_MOST: u32 = 64;

/// The bytes of stack that a run takes at most, behind the wrapper: measured, on every processor that
/// the library is built for.
pub const STACK_MOST: usize = 8192;

/// The same of a step.
pub const STEP_STACK_MOST: usize = 4096;
