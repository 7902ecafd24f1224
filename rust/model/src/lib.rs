//! A second reading of the board's rules, written from the papers alone.
//!
//! The proved build says what it promises and is proved to keep it. Whether the promise is what
//! the paper means is a question no proof answers. This crate says the same rules over again in
//! the plainest way: one byte moved at a time, every sector's place worked out anew from the
//! paper's formula. Both are handed the same world; where they leave different worlds, one of
//! them has misread the paper. It is slow on purpose, and shares nothing with the other.

mod answers;
mod block;
mod errors;
mod faults;
mod footprint;
mod geometry;
mod holders;
mod inspect;
mod judge;
mod order;
mod run;
mod session;
mod spares;
mod trace;

pub use answers::{CHECKS, STOPS};
pub use block::{Block, Element, BLOCK_BYTES, ELEMENT_BYTES};
pub use errors::{error_byte, ERROR_BYTES};
pub use faults::{with_fault, Fault};
pub use footprint::{Common, Footprint};
pub use geometry::{Address, Found, Geometry, Record, Volume, UIB_BYTES};
pub use holders::{Controller, Holder};
pub use inspect::{inspect, Part};
pub use judge::COMMANDS;
pub use order::Order;
pub use run::{run, run_traced, Outcome, World, LEAST_EVENT_BYTES, MOST_ALLOWANCE};
pub use session::session;
pub use spares::{Pair, Table, Taken, Track, MOST_PAIRS};
pub use trace::{Course, Landing, Trace, Visit};
