#![doc = include_str!("../README.md")]

mod check;
mod geometry;
mod leftover;
mod number;
mod reader;
mod record;
mod session;
mod walk;
mod writer;

pub use check::{check, Difference};
pub use reader::{to_session, TextError};
pub use writer::to_text;
