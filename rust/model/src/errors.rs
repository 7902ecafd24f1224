//! The error byte that each block answer stores.

use crate::faults::{seeded, Fault};

/// "The error bytes are one constant table." An answer first, then its byte.
pub const ERROR_BYTES: [(u8, u8); 12] = [
    (10, 0x14),
    (11, 0x40),
    (12, 0x62),
    (13, 0x51),
    (14, 0x21),
    (15, 0xff),
    (16, 0x16),
    (17, 0xff),
    (18, 0xff),
    (19, 0x62),
    (20, 0x13),
    (24, 0x2e),
];

/// The error byte of a block's answer: 00 at status 80, which is answer 0 here; "an answer with
/// no line there takes FF".
pub fn error_byte(answer: u8) -> u8 {
    if answer == 0 {
        return 0x00;
    }
    if seeded(Fault::HeldWithoutByte) && answer == 24 {
        // as if no line spoke of it
        return 0xff;
    }
    for (number, byte) in ERROR_BYTES {
        if number == answer {
            return byte;
        }
    }
    0xff
}
