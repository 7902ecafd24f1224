//! The paper's small drive, by hand. Not every test has a use for all of it.
#![allow(dead_code)]

use vsmd3200::{Geometry, Order, Volume};

/// Its UIB.
pub const UIB: [u8; 18] = [
    0x00, 0x02, 0x02, 0x01, 0x04, 0x00, 0x00, 0x40, 0x10, 0x20, 0x01, 0x03, 0x00, 0x0a, 0x04, 0x00,
    0x01, 0xff,
];

/// C = 10, S = 4, B = 64, volume 0 heads 0 and 1, volume 1 head 2. H = 3, so that it has 120 sectors,
/// and the marks begin at byte 7,680.
pub const SMALL: Geometry = Geometry {
    cylinders: 10,
    sectors_a_track: 4,
    bytes_a_sector: 64,
    volumes: [
        Volume {
            start_head: 0,
            heads: 2,
        },
        Volume {
            start_head: 2,
            heads: 1,
        },
    ],
    order: Order::ByHead,
};

/// The same drive, counted by cylinder.
pub const BY_CYLINDER: Geometry = Geometry {
    order: Order::ByCylinder,
    ..SMALL
};
