//! The order in which a drive counts its tracks (paper 02, K4), and what a UIB and the bytes of a record
//! say of it.

use crate::faults::{seeded, Fault};

/// Which tracks follow one another when a track's sectors are at their end.
#[derive(Clone, Copy, Debug, Default, PartialEq, Eq)]
pub enum Order {
    /// All heads of a cylinder, then the next cylinder: "increment by head".
    #[default]
    ByHead,
    /// "consecutive tracks go along one head first": all cylinders of a head, then the next head.
    ByCylinder,
}

/// "increment by head" among the attributes, byte E of a UIB; no other bit of that byte is looked at.
const INCREMENT_BY_HEAD: u8 = 0x04;

impl Order {
    pub const BOTH: [Order; 2] = [Order::ByHead, Order::ByCylinder];

    pub fn other(self) -> Order {
        match self {
            Order::ByHead => Order::ByCylinder,
            Order::ByCylinder => Order::ByHead,
        }
    }

    /// The order that a UIB with these attributes asks for.
    pub fn from_attributes(attributes: u8) -> Order {
        let bit = if seeded(Fault::OrderMisplaced) {
            // the bit beside it, which says what is done with bad data
            0x02
        } else {
            INCREMENT_BY_HEAD
        };
        if attributes & bit != 0 || seeded(Fault::OrdersUnknown) {
            Order::ByHead
        } else {
            Order::ByCylinder
        }
    }

    /// The number that stands for it in byte 16 of a record.
    pub fn number(self) -> u8 {
        match self {
            Order::ByHead => 0,
            Order::ByCylinder => 1,
        }
    }

    /// Whether a record can be initialized with this number in byte 16: there are two orders and no
    /// more.
    pub fn is_one(number: u8) -> bool {
        if seeded(Fault::OrdersUnknown) {
            // as before there were any
            return number == 0;
        }
        number <= 1 || seeded(Fault::OrderOver1Accepted)
    }

    /// The order by byte 16 of a record. A number that is none makes the record one that counts as not
    /// initialized, and then nobody asks.
    pub fn said(number: u8) -> Order {
        if number == 1 && !seeded(Fault::OrdersUnknown) {
            Order::ByCylinder
        } else {
            Order::ByHead
        }
    }
}
