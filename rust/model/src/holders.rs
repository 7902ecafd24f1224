//! Two controllers that share drives (paper 02, K10): which of them runs a chain, who holds a drive,
//! and what the bytes of a record say of it.

use crate::faults::{seeded, Fault};

/// One of the "two controllers" that "share a drive". Unit n of both is drive n.
#[derive(Clone, Copy, Debug, Default, PartialEq, Eq)]
pub enum Controller {
    #[default]
    First,
    Second,
}

/// "A holder field says none, first or second."
#[derive(Clone, Copy, Debug, PartialEq, Eq)]
pub enum Holder {
    Nobody,
    First,
    Second,
}

impl Controller {
    pub const BOTH: [Controller; 2] = [Controller::First, Controller::Second];

    pub fn other(self) -> Controller {
        match self {
            Controller::First => Controller::Second,
            Controller::Second => Controller::First,
        }
    }

    pub fn as_holder(self) -> Holder {
        match self {
            Controller::First => Holder::First,
            Controller::Second => Holder::Second,
        }
    }
}

impl Holder {
    /// Whether a drive with this holder is "held by the other controller" than the one that asks.
    pub fn is_other_than(self, asks: Controller) -> bool {
        if seeded(Fault::OwnHolderRefused) {
            // any holder will do
            return self != Holder::Nobody;
        }
        self == asks.other().as_holder()
    }

    /// The number that stands for it in byte 17 of a record.
    pub fn number(self) -> u8 {
        match self {
            Holder::Nobody => 0,
            Holder::First => 1,
            Holder::Second => 2,
        }
    }

    /// Whether a record can be initialized with this number in byte 17: there are three holders and
    /// no more.
    pub fn is_one(number: u8) -> bool {
        if seeded(Fault::HoldersUnknown) {
            // as before there were any
            return number == 0;
        }
        let third = seeded(Fault::HolderOf3) && number == 3;
        number <= 2 || third || seeded(Fault::HolderOver2Accepted)
    }

    /// Who holds the drive by a record that opens with these four bytes (version, flag and length)
    /// and has this number in byte 17. Version and length tell whether it is the byte that is meant;
    /// the flag tells nothing of the holder.
    pub fn said(opening: [u8; 4], number: u8) -> Holder {
        let [version, flag, upper, lower] = opening;
        // each of three faults goes by two of these four bytes, or by three
        let version_fits = version == 2 || seeded(Fault::HolderOfAnyVersion);
        let length_fits = [upper, lower] == [0x01, 0x14] || seeded(Fault::HolderOfAnyLength);
        let flag_fits = flag == 1 || !seeded(Fault::HolderWithFlagAlone);
        if !version_fits || !length_fits || !flag_fits || seeded(Fault::HoldersUnknown) {
            return Holder::Nobody;
        }
        match number {
            1 => Holder::First,
            2 => Holder::Second,
            // the fault counts on
            3 if seeded(Fault::HolderOf3) => Holder::Second,
            _ => Holder::Nobody,
        }
    }
}
