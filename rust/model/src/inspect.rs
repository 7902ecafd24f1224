//! The inspection call: "The sector is handed back as that part of the right unit's image."

use crate::faults::{seeded, Fault};
use crate::geometry::Record;
use crate::holders::Holder;
use crate::spares::Track;

/// A part of a unit's image.
#[derive(Clone, Copy, Debug, PartialEq, Eq)]
pub struct Part {
    pub unit: u8,
    pub at: u64,
    pub bytes: u64,
}

/// "a part of length 0 at the start of unit 0's image"
const NOTHING: Part = Part {
    unit: 0,
    at: 0,
    bytes: 0,
};

/// Which part of which image holds the sector at a place. "The inspection call still goes by place
/// in the image": no track gives way to its spare. It is no block of a chain, so that it asks nobody
/// who holds the drive.
pub fn inspect(records: &[Record; 2], image_lengths: [u64; 2], unit: u32, place: u64) -> Part {
    if unit > 1 {
        return NOTHING;
    }
    let record = records[unit as usize];
    if !record.counts_as_initialized() {
        return NOTHING;
    }
    if seeded(Fault::InspectionAsksHolder) && record.holder != Holder::Nobody {
        // as if somebody might be at it
        return NOTHING;
    }
    let sectors = if seeded(Fault::InspectedOnePlaceMore) {
        // a bound off by one
        record.geometry.drive_sectors() + 1
    } else {
        record.geometry.drive_sectors()
    };
    if place >= sectors {
        return NOTHING;
    }
    if image_lengths[unit as usize] < record.geometry.need() {
        return NOTHING;
    }
    let place = if seeded(Fault::InspectionMapped) {
        // as a command would land
        landed_place(&record, place)
    } else {
        place
    };
    Part {
        unit: unit as u8,
        at: place * record.geometry.bytes_a_sector as u64,
        bytes: record.geometry.bytes_a_sector as u64,
    }
}

/// Where a command works that names the sector at a place, for the fault.
fn landed_place(record: &Record, place: u64) -> u64 {
    let s = record.geometry.sectors_a_track as u64;
    let heads = record.geometry.drive_heads();
    let track = Track::new((place / s / heads) as u16, (place / s % heads) as u8);
    let found = record.find_on_track(track, place % s);
    found.map_or(place, |found| found.place)
}
