//! The geometry of a drive: its limits, its default, and where a sector lies in the image.
//!
//! A record may be handed in with any numbers, so everything here is counted in 64 bits and no
//! function divides by a number that can be zero.

use crate::faults::{seeded, Fault};
use crate::holders::Holder;
use crate::order::Order;
use crate::spares::{Table, Track};

/// The heads of one volume: the first one and how many.
#[derive(Clone, Copy, Debug, PartialEq, Eq)]
pub struct Volume {
    pub start_head: u8,
    pub heads: u8,
}

#[derive(Clone, Copy, Debug, PartialEq, Eq)]
pub struct Geometry {
    pub cylinders: u16,
    pub sectors_a_track: u16,
    pub bytes_a_sector: u16,
    pub volumes: [Volume; 2],
    /// Which track comes after which.
    pub order: Order,
}

/// "A unit record holds whether the unit is initialized, its geometry and its cylinder", since K5 a
/// table of bad tracks and their spares, and since K10 who holds the drive.
#[derive(Clone, Copy, Debug, PartialEq, Eq)]
pub struct Record {
    pub initialized: bool,
    pub geometry: Geometry,
    pub cylinder: u16,
    pub table: Table,
    pub holder: Holder,
}

/// A sector of a volume by its parts; the head is counted from the volume's start head.
#[derive(Clone, Copy, Debug, PartialEq, Eq)]
pub struct Address {
    pub cylinder: u64,
    pub head: u64,
    pub sector: u64,
}

/// Where a sector of a volume is found.
#[derive(Clone, Copy, Debug, PartialEq, Eq)]
pub struct Found {
    /// The track that its address names.
    pub named: Track,
    /// The track that is worked on: the one named, or its spare.
    pub track: Track,
    /// Where the heads stand on that track.
    pub cylinder: u64,
    /// Its place in the image.
    pub place: u64,
    /// The place whose mark is its own.
    pub marked: u64,
}

/// The length of a UIB, by the manual's Table 10.
pub const UIB_BYTES: usize = 18;

impl Volume {
    /// "volume 1 is absent when it has none"
    pub fn present(&self) -> bool {
        self.heads != 0
    }

    /// The first head after the volume's last.
    pub fn end(&self) -> u64 {
        self.start_head as u64 + self.heads as u64
    }

    /// Whether a head of the drive is one of the volume's.
    pub fn has_head(&self, head: u64) -> bool {
        self.start_head as u64 <= head && head < self.end()
    }
}

impl Geometry {
    pub const MOST_CYLINDERS: u16 = 4096;
    pub const MOST_SECTORS_A_TRACK: u16 = 255;
    pub const LEAST_BYTES_A_SECTOR: u16 = 64;
    pub const MOST_BYTES_A_SECTOR: u16 = 4096;
    pub const MOST_HEADS: u64 = 64;

    /// The default, Table 11 of the manual: "a caller may ask for it, no unit starts with it".
    pub fn table_11() -> Geometry {
        Geometry {
            cylinders: 644,
            sectors_a_track: 64,
            bytes_a_sector: 512,
            volumes: [
                Volume {
                    start_head: 0,
                    heads: 10,
                },
                Volume {
                    start_head: 0,
                    heads: 0,
                },
            ],
            // its attributes are 05
            order: Order::ByHead,
        }
    }

    /// The numbers a UIB has in the places of Table 10, and since K4 the order of its attributes.
    /// "Anything else in the UIB is not kept or judged."
    pub fn from_uib(uib: &[u8; UIB_BYTES]) -> Geometry {
        Geometry {
            cylinders: uib[12] as u16 * 256 + uib[13] as u16,
            sectors_a_track: uib[4] as u16,
            bytes_a_sector: uib[6] as u16 * 256 + uib[7] as u16,
            volumes: [
                Volume {
                    start_head: uib[0],
                    heads: uib[1],
                },
                Volume {
                    start_head: uib[2],
                    heads: uib[3],
                },
            ],
            order: Order::from_attributes(uib[14]),
        }
    }

    /// A volume by its number; there are 0 and 1 and no more.
    pub fn volume(&self, volume: u8) -> Option<Volume> {
        match volume {
            0 => Some(self.volumes[0]),
            1 => Some(self.volumes[1]),
            _ => None,
        }
    }

    pub fn volume_present(&self, volume: u8) -> bool {
        match self.volume(volume) {
            Some(volume) => volume.present(),
            None => false,
        }
    }

    /// The limits, in the paper's order.
    pub fn within_limits(&self) -> bool {
        if self.cylinders < 1 || self.cylinders > Geometry::MOST_CYLINDERS {
            return false;
        }
        if self.sectors_a_track < 1 || self.sectors_a_track > Geometry::MOST_SECTORS_A_TRACK {
            return false;
        }
        if self.bytes_a_sector % 2 != 0 {
            return false;
        }
        if self.bytes_a_sector < Geometry::LEAST_BYTES_A_SECTOR
            || self.bytes_a_sector > Geometry::MOST_BYTES_A_SECTOR
        {
            return false;
        }
        if !self.volumes[0].present() {
            return false;
        }
        for volume in self.volumes {
            // An absent volume's start head is not judged.
            if volume.present() && volume.end() > Geometry::MOST_HEADS {
                return false;
            }
        }
        !self.volumes_share_a_head()
    }

    /// "Two present volumes share no head." Every head a byte pair can name is tried; an absent
    /// volume has none.
    fn volumes_share_a_head(&self) -> bool {
        for head in 0..512 {
            if self.volumes[0].has_head(head) && self.volumes[1].has_head(head) {
                return true;
            }
        }
        false
    }

    /// H: "the greater end" of the volumes that are present.
    pub fn drive_heads(&self) -> u64 {
        if seeded(Fault::HeadsOfVolume0) {
            // volume 1 may end later
            return self.volumes[0].end();
        }
        let mut greater = 0;
        for volume in self.volumes {
            // the fault counts the start head of a volume without heads
            let counts = volume.present() || seeded(Fault::AbsentVolumeCounted);
            if counts && volume.end() > greater {
                greater = volume.end();
            }
        }
        greater
    }

    /// "A volume with N heads has C × N × S sectors."
    pub fn volume_sectors(&self, volume: u8) -> u64 {
        match self.volume(volume) {
            Some(volume) => {
                self.cylinders as u64 * volume.heads as u64 * self.sectors_a_track as u64
            }
            None => 0,
        }
    }

    /// C × H × S.
    pub fn drive_sectors(&self) -> u64 {
        self.cylinders as u64 * self.drive_heads() * self.sectors_a_track as u64
    }

    /// Where the mark bytes begin in the image: after all sectors of B bytes.
    pub fn marks_at(&self) -> u64 {
        self.drive_sectors() * self.bytes_a_sector as u64
    }

    /// How many bytes an image needs: the sectors, "then one mark byte a sector".
    pub fn need(&self) -> u64 {
        self.marks_at() + self.drive_sectors()
    }

    /// By head "logical sector n means sector n mod S, head (n div S) mod N, cylinder n div (S × N)",
    /// by cylinder "sector n mod S, cylinder (n div S) mod C, head n div (S × C)". None when the volume
    /// has no such sector, so none of S, N and C is zero at the divisions.
    pub fn address(&self, volume: u8, n: u64) -> Option<Address> {
        if n >= self.volume_sectors(volume) {
            return None;
        }
        let s = self.sectors_a_track as u64;
        let heads = self.volume(volume)?.heads as u64;
        let address = match self.order {
            Order::ByHead => Address {
                cylinder: n / (s * heads),
                head: (n / s) % heads,
                sector: n % s,
            },
            Order::ByCylinder => {
                let cylinders = self.cylinders_in_a_row(heads);
                Address {
                    cylinder: (n / s) % cylinders,
                    head: n / (s * cylinders),
                    sector: n % s,
                }
            }
        };
        Some(address)
    }

    /// How many tracks follow one another under one head before the next head's turn.
    fn cylinders_in_a_row(&self, heads: u64) -> u64 {
        if seeded(Fault::HeadsForCylinders) {
            // as many as there are heads, which is right by head
            return heads;
        }
        self.cylinders as u64
    }

    /// Whether each part of an address lies in the volume.
    pub fn in_volume(&self, volume: u8, address: Address) -> bool {
        match self.volume(volume) {
            Some(volume) => {
                address.cylinder < self.cylinders as u64
                    && address.head < volume.heads as u64
                    && address.sector < self.sectors_a_track as u64
            }
            None => false,
        }
    }

    /// The logical number of an address: the sectors of the volume that come before it. By head
    /// "consecutive sectors go by sector, head, cylinder", by cylinder they go by sector, cylinder, head.
    /// None outside the volume.
    pub fn logical(&self, volume: u8, address: Address) -> Option<u64> {
        // the fault lets a part that is too large be carried into the next
        if !self.in_volume(volume, address) && !seeded(Fault::PartsSummed) {
            return None;
        }
        let s = self.sectors_a_track as u64;
        let heads = self.volume(volume)?.heads as u64;
        let order = if seeded(Fault::PhysicalByHead) {
            // as every drive counted once
            Order::ByHead
        } else {
            self.order
        };
        let tracks = match order {
            Order::ByHead => address.cylinder * heads + address.head,
            Order::ByCylinder => address.head * self.cylinders_in_a_row(heads) + address.cylinder,
        };
        Some(tracks * s + address.sector)
    }

    /// "The place in the image is ((cylinder × H) + start head + head) × S + sector." None
    /// outside the volume.
    pub fn place(&self, volume: u8, address: Address) -> Option<u64> {
        self.drive_place(self.over_the_drive(volume, address)?)
    }

    /// The address with its head counted over the whole drive. None outside the volume.
    pub fn over_the_drive(&self, volume: u8, address: Address) -> Option<Address> {
        if !self.in_volume(volume, address) {
            return None;
        }
        let start_head = if seeded(Fault::StartHeadForgotten) {
            // every volume begins at head 0
            0
        } else {
            self.volume(volume)?.start_head as u64
        };
        Some(Address {
            cylinder: address.cylinder,
            head: start_head + address.head,
            sector: address.sector,
        })
    }

    /// The place of a sector whose head is "counted over the whole drive, 0 to H − 1". None
    /// outside the drive.
    pub fn drive_place(&self, address: Address) -> Option<u64> {
        if address.cylinder >= self.cylinders as u64
            || address.head >= self.drive_heads()
            || address.sector >= self.sectors_a_track as u64
        {
            return None;
        }
        let track = address.cylinder * self.drive_heads() + address.head;
        Some(track * self.sectors_a_track as u64 + address.sector)
    }
}

impl Record {
    /// "A record handed in with a geometry outside the limits, or a cylinder of C or more, counts
    /// as not initialized"; and so does one with a table that its drive cannot have.
    pub fn counts_as_initialized(&self) -> bool {
        let on_the_drive = if seeded(Fault::CylinderOfC) {
            // a bound off by one
            self.cylinder <= self.geometry.cylinders
        } else {
            self.cylinder < self.geometry.cylinders
        };
        self.initialized
            && self.geometry.within_limits()
            && on_the_drive
            && self.table.good(&self.geometry)
    }

    /// "Every later command that lands on a bad track works on its spare". A spare may be named too,
    /// and is then itself.
    pub fn landed(&self, track: Track) -> Track {
        let Some(mut spare) = self.table.spare_of(track) else {
            return track;
        };
        if seeded(Fault::CylinderAfterTheSpare) {
            // one further on, and after the last the first
            spare.cylinder = (spare.cylinder + 1) % self.geometry.cylinders;
        }
        spare
    }

    /// Where logical sector n of a volume is found; None when the volume has no such sector.
    pub fn find(&self, volume: u8, n: u64) -> Option<Found> {
        let address = self.geometry.address(volume, n)?;
        let address = self.geometry.over_the_drive(volume, address)?;
        let named = Track::new(address.cylinder as u16, address.head as u8);
        let mut track = self.landed(named);
        if seeded(Fault::SpareHeadInVolume) && track != named {
            // as if the start head were still to be added
            track.head = track
                .head
                .wrapping_add(self.geometry.volume(volume)?.start_head);
        }
        self.found(named, track, address.sector)
    }

    /// Where a sector of a track is found that is counted over the whole drive.
    pub fn find_on_track(&self, named: Track, sector: u64) -> Option<Found> {
        self.found(named, self.landed(named), sector)
    }

    /// Place, mark and heads go by the track that is worked on.
    fn found(&self, named: Track, track: Track, sector: u64) -> Option<Found> {
        let last = sector + 1 == self.geometry.sectors_a_track as u64;
        let sector = if seeded(Fault::LastSectorFolded) && track != named && last {
            // a spare that is a sector short
            0
        } else {
            sector
        };
        let at = |track: Track| Address {
            cylinder: track.cylinder as u64,
            head: track.head as u64,
            sector,
        };
        let place = self.geometry.drive_place(at(track))?;
        let marked = if seeded(Fault::MarkOfTheBadTrack) {
            // the marks of the sector that was named
            self.geometry.drive_place(at(named))?
        } else {
            place
        };
        let stands_on = if seeded(Fault::HeadsOnTheBadTrack) {
            // only the data come from elsewhere
            named
        } else {
            track
        };
        Some(Found {
            named,
            track,
            cylinder: stands_on.cylinder as u64,
            place,
            marked,
        })
    }
}
