//! The program that the library is measured against: reads and writes of logical sectors as one
//! writes them who has a driver to get working. It takes the same block from host memory, judges
//! what a careful programmer judges, and copies with `copy_from_slice`. It knows one unit, one
//! volume and one block: no chain, no event entry, no record.

use std::ops::Range;

const READ: u8 = 0x81;
const WRITE: u8 = 0x82;
const LOGICAL: u8 = 0x10;

const BLOCK_LEN: usize = 28;
const DONE: [u8; 2] = [0x80, 0x00];
const UNREADABLE: [u8; 2] = [0x82, 0x13];

/// A drive whose heads are all in one volume.
#[derive(Clone, Copy)]
pub struct Drive {
    pub cylinders: usize,
    pub heads: usize,
    pub sectors_a_track: usize,
    pub bytes_a_sector: usize,
}

impl Drive {
    pub fn sectors(&self) -> usize {
        self.cylinders * self.heads * self.sectors_a_track
    }

    pub fn marks_at(&self) -> usize {
        self.sectors() * self.bytes_a_sector
    }

    pub fn image_len(&self) -> usize {
        self.marks_at() + self.sectors()
    }
}

/// Where a sector is on the drive, and so in the image.
struct Spot {
    cylinder: usize,
    head: usize,
    sector: usize,
}

impl Spot {
    fn of(number: usize, drive: &Drive) -> Spot {
        let track = number / drive.sectors_a_track;
        Spot {
            cylinder: track / drive.heads,
            head: track % drive.heads,
            sector: number % drive.sectors_a_track,
        }
    }

    fn place(&self, drive: &Drive) -> usize {
        (self.cylinder * drive.heads + self.head) * drive.sectors_a_track + self.sector
    }

    /// So many sectors on, at most to the start of the next track.
    fn go_on(&mut self, sectors: usize, drive: &Drive) {
        self.sector += sectors;
        if self.sector == drive.sectors_a_track {
            self.sector = 0;
            self.head += 1;
            if self.head == drive.heads {
                self.head = 0;
                self.cylinder += 1;
            }
        }
    }
}

/// What a block asks for, once it is known to be there.
struct Asked {
    reads: bool,
    number: usize,
    count: usize,
    buffer: usize,
}

fn word(bytes: &[u8], at: usize) -> usize {
    usize::from(u16::from_be_bytes([bytes[at], bytes[at + 1]]))
}

fn long(bytes: &[u8], at: usize) -> usize {
    word(bytes, at) << 16 | word(bytes, at + 2)
}

/// None where the block cannot be done: an unknown command, sectors that the drive has not, an
/// image too short, or data outside of host memory.
fn asked(host: &[u8], image: &[u8], drive: &Drive, at: usize) -> Option<Asked> {
    let block = host.get(at..at + BLOCK_LEN)?;
    let asked = Asked {
        reads: block[0] == READ,
        number: long(block, 4),
        count: word(block, 8),
        buffer: long(block, 10),
    };
    let known = matches!(block[0], READ | WRITE) && block[1] == LOGICAL;
    let on_drive = asked.count > 0 && asked.number + asked.count <= drive.sectors();
    let in_memory = asked.buffer.is_multiple_of(2)
        && asked.buffer + asked.count * drive.bytes_a_sector <= host.len();
    let fits = known && on_drive && in_memory && image.len() >= drive.image_len();
    fits.then_some(asked)
}

/// Bytes from host memory to the image, or the other way.
fn copy(host: &mut [u8], here: Range<usize>, image: &mut [u8], there: Range<usize>, reads: bool) {
    if reads {
        host[here].copy_from_slice(&image[there]);
    } else {
        image[there].copy_from_slice(&host[here]);
    }
}

fn finish(host: &mut [u8], at: usize, status: [u8; 2]) {
    host[at + 2..at + 4].copy_from_slice(&status);
}

/// Does the block at an address, a copy a sector. Some sectors were moved; None: it was refused.
#[inline(never)]
pub fn by_sector(host: &mut [u8], image: &mut [u8], drive: &Drive, at: usize) -> Option<usize> {
    let asked = asked(host, image, drive, at)?;
    let b = drive.bytes_a_sector;
    let marks = drive.marks_at();
    let mut spot = Spot::of(asked.number, drive);
    for moved in 0..asked.count {
        let place = spot.place(drive);
        if asked.reads && image[marks + place] != 0 {
            finish(host, at, UNREADABLE);
            return Some(moved);
        }
        let here = asked.buffer + moved * b;
        copy(
            host,
            here..here + b,
            image,
            place * b..(place + 1) * b,
            asked.reads,
        );
        spot.go_on(1, drive);
    }
    finish(host, at, DONE);
    Some(asked.count)
}

/// The same with a copy a track.
#[inline(never)]
pub fn by_track(host: &mut [u8], image: &mut [u8], drive: &Drive, at: usize) -> Option<usize> {
    let asked = asked(host, image, drive, at)?;
    let b = drive.bytes_a_sector;
    let marks = drive.marks_at();
    let mut spot = Spot::of(asked.number, drive);
    let mut moved = 0;
    while moved < asked.count {
        let place = spot.place(drive);
        let row = (drive.sectors_a_track - spot.sector).min(asked.count - moved);
        let mut good = row;
        if asked.reads {
            let marks = &image[marks + place..marks + place + row];
            good = marks.iter().position(|mark| *mark != 0).unwrap_or(row);
        }
        let here = asked.buffer + moved * b;
        copy(
            host,
            here..here + good * b,
            image,
            place * b..(place + good) * b,
            asked.reads,
        );
        moved += good;
        if good < row {
            finish(host, at, UNREADABLE);
            return Some(moved);
        }
        spot.go_on(row, drive);
    }
    finish(host, at, DONE);
    Some(moved)
}
