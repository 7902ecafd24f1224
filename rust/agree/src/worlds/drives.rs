//! Geometries, the records that hold them, and the images.

use crate::case::{record_bytes, RecordBytes, OPENING, RECORD_LEN};
use crate::draw::Draw;
use model::{Geometry, Holder, Order, Record, Table, Volume};

/// The single ways in which a record can be outside: "a geometry outside the limits, or a
/// cylinder of C or more".
#[derive(Clone, Copy, Debug, PartialEq, Eq)]
pub enum Way {
    NoCylinders,
    ManyCylinders,
    NoSectors,
    ManySectors,
    BytesOdd,
    BytesFew,
    BytesMany,
    NoHeads,
    End0,
    End1,
    HeadShared,
    CylinderOfC,
    CylinderFar,
}

impl Way {
    pub const ALL: [Way; 13] = [
        Way::NoCylinders,
        Way::ManyCylinders,
        Way::NoSectors,
        Way::ManySectors,
        Way::BytesOdd,
        Way::BytesFew,
        Way::BytesMany,
        Way::NoHeads,
        Way::End0,
        Way::End1,
        Way::HeadShared,
        Way::CylinderOfC,
        Way::CylinderFar,
    ];

    pub fn says(self) -> &'static str {
        match self {
            Way::NoCylinders => "C 0",
            Way::ManyCylinders => "C over 4,096",
            Way::NoSectors => "S 0",
            Way::ManySectors => "S over 255",
            Way::BytesOdd => "B odd",
            Way::BytesFew => "B under 64",
            Way::BytesMany => "B over 4,096",
            Way::NoHeads => "volume 0 without heads",
            Way::End0 => "volume 0 ends over 64",
            Way::End1 => "volume 1 ends over 64",
            Way::HeadShared => "a head in two volumes",
            Way::CylinderOfC => "cylinder C",
            Way::CylinderFar => "cylinder over C",
        }
    }

    /// A good record made bad in this way, and in no other.
    pub fn spoil(self, draw: &mut Draw, record: &mut Record) {
        let g = &mut record.geometry;
        match self {
            Way::NoCylinders => g.cylinders = 0,
            Way::ManyCylinders => g.cylinders = draw.pick(&[4097, 4098, 8192, 65_535]),
            Way::NoSectors => g.sectors_a_track = 0,
            Way::ManySectors => g.sectors_a_track = draw.pick(&[256, 257, 512, 65_535]),
            Way::BytesOdd => g.bytes_a_sector = (g.bytes_a_sector | 1).clamp(65, 4095),
            Way::BytesFew => g.bytes_a_sector = draw.pick(&[62, 60, 2, 0]),
            Way::BytesMany => g.bytes_a_sector = draw.pick(&[4098, 4100, 8192, 65_534]),
            Way::NoHeads => g.volumes[0].heads = 0,
            Way::End0 => {
                g.volumes[0] = past_64(draw);
                g.volumes[1].heads = 0;
            }
            Way::End1 => {
                g.volumes[0] = volume(0, 1);
                g.volumes[1] = past_64(draw);
            }
            Way::HeadShared => share(draw, g),
            Way::CylinderOfC => record.cylinder = g.cylinders,
            Way::CylinderFar => {
                record.cylinder = draw.between(g.cylinders as u64 + 1, 65_535) as u16;
            }
        }
    }
}

fn volume(start_head: u8, heads: u8) -> Volume {
    Volume { start_head, heads }
}

/// A volume that ends after head 64, mostly at 65; 256 would look like 0 in a byte.
fn past_64(draw: &mut Draw) -> Volume {
    let end = draw.weighted(&[(6, 65), (1, 66), (1, 256), (1, 257), (1, 300)]);
    let heads = draw.between(if end > 256 { 60 } else { 1 }, 63);
    volume((end - heads).min(255) as u8, heads as u8)
}

fn share(draw: &mut Draw, g: &mut Geometry) {
    let heads = draw.between(1, 4) as u8;
    let start = draw.below(8) as u8;
    g.volumes[0] = volume(start, heads);
    // Volume 1 begins inside volume 0, or ends inside it, or has it inside.
    g.volumes[1] = match draw.below(3) {
        0 => volume(
            start + draw.below(heads as u64) as u8,
            draw.between(1, 4) as u8,
        ),
        1 => volume(start.saturating_sub(1), 2),
        _ => volume(0, start + heads + 1),
    };
}

/// A geometry within the limits whose image stays small. Here and below drives are by head; a theme that
/// has others too draws their order apart.
pub fn geometry(draw: &mut Draw) -> Geometry {
    let bytes = bytes_a_sector(draw);
    let sectors = (if bytes > 1000 { 60_000 } else { 20_000 }) / (bytes + 1);
    let s = sectors_a_track(draw).min(sectors);
    let volumes = volumes(draw, (sectors / s).min(64));
    let mut g = Geometry {
        cylinders: 1,
        sectors_a_track: s as u16,
        bytes_a_sector: bytes as u16,
        volumes,
        order: Order::ByHead,
    };
    let most = (sectors / g.drive_sectors().max(1)).clamp(1, 300);
    let usual = most.min(12);
    g.cylinders = draw.weighted(&[(8, usual), (1, most)]).min(4096) as u16;
    g.cylinders = draw.between(1, g.cylinders as u64) as u16;
    g
}

fn bytes_a_sector(draw: &mut Draw) -> u64 {
    match draw.below(20) {
        0..=9 => 64,
        10 => 66,
        11 => draw.between(34, 60) * 2,
        12 | 13 => 128,
        14 => 256,
        15 => 512,
        16 | 17 => 528,
        18 => draw.between(64, 300) * 2,
        _ => draw.weighted(&[(5, 1024), (1, 4094), (2, 4096)]),
    }
}

fn sectors_a_track(draw: &mut Draw) -> u64 {
    match draw.below(20) {
        0..=15 => draw.between(1, 8),
        16 | 17 => draw.between(9, 40),
        18 => draw.between(41, 255),
        _ => draw.pick(&[254, 255]),
    }
}

/// Two volumes that end at `most` heads or before; where that leaves room, with heads of no
/// volume before, between them, and either volume first.
pub fn volumes(draw: &mut Draw, most: u64) -> [Volume; 2] {
    let heads0 = draw.between(1, most.min(3));
    let left = most - heads0;
    if left == 0 || draw.percent(30) {
        let start = draw.below(left.min(3) + 1);
        // The start head of a volume that is not there is neither judged nor counted.
        let (near, any) = (draw.below(4), draw.below(256));
        let nowhere = draw.weighted(&[(3, 0), (2, near), (2, 60), (1, any)]);
        return [volume(start as u8, heads0 as u8), volume(nowhere as u8, 0)];
    }
    let heads1 = draw.between(1, left.min(3));
    let spare = (left - heads1).min(3);
    let before = draw.below(spare + 1);
    let gap = draw.below(spare - before + 1);
    if most == 64 && draw.one_in(8) {
        // as far as heads go
        return [
            volume(before as u8, heads0 as u8),
            volume(64 - heads1 as u8, heads1 as u8),
        ];
    }
    if draw.percent(60) {
        [
            volume(before as u8, heads0 as u8),
            volume((before + heads0 + gap) as u8, heads1 as u8),
        ]
    } else {
        [
            volume((before + heads1 + gap) as u8, heads0 as u8),
            volume(before as u8, heads1 as u8),
        ]
    }
}

/// A geometry within the limits, or at them, whose image nobody has: for commands without data.
pub fn wide_geometry(draw: &mut Draw) -> Geometry {
    let end = draw.between(2, 64);
    let heads0 = draw.between(1, end - 1);
    let (c, s, b) = (
        draw.between(1, 4096),
        draw.between(1, 255),
        2 * draw.between(32, 2048),
    );
    Geometry {
        cylinders: draw.weighted(&[(2, 4096), (1, 4095), (2, c)]) as u16,
        sectors_a_track: draw.weighted(&[(2, 255), (2, s)]) as u16,
        bytes_a_sector: draw.weighted(&[(2, 4096), (1, 64), (2, b)]) as u16,
        volumes: match draw.below(3) {
            0 => [volume(0, 64), volume(255, 0)],
            1 => [
                volume(0, heads0 as u8),
                volume(heads0 as u8, (end - heads0) as u8),
            ],
            _ => [
                volume((end - heads0) as u8, heads0 as u8),
                volume(0, (end - heads0) as u8),
            ],
        },
        order: Order::ByHead,
    }
}

/// The record of a unit that is ready.
pub fn ready(draw: &mut Draw, g: Geometry) -> Record {
    let last = g.cylinders - 1;
    let any = draw.between(0, last as u64) as u16;
    let cylinder = draw.weighted(&[(3, 0), (2, last), (3, any)]);
    Record {
        initialized: true,
        geometry: g,
        cylinder,
        table: Table::NONE,
        holder: Holder::Nobody,
    }
}

/// The bytes of a record that counts as not initialized.
pub fn unready(draw: &mut Draw, g: Geometry) -> RecordBytes {
    let mut record = ready(draw, g);
    match draw.below(20) {
        0..=11 => {
            draw.pick(&Way::ALL).spoil(draw, &mut record);
            record_bytes(&record)
        }
        12 | 13 => {
            record.initialized = false;
            record_bytes(&record)
        }
        14 => [0; RECORD_LEN],
        15 => [0xff; RECORD_LEN],
        16 => {
            let mut bytes = [0; RECORD_LEN];
            draw.fill(&mut bytes[..16]);
            bytes
        }
        _ => other_opening(draw, record_bytes(&record)),
    }
}

/// One of the four opening bytes is another.
fn other_opening(draw: &mut Draw, mut bytes: RecordBytes) -> RecordBytes {
    let at = draw.below(4) as usize;
    // one less is the version before, and a flag that says no
    let near = [OPENING[at] ^ 1, OPENING[at].wrapping_sub(1), 0xff, 0x80];
    bytes[at] = draw.pick(&near);
    bytes
}

/// An image with random data. The marks of each geometry that the unit will have are good but
/// for some.
pub fn image(draw: &mut Draw, len: usize, shapes: &[Geometry]) -> Vec<u8> {
    let mut image = draw.bytes(len);
    for g in shapes {
        marks(draw, &mut image, g);
    }
    image
}

/// As many of a geometry's marks as the image has, all good.
pub fn good_marks<'a>(image: &'a mut [u8], g: &Geometry) -> &'a mut [u8] {
    let from = (g.marks_at() as usize).min(image.len());
    let to = (g.need() as usize).min(image.len());
    let marks = &mut image[from..to];
    marks.fill(0);
    marks
}

fn marks(draw: &mut Draw, image: &mut [u8], g: &Geometry) {
    let sectors = g.drive_sectors();
    let marks = good_marks(image, g);
    if marks.is_empty() {
        return;
    }
    let bad = match draw.below(20) {
        0..=8 => 0,
        9..=14 => draw.between(1, 3),
        15..=17 => sectors / 8 + 1,
        18 => sectors / 2 + 1,
        _ => 2 * sectors,
    };
    for _ in 0..bad {
        let at = draw.below(marks.len() as u64) as usize;
        let any = draw.byte();
        marks[at] = draw.weighted(&[(4, 1), (2, 0xff), (1, 0x80), (1, 2), (2, any)]);
    }
}
