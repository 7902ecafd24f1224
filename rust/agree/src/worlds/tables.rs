//! Tables of bad tracks and their spares: in records, good ones and spoiled ones, and in chains, the
//! blocks that add to them and those that land on them.

use super::chain::{uib_of, Aim, Maker, Unit, UIB};
use super::drives::{self, ready, volumes, wide_geometry};
use crate::case::{record_bytes, RecordBytes, HOLDER_AT, ORDER_AT, PAIRS_AT, RECORD_LEN, TABLE_AT};
use crate::draw::Draw;
use model::{Address, Block, Geometry, Order, Pair, Record, Table, Track, MOST_PAIRS};

/// The single ways in which the table of a record, or what stands before it, makes the record one
/// that counts as not initialized.
#[derive(Clone, Copy, Debug, PartialEq, Eq)]
pub enum TableWay {
    ManyPairs,
    FarTooMany,
    CylinderOff,
    HeadOff,
    LastByte,
    PairEqual,
    BadTwice,
    SpareTwice,
    BadAndSpare,
    Order,
    Holder,
}

impl TableWay {
    pub const ALL: [TableWay; 11] = [
        TableWay::ManyPairs,
        TableWay::FarTooMany,
        TableWay::CylinderOff,
        TableWay::HeadOff,
        TableWay::LastByte,
        TableWay::PairEqual,
        TableWay::BadTwice,
        TableWay::SpareTwice,
        TableWay::BadAndSpare,
        TableWay::Order,
        TableWay::Holder,
    ];

    pub fn says(self) -> &'static str {
        match self {
            TableWay::ManyPairs => "33 pairs",
            TableWay::FarTooMany => "pairs over 33",
            TableWay::CylinderOff => "a table's cylinder of C or more",
            TableWay::HeadOff => "a table's head of H or more",
            TableWay::LastByte => "a track's last byte not 00",
            TableWay::PairEqual => "a pair of one track",
            TableWay::BadTwice => "a bad track twice",
            TableWay::SpareTwice => "a spare twice",
            TableWay::BadAndSpare => "a track bad and spare",
            TableWay::Order => "an order byte that is no order",
            TableWay::Holder => "a holder byte that is no holder",
        }
    }

    /// The bytes of a good record made bad in this way, and in no other. A way that takes more pairs
    /// than there are takes more of them first, where the drive has the tracks.
    fn spoil(self, draw: &mut Draw, record: &Record) -> RecordBytes {
        let mut table = record.table;
        let least = match self {
            TableWay::ManyPairs | TableWay::FarTooMany => MOST_PAIRS,
            TableWay::BadTwice | TableWay::SpareTwice | TableWay::BadAndSpare => 2,
            TableWay::Order | TableWay::Holder => 0,
            _ => 1,
        };
        grow(draw, &record.geometry, &mut table, least);
        let mut bytes = record_bytes(&Record { table, ..*record });
        self.spoil_bytes(draw, &record.geometry, table.pairs().len(), &mut bytes);
        bytes
    }

    fn spoil_bytes(self, draw: &mut Draw, g: &Geometry, pairs: usize, bytes: &mut RecordBytes) {
        let one = draw.below(pairs as u64) as usize;
        let other = draw.below((pairs as u64).saturating_sub(1)) as usize;
        let other = other + (other >= one) as usize;
        // of two pairs the bad tracks, and the spares
        let bad = [one, other].map(|k| TABLE_AT + 8 * k);
        let spare = bad.map(|at| at + 4);
        let any = draw.pick(&[bad[0], spare[0]]);
        let mut same = |from: usize, to: usize| bytes.copy_within(from..from + 4, to);
        match self {
            TableWay::ManyPairs => bytes[PAIRS_AT..TABLE_AT].copy_from_slice(&[0, 33]),
            TableWay::FarTooMany => {
                let pairs = draw.pick(&[34, 64, 256, 257, 288, 65_535_u16]);
                bytes[PAIRS_AT..TABLE_AT].copy_from_slice(&pairs.to_be_bytes());
            }
            TableWay::CylinderOff => {
                let far = draw.between(g.cylinders as u64, 65_535) as u16;
                let cylinder = draw.weighted(&[(3, g.cylinders), (1, far)]);
                bytes[any..any + 2].copy_from_slice(&cylinder.to_be_bytes());
            }
            TableWay::HeadOff => {
                let far = draw.between(g.drive_heads(), 255);
                bytes[any + 2] = draw.weighted(&[(3, g.drive_heads()), (1, far)]) as u8;
            }
            TableWay::LastByte => bytes[any + 3] = draw.pick(&[1, 0x80, 0xff]),
            TableWay::PairEqual => same(bad[0], spare[0]),
            TableWay::BadTwice if pairs > 1 => same(bad[0], bad[1]),
            TableWay::SpareTwice if pairs > 1 => same(spare[0], spare[1]),
            TableWay::BadAndSpare if pairs > 1 => same(bad[0], spare[1]),
            TableWay::BadTwice | TableWay::SpareTwice | TableWay::BadAndSpare => {}
            TableWay::Order => bytes[ORDER_AT] = draw.pick(&[3, 2, 0x80, 0xff]),
            // the first two are holders: with one the record is good, with the other it is 24
            TableWay::Holder => bytes[HOLDER_AT] = draw.pick(&[1, 2, 0x80, 0xff]),
        }
    }
}

/// The bytes of a record that counts as not initialized, mostly for its table alone.
fn unready(draw: &mut Draw, g: Geometry, table: Table) -> RecordBytes {
    let record = Record {
        table,
        ..ready(draw, g)
    };
    match draw.below(12) {
        0 => drives::unready(draw, g),
        1 => {
            // any bytes behind the opening of a good record
            let mut bytes = [0; RECORD_LEN];
            draw.fill(&mut bytes);
            bytes[..16].copy_from_slice(&record_bytes(&record)[..16]);
            if bytes[ORDER_AT] == Order::ByCylinder.number() {
                // by cylinder are only drives that are meant to be
                bytes[ORDER_AT] = 2;
            }
            bytes
        }
        _ => draw.pick(&TableWay::ALL).spoil(draw, &record),
    }
}

/// A geometry with tracks enough for a table, often for a full one.
pub fn geometry(draw: &mut Draw) -> Geometry {
    let roomy = draw.percent(45);
    let b = if roomy {
        64
    } else {
        draw.weighted(&[(6, 64), (1, 66), (3, 128), (1, 256), (1, 512), (1, 528)])
    };
    let s = draw.between(1, if roomy { 3 } else { 6 }).min(1600 / b);
    let mut g = Geometry {
        cylinders: 1,
        sectors_a_track: s as u16,
        bytes_a_sector: b as u16,
        volumes: volumes(draw, 9),
        order: Order::ByHead,
    };
    let h = g.drive_heads();
    let least = if roomy { 66_u64.div_ceil(h) } else { 2 };
    let most = if roomy { least + 6 } else { 24 };
    // an image of some 20,000 bytes, or as long as a full table asks
    let room = (20_000 / (h * s * (b + 1))).max(least);
    g.cylinders = draw.between(least, most.min(room)) as u16;
    g
}

impl Unit {
    /// A unit with a table, or with a record that its table spoils.
    pub fn tabled(draw: &mut Draw) -> Unit {
        let wide = draw.percent(6);
        let meant = if wide {
            wide_geometry(draw)
        } else {
            geometry(draw)
        };
        Unit::tabled_as(draw, meant, wide)
    }

    pub fn tabled_as(draw: &mut Draw, meant: Geometry, wide: bool) -> Unit {
        let table = table(draw, &meant);
        let is_ready = draw.percent(75);
        let record = if is_ready {
            let record = ready(draw, meant);
            record_bytes(&Record { table, ..record })
        } else {
            unready(draw, meant, table)
        };
        Unit {
            record,
            ready: is_ready,
            meant,
            table,
            added: table.pairs().iter().map(|pair| (meant, *pair)).collect(),
            shapes: if wide { Vec::new() } else { vec![meant] },
            wide,
        }
    }

    /// A unit as a session finds it: no initialize has reached it, and its drive fits a field.
    pub fn fresh(draw: &mut Draw) -> Unit {
        let mut meant = geometry(draw);
        while meant.need() > 16_384 {
            meant = geometry(draw);
        }
        Unit {
            record: [0; RECORD_LEN],
            ready: false,
            meant,
            table: Table::NONE,
            added: Vec::new(),
            shapes: vec![meant],
            wide: false,
        }
    }
}

/// A table that the drive can have.
fn table(draw: &mut Draw, g: &Geometry) -> Table {
    let some = draw.between(3, 8);
    let many = draw.between(9, 30);
    let pairs = draw.weighted(&[
        (2, 0),
        (4, 1),
        (5, 2),
        (5, some),
        (2, many),
        (2, 31),
        (3, 32),
    ]);
    let mut table = Table::NONE;
    grow(draw, g, &mut table, pairs as usize);
    table
}

/// Adds pairs until there are so many, or the drive has no tracks left.
fn grow(draw: &mut Draw, g: &Geometry, table: &mut Table, pairs: usize) {
    while table.pairs().len() < pairs {
        match free_pair(draw, g, table) {
            Some(pair) => table.add(pair),
            None => return,
        }
    }
}

/// Two tracks of the drive that are not in its table.
fn free_pair(draw: &mut Draw, g: &Geometry, table: &Table) -> Option<Pair> {
    let bad = free_track(draw, g, table, |g, track| volume_of(g, track).is_some())?;
    let mut without = *table;
    without.add(Pair { bad, spare: bad });
    let spare = match draw.below(20) {
        0..=5 => neighbour(draw, g, &without, bad),
        6..=11 => free_track(draw, g, &without, |g, track| {
            volume_of(g, track).is_some() && volume_of(g, track) != volume_of(g, bad)
        }),
        12..=15 => free_track(draw, g, &without, |g, track| volume_of(g, track).is_none()),
        _ => None,
    };
    let spare = spare.or_else(|| free_track(draw, g, &without, |_, _| true))?;
    Some(Pair { bad, spare })
}

/// A drive that no initialize has reached, and the pairs that 85s are to name on it one after the other:
/// free ones, and some of which one track is in the table already.
pub struct NamedDrive {
    pub geometry: Geometry,
    pub uib: [u8; UIB],
    pub pairs: Vec<Pair>,
}

pub fn named_drive(draw: &mut Draw) -> NamedDrive {
    let geometry = geometry(draw);
    let uib = uib_of(draw, &geometry);
    let mut table = Table::NONE;
    let mut pairs = Vec::new();
    for _ in 0..draw.pick(&[1, 2, 3, 5, 9, 20, 40]) {
        let Some(mut pair) = free_pair(draw, &geometry, &table) else {
            break;
        };
        let taken = !table.pairs().is_empty() && draw.percent(15);
        if taken {
            let one = draw.pick(table.pairs());
            let track = draw.pick(&[one.bad, one.spare]);
            if draw.percent(50) {
                pair.bad = track;
            } else {
                pair.spare = track;
            }
        } else if !table.full() {
            table.add(pair);
        }
        pairs.push(pair);
    }
    NamedDrive {
        geometry,
        uib,
        pairs,
    }
}

/// The volume that a track belongs to, if it belongs to one.
fn volume_of(g: &Geometry, track: Track) -> Option<u8> {
    (0..2).find(|volume| g.volumes[*volume as usize].has_head(track.head as u64))
}

fn is_in(table: &Table, track: Track) -> bool {
    let mut pairs = table.pairs().iter();
    pairs.any(|pair| pair.bad == track || pair.spare == track)
}

fn any_track(draw: &mut Draw, g: &Geometry) -> Track {
    let cylinder = draw.below(g.cylinders as u64) as u16;
    Track::new(cylinder, draw.below(g.drive_heads()) as u8)
}

/// A track that is not in the table, and wanted if one of those tried is.
fn free_track(
    draw: &mut Draw,
    g: &Geometry,
    table: &Table,
    wanted: impl Fn(&Geometry, Track) -> bool,
) -> Option<Track> {
    let mut found = None;
    for _ in 0..40 {
        let track = any_track(draw, g);
        if is_in(table, track) {
            continue;
        }
        found = Some(track);
        if wanted(g, track) {
            break;
        }
    }
    found
}

/// The track before or after one in its volume, so that a span can have both.
fn neighbour(draw: &mut Draw, g: &Geometry, table: &Table, track: Track) -> Option<Track> {
    let volume = volume_of(g, track)?;
    let s = g.sectors_a_track as u64;
    let first = first_of(g, track)?;
    let to = if draw.percent(50) {
        first + s
    } else {
        first.checked_sub(s)?
    };
    let address = g.over_the_drive(volume, g.address(volume, to)?)?;
    let next = Track::new(address.cylinder as u16, address.head as u8);
    (!is_in(table, next)).then_some(next)
}

/// The number in its volume of the first sector of a track.
fn first_of(g: &Geometry, track: Track) -> Option<u64> {
    let volume = volume_of(g, track)?;
    let start_head = g.volumes[volume as usize].start_head as u64;
    g.logical(
        volume,
        Address {
            cylinder: track.cylinder as u64,
            head: track.head as u64 - start_head,
            sector: 0,
        },
    )
}

/// The words of an 85 that name a pair; what it does not look at stays as it is.
pub fn name(block: &mut Block, pair: &Pair) {
    block.cylinder = pair.bad.cylinder;
    block.head = pair.bad.head;
    block.sector_count = pair.spare.cylinder;
    block.buffer_address = block.buffer_address & 0xff_ffff | (pair.spare.head as u32) << 24;
}

impl Maker {
    /// An 85, mostly one that adds its pair.
    pub fn remap(&mut self, unit: usize, block: &mut Block) {
        let Unit { meant, table, .. } = self.units[unit];
        let free = free_pair(&mut self.draw, &meant, &table);
        // a full table refuses in any case, by 23 or by a check before it
        let often = if table.full() { 45 } else { 11 };
        let refused = self.slip() || self.draw.percent(often);
        let Some(pair) = free.filter(|_| !refused) else {
            let pair = self.refused_pair(unit, free);
            name(block, &pair);
            return;
        };
        name(block, &pair);
        if !table.full() {
            self.units[unit].table.add(pair);
            self.units[unit].added.push((meant, pair));
        }
    }

    /// A pair that no 85 can add: off the drive, or taken, or both.
    pub fn refused_pair(&mut self, unit: usize, free: Option<Pair>) -> Pair {
        let Unit { meant, table, .. } = self.units[unit];
        let draw = &mut self.draw;
        let any = any_track(draw, &meant);
        let mut pair = free.unwrap_or(Pair {
            bad: any,
            spare: any,
        });
        let taken = match table.pairs() {
            [] => pair.bad,
            pairs => {
                let one = draw.pick(pairs);
                draw.pick(&[one.bad, one.spare])
            }
        };
        match draw.below(6) {
            0 => pair.spare = pair.bad,
            1 | 2 => pair.bad = taken,
            3 | 4 => pair.spare = taken,
            _ => {}
        }
        let still_free = Some(pair) == free;
        if still_free || draw.percent(35) {
            let track = if draw.percent(50) {
                &mut pair.bad
            } else {
                &mut pair.spare
            };
            off_the_drive(draw, &meant, track);
        }
        pair
    }

    /// Lets a block aim at sectors around a track of the table; None where there is none in a volume.
    pub fn aim_at_table(&mut self, unit: usize, block: &mut Block, most: u64) -> Option<Aim> {
        let g = self.units[unit].meant;
        let track = self.tracks_of_table(unit)?;
        let volume = volume_of(&g, track)?;
        let sectors = g.volume_sectors(volume);
        let count = self.count(most.min(sectors));
        let s = g.sectors_a_track as u64;
        // the last of the span anywhere from the track's first sector on, the first anywhere up to
        // its last
        let reach = self.draw.below(count + s - 1);
        let first = (first_of(&g, track)? + s - 1).saturating_sub(reach);
        let aim = Aim {
            volume,
            first: first.min(sectors - count),
            count,
        };
        self.point(block, &g, aim);
        Some(aim)
    }

    /// A track of the unit's table, mostly a bad one, and often of the pair added last.
    fn tracks_of_table(&mut self, unit: usize) -> Option<Track> {
        let table = self.units[unit].table;
        let pairs = table.pairs();
        let last = pairs.last()?;
        let any = self.draw.pick(pairs);
        let pair = self.draw.weighted(&[(2, any), (1, *last)]);
        Some(self.draw.weighted(&[(3, pair.bad), (1, pair.spare)]))
    }

    /// Lets an 8C aim at a track of the table, where there is one.
    pub fn track_of_table(&mut self, unit: usize, block: &mut Block) {
        if let Some(track) = self.tracks_of_table(unit) {
            block.cylinder = track.cylinder;
            block.head = track.head;
        }
    }

    /// Marks on bad tracks, which are not to be heeded, and on spares, which are.
    pub fn mark_tables(&mut self, unit: usize, image: &mut [u8]) {
        for (g, pair) in &self.units[unit].added {
            for (track, times) in [(pair.bad, 25), (pair.spare, 9)] {
                if !self.draw.percent(times) {
                    continue;
                }
                let s = g.sectors_a_track as u64;
                let number = track.cylinder as u64 * g.drive_heads() + track.head as u64;
                let at = g.marks_at() + number * s + self.draw.below(s);
                if let Some(mark) = image.get_mut(at as usize) {
                    *mark = self.draw.pick(&[1, 0x80, 0xff]);
                }
            }
        }
    }

    /// The place of a sector on a track of the table, for an inspection.
    pub fn place_of_table(&mut self, unit: usize) -> Option<u64> {
        let g = self.units[unit].meant;
        let track = self.tracks_of_table(unit)?;
        let number = track.cylinder as u64 * g.drive_heads() + track.head as u64;
        let s = g.sectors_a_track as u64;
        Some(number * s + self.draw.below(s))
    }
}

/// Puts a track off the drive, at the edge or far.
fn off_the_drive(draw: &mut Draw, g: &Geometry, track: &mut Track) {
    match draw.below(6) {
        0 | 1 => track.cylinder = g.cylinders,
        2 | 3 => track.head = g.drive_heads() as u8,
        4 => track.cylinder = draw.between(g.cylinders as u64, 65_535) as u16,
        _ => track.head = draw.between(g.drive_heads(), 255) as u8,
    }
}
