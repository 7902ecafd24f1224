//! A case: all that is handed to a run, and what is asked of it afterwards.

use model::{Controller, Geometry, Holder, Order, Pair, Record, Table, Track, Volume};

pub const RECORD_LEN: usize = 276;

/// A unit record as it crosses to the library.
pub type RecordBytes = [u8; RECORD_LEN];

/// An inspection after the run, for images of the lengths given.
#[derive(Clone, Copy)]
pub struct Inspection {
    pub unit: u32,
    pub place: u64,
    /// None: the images' own lengths. They are numbers only, so larger ones can be asked too.
    pub image_lens: Option<[u64; 2]>,
}

#[derive(Clone)]
pub struct Case {
    /// Who runs it. Host memory and events are that controller's.
    pub controller: Controller,
    pub host: Vec<u8>,
    pub images: [Vec<u8>; 2],
    pub events: Vec<u8>,
    pub records: [RecordBytes; 2],
    pub first: u32,
    pub allowance: u32,
    pub inspections: Vec<Inspection>,
}

/// The bytes with which the record of an initialized unit opens: version 2, the flag, length 276.
pub const OPENING: [u8; 4] = [0x02, 0x01, 0x01, 0x14];

/// Where the order of the tracks stands, and where the holder does.
pub const ORDER_AT: usize = 16;
pub const HOLDER_AT: usize = 17;

/// Where the number of pairs stands, and where the pairs begin.
pub const PAIRS_AT: usize = 18;
pub const TABLE_AT: usize = 20;

/// Where so many pairs that count end in a record.
pub fn counting_end(pairs: u16) -> usize {
    TABLE_AT + 8 * (pairs as usize).min(32)
}

/// The record that stands in some bytes, with all that its table has room for. The layout is read here a
/// second time, apart from the wrapper that is tested along with the library.
pub fn record_in(bytes: &RecordBytes) -> Record {
    let word = |at: usize| bytes[at] as u16 * 256 + bytes[at + 1] as u16;
    let volume = |at: usize| Volume {
        start_head: bytes[at],
        heads: bytes[at + 1],
    };
    let track = |at: usize| Track {
        cylinder: word(at),
        head: bytes[at + 2],
        last: bytes[at + 3],
    };
    Record {
        initialized: bytes[..4] == OPENING
            && Order::is_one(bytes[ORDER_AT])
            && Holder::is_one(bytes[HOLDER_AT]),
        geometry: Geometry {
            cylinders: word(4),
            sectors_a_track: word(6),
            bytes_a_sector: word(8),
            volumes: [volume(10), volume(12)],
            order: Order::said(bytes[ORDER_AT]),
        },
        cylinder: word(14),
        table: Table::standing(word(PAIRS_AT), |k| Pair {
            bad: track(TABLE_AT + 8 * k),
            spare: track(TABLE_AT + 8 * k + 4),
        }),
        holder: Holder::said([bytes[0], bytes[1], bytes[2], bytes[3]], bytes[HOLDER_AT]),
    }
}

/// The bytes of a record, all 276 of them.
pub fn record_bytes(record: &Record) -> RecordBytes {
    let g = &record.geometry;
    let mut bytes = [0; RECORD_LEN];
    bytes[..4].copy_from_slice(&OPENING);
    bytes[1] = record.initialized as u8;
    bytes[4..6].copy_from_slice(&g.cylinders.to_be_bytes());
    bytes[6..8].copy_from_slice(&g.sectors_a_track.to_be_bytes());
    bytes[8..10].copy_from_slice(&g.bytes_a_sector.to_be_bytes());
    for (k, volume) in g.volumes.iter().enumerate() {
        bytes[10 + 2 * k] = volume.start_head;
        bytes[11 + 2 * k] = volume.heads;
    }
    bytes[14..16].copy_from_slice(&record.cylinder.to_be_bytes());
    bytes[ORDER_AT] = g.order.number();
    bytes[HOLDER_AT] = record.holder.number();
    bytes[PAIRS_AT..TABLE_AT].copy_from_slice(&record.table.count().to_be_bytes());
    for (k, pair) in record.table.room().iter().enumerate() {
        put_track(&mut bytes, TABLE_AT + 8 * k, &pair.bad);
        put_track(&mut bytes, TABLE_AT + 8 * k + 4, &pair.spare);
    }
    bytes
}

fn put_track(bytes: &mut RecordBytes, at: usize, track: &Track) {
    bytes[at..at + 2].copy_from_slice(&track.cylinder.to_be_bytes());
    bytes[at + 2] = track.head;
    bytes[at + 3] = track.last;
}

/// The bytes of a record after a run: as they came where the record is the same, and otherwise all
/// stored anew. What stands past the pairs that count is part of a record: an 87 clears it, an 85 has its
/// pair in the first place of it, and otherwise it comes back as it came.
pub fn record_left(before: &RecordBytes, after: &Record) -> RecordBytes {
    if record_in(before) == *after {
        *before
    } else {
        record_bytes(after)
    }
}
