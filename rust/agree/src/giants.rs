//! Memories that the model cannot hold: host memory over 4 GiB, and an image at the paper's limits.
//! They are mappings of which only the bytes touched are there. The model takes no part; what has to
//! stand where was worked out by hand.

use vsmd3200::{
    inspect, run, BlockAnswer, Geometry, Order, Outcome, Pair, Record, RunAnswer, Track, Volume,
};

/// Host memory that goes on after the last address.
const HOST_LEN: usize = (1 << 32) + 65_536;

/// C, H, S and B at their limits: 4,096 × 64 × 255 sectors of 4,096 bytes, and a mark for each.
const SECTORS: usize = 66_846_720;
const B: usize = 4096;
const IMAGE_LEN: usize = 273_871_011_840;
const LAST: usize = SECTORS - 1;

/// Where the small things lie in host memory.
const DATA: usize = 0x1000;

mod system {
    use std::ffi::c_void;

    extern "C" {
        pub fn mmap(
            at: *mut c_void,
            len: usize,
            access: i32,
            kind: i32,
            file: i32,
            from: i64,
        ) -> *mut c_void;
        pub fn munmap(at: *mut c_void, len: usize) -> i32;
    }

    pub const READ_AND_WRITE: i32 = 1 | 2;
    pub const PRIVATE: i32 = 0x02;
    pub const ANONYMOUS: i32 = 0x20;
    pub const NO_RESERVE: i32 = 0x4000;
}

/// A mapping of so many zero bytes.
struct Sparse {
    at: *mut u8,
    len: usize,
}

impl Sparse {
    /// None where the machine refuses.
    fn new(len: usize) -> Option<Sparse> {
        use system::{ANONYMOUS, NO_RESERVE, PRIVATE, READ_AND_WRITE};
        if cfg!(not(target_os = "linux")) {
            return None;
        }
        let kind = PRIVATE | ANONYMOUS | NO_RESERVE;
        // SAFETY: a new mapping at no particular place touches no memory of this program.
        let at = unsafe { system::mmap(std::ptr::null_mut(), len, READ_AND_WRITE, kind, -1, 0) };
        if at as isize == -1 {
            return None;
        }
        Some(Sparse { at: at.cast(), len })
    }

    fn bytes(&mut self) -> &mut [u8] {
        // SAFETY: the mapping has so many bytes, all of them zero or written since, is this
        // struct's alone, and stays until it is dropped.
        unsafe { std::slice::from_raw_parts_mut(self.at, self.len) }
    }
}

impl Drop for Sparse {
    fn drop(&mut self) {
        // SAFETY: the mapping was made with this length, and no borrow of it is left.
        unsafe {
            system::munmap(self.at.cast(), self.len);
        }
    }
}

/// A block by its bytes.
struct Words {
    command: u8,
    options: u8,
    number: u32,
    count: u16,
    buffer: u32,
    link: u32,
    elements: u8,
}

const XL: u8 = 0x10;
const LK: u8 = 0x20;
const DE: u8 = 0x04;

fn put_block(host: &mut [u8], at: usize, words: &Words) {
    let block = &mut host[at..at + 28];
    block.fill(0);
    block[0] = words.command;
    block[1] = words.options;
    block[4..8].copy_from_slice(&words.number.to_be_bytes());
    block[8..10].copy_from_slice(&words.count.to_be_bytes());
    block[10..14].copy_from_slice(&words.buffer.to_be_bytes());
    block[20..24].copy_from_slice(&words.link.to_be_bytes());
    block[27] = words.elements;
}

fn transfer(command: u8, options: u8, number: u32, count: u16, buffer: u32) -> Words {
    Words {
        command,
        options: options | XL,
        number,
        count,
        buffer,
        link: 0,
        elements: 0,
    }
}

/// What a run of one or more blocks has to come to.
fn came_to(failed: Option<BlockAnswer>, blocks: u32, sectors: u32) -> Outcome {
    Outcome {
        answer: match failed {
            None => RunAnswer::Done,
            Some(_) => RunAnswer::BlockFailed,
        },
        failed,
        blocks,
        sectors,
    }
}

/// What is wrong, a line each, and how much was looked at.
#[derive(Default)]
pub struct Report {
    pub cases: u32,
    pub wrong: Vec<String>,
    /// What the machine would not have.
    pub refused: Vec<String>,
}

impl Report {
    fn expect<T: PartialEq + std::fmt::Debug>(&mut self, name: &str, got: T, want: T) {
        self.cases += 1;
        if got != want {
            self.wrong
                .push(format!("{}: {:?} and not {:?}", name, got, want));
        }
    }

    fn expect_bytes(&mut self, name: &str, got: &[u8], want: &[u8]) {
        self.cases += 1;
        if got != want {
            self.wrong.push(format!("{}: other bytes", name));
        }
    }
}

pub fn report() -> Report {
    let mut report = Report::default();
    match Sparse::new(HOST_LEN) {
        Some(mut host) => host_over_4_gib(&mut report, host.bytes()),
        None => report
            .refused
            .push("host memory over 4 GiB is not tried: the machine refuses the mapping".into()),
    }
    match Sparse::new(IMAGE_LEN) {
        Some(mut image) => image_at_the_limits(&mut report, image.bytes()),
        None => report
            .refused
            .push("an image at the limits is not tried: the machine refuses the mapping".into()),
    }
    report
}

/// A drive of 17 sectors of 4,096 bytes, so that 16 of them fill the 64 KiB after the last address.
fn few_sectors() -> (Record, Vec<u8>) {
    let geometry = Geometry {
        cylinders: 1,
        sectors_a_track: 17,
        bytes_a_sector: B as u16,
        volumes: [
            Volume {
                start_head: 0,
                heads: 1,
            },
            Volume::default(),
        ],
        order: Order::ByHead,
    };
    let mut image: Vec<u8> = (0..17 * B)
        .map(|k| (k * 7 + k / B * 13 + 1) as u8)
        .collect();
    image.resize(17 * (B + 1), 0);
    (Record::from_parts(true, geometry, 0), image)
}

fn host_over_4_gib(report: &mut Report, host: &mut [u8]) {
    let (record, mut image) = few_sectors();
    let mut records = [record, Record::UNINITIALIZED];
    let mut events = [0; 512];
    let mut go = |host: &mut [u8], image: &mut [u8], first: u32, allowance: u32| {
        run(
            host,
            image,
            &mut [],
            &mut events,
            &mut records,
            first,
            allowance,
        )
    };

    // The block stands below 2^32, its data run past it to the last even place but one.
    let first = 0xffff_ffe0;
    put_block(host, first as usize, &transfer(0x81, 0, 0, 16, 0xffff_fffe));
    let got = go(host, &mut image, first, 1);
    report.expect("read past 2^32", got, came_to(None, 1, 16));
    let data = 0xffff_fffe;
    report.expect_bytes(
        "read past 2^32",
        &host[data..data + 16 * B],
        &image[..16 * B],
    );
    report.expect_bytes(
        "status",
        &host[first as usize + 2..first as usize + 4],
        &[0x80, 0x00],
    );
    report.expect_bytes("nothing at address 0", &host[..B], &[0; B]);
    report.expect_bytes("the bytes around", &host[HOST_LEN - 2..], &[0; 2]);

    put_block(host, first as usize, &transfer(0x81, 0, 0, 17, 0xffff_fffe));
    let got = go(host, &mut image, first, 1);
    let misplaced = came_to(Some(BlockAnswer::DataMisplaced), 1, 0);
    report.expect("one sector more is not in memory", got, misplaced);

    // A block that lies across 2^32 is linked; it writes what was read, two sectors further on.
    let across = 0xffff_fff0;
    let read = Words {
        link: across,
        ..transfer(0x81, LK, 3, 1, DATA as u32)
    };
    put_block(host, first as usize - 28, &read);
    put_block(host, across as usize, &transfer(0x82, 0, 5, 1, DATA as u32));
    let wanted = image[3 * B..4 * B].to_vec();
    let got = go(host, &mut image, first - 28, 2);
    report.expect("a block across 2^32", got, came_to(None, 2, 2));
    report.expect_bytes("its write", &image[5 * B..6 * B], &wanted);
    report.expect_bytes("its status", &host[0xffff_fff2..0xffff_fff4], &[0x80, 0x00]);

    // A list across 2^32 whose element does the same.
    let list = 0xffff_fffa_u32;
    let element = [
        &(B as u16).to_be_bytes()[..],
        &0xffff_f800_u32.to_be_bytes(),
        &[0, 0],
    ]
    .concat();
    host[list as usize..list as usize + 8].copy_from_slice(&element);
    let gather = Words {
        elements: 1,
        ..transfer(0xa1, 0, 9, 1, list)
    };
    put_block(host, DATA, &gather);
    let got = go(host, &mut image, DATA as u32, 1);
    report.expect("a list across 2^32", got, came_to(None, 1, 1));
    let to = 0xffff_f800;
    report.expect_bytes("its data", &host[to..to + B], &image[9 * B..10 * B]);
}

fn largest() -> Record {
    let geometry = Geometry {
        cylinders: 4096,
        sectors_a_track: 255,
        bytes_a_sector: B as u16,
        volumes: [
            Volume {
                start_head: 0,
                heads: 64,
            },
            Volume::default(),
        ],
        order: Order::ByHead,
    };
    Record::from_parts(true, geometry, 0)
}

fn travel(events: &[u8]) -> i32 {
    i32::from_be_bytes([events[4], events[5], events[6], events[7]])
}

fn image_at_the_limits(report: &mut Report, image: &mut [u8]) {
    let mut host = vec![0; DATA + 2 * B];
    let mut events = [0; 512];
    let mut records = [largest(), Record::UNINITIALIZED];
    let last_at = LAST * B;
    let mark_at = SECTORS * B + LAST;
    let pattern: Vec<u8> = (0..B).map(|k| (k * 3 + k / 256 + 1) as u8).collect();
    let data = DATA..DATA + B;
    let number = LAST as u32;
    image[last_at..last_at + B].copy_from_slice(&pattern);

    put_block(&mut host, 0, &transfer(0x81, 0, number, 1, DATA as u32));
    let got = run(&mut host, image, &mut [], &mut events, &mut records, 0, 1);
    report.expect("read of the last sector", got, came_to(None, 1, 1));
    report.expect("its travel", travel(&events), 4095);
    report.expect_bytes("its data", &host[data.clone()], &pattern);

    image[mark_at] = 0x80;
    host[data.clone()].fill(0);
    put_block(&mut host, 0, &transfer(0x81, 0, number, 1, DATA as u32));
    let got = run(&mut host, image, &mut [], &mut events, &mut records, 0, 1);
    report.expect(
        "its mark",
        got,
        came_to(Some(BlockAnswer::Unreadable), 1, 0),
    );
    report.expect_bytes("nothing moved", &host[data.clone()], &[0; B]);
    put_block(&mut host, 0, &transfer(0x81, DE, number, 1, DATA as u32));
    let got = run(&mut host, image, &mut [], &mut events, &mut records, 0, 1);
    report.expect("with DE", got, came_to(None, 1, 1));
    report.expect_bytes("moved", &host[data.clone()], &pattern);

    let other: Vec<u8> = pattern.iter().map(|byte| !byte).collect();
    host[data.clone()].copy_from_slice(&other);
    put_block(&mut host, 0, &transfer(0x82, 0, number, 1, DATA as u32));
    let got = run(&mut host, image, &mut [], &mut events, &mut records, 0, 1);
    report.expect("write of the last sector", got, came_to(None, 1, 1));
    report.expect_bytes("what it wrote", &image[last_at..last_at + B], &other);
    report.expect_bytes("the sector before", &image[last_at - B..last_at], &[0; B]);
    report.expect_bytes("the first mark", &image[SECTORS * B..SECTORS * B + 1], &[0]);
    report.expect("the last mark", image[mark_at], 0x80);

    put_block(&mut host, 0, &transfer(0x81, DE, number, 2, DATA as u32));
    let got = run(&mut host, image, &mut [], &mut events, &mut records, 0, 1);
    let outside = came_to(Some(BlockAnswer::SectorOutside), 1, 0);
    report.expect("a sector more", got, outside);

    // The last track: cylinder 4,095, head 63, with 255 sectors.
    put_block(
        &mut host,
        0,
        &transfer(0x8c, 0, 0x0fff_3f00, 0, DATA as u32),
    );
    let got = run(&mut host, image, &mut [], &mut events, &mut records, 0, 1);
    report.expect("format of the last track", got, came_to(None, 1, 255));
    let track = (SECTORS - 255) * B;
    report.expect_bytes("its first sector", &image[track..track + B], &other);
    report.expect_bytes("its last sector", &image[last_at..last_at + B], &other);
    report.expect_bytes("before it", &image[track - B..track], &[0; B]);

    let seen = inspect(image, &[], &records, 0, LAST as u64);
    report.expect_bytes("inspection of the last sector", seen, &other);
    let seen = inspect(image, &[], &records, 0, SECTORS as u64).len();
    report.expect("inspection of one more", seen, 0);

    spare_at_the_limits(report, image, &other);

    put_block(&mut host, 0, &transfer(0x81, DE, number, 1, DATA as u32));
    let short = &mut image[..IMAGE_LEN - 1];
    let got = run(&mut host, short, &mut [], &mut events, &mut records, 0, 1);
    let answer = came_to(Some(BlockAnswer::ImageShort), 1, 0);
    report.expect("an image one byte short", got, answer);
}

/// The first track is bad and the last one serves it. The last track has the same bytes in each of its
/// sectors, of which the last is marked.
fn spare_at_the_limits(report: &mut Report, image: &mut [u8], filled: &[u8]) {
    let mut host = vec![0x33; DATA + 2 * B];
    let mut events = [0; 512];
    let mut records = [largest(), Record::UNINITIALIZED];
    let mut go = |host: &mut [u8], image: &mut [u8], words: &Words, records: &mut [Record; 2]| {
        put_block(host, 0, words);
        let outcome = run(host, image, &mut [], &mut events, records, 0, 1);
        (outcome, travel(&events))
    };
    // cylinder and head of the bad track, then cylinder of the spare, then its head
    let remap = |count, head: u32| Words {
        options: 0,
        ..transfer(0x85, 0, 0, count, head << 24)
    };
    let outside = (came_to(Some(BlockAnswer::SectorOutside), 1, 0), 0);
    for words in [remap(4096, 63), remap(4095, 64)] {
        let got = go(&mut host, image, &words, &mut records);
        report.expect("a spare past the last track", got, outside);
    }
    let got = go(&mut host, image, &remap(4095, 63), &mut records);
    report.expect("the last track as a spare", got, (came_to(None, 1, 0), 0));
    let pair = Pair {
        bad: Track::default(),
        spare: Track {
            cylinder: 4095,
            head: 63,
        },
    };
    report.expect(
        "its record",
        Some(records[0]),
        largest().with_pairs(&[pair]),
    );

    let read = transfer(0x81, 0, 253, 2, DATA as u32);
    let got = go(&mut host, image, &read, &mut records);
    let stopped = came_to(Some(BlockAnswer::Unreadable), 1, 1);
    report.expect("a read of the first track", got, (stopped, 4095));
    report.expect_bytes("what it moved", &host[DATA..DATA + B], filled);
    report.expect_bytes("what it did not", &host[DATA + B..], &[0x33; B]);
    let write = transfer(0x82, 0, 0, 1, (DATA + B) as u32);
    let got = go(&mut host, image, &write, &mut records);
    report.expect("a write to it", got, (came_to(None, 1, 1), 0));
    let track = (SECTORS - 255) * B;
    report.expect_bytes("where it went", &image[track..track + B], &[0x33; B]);
    report.expect_bytes("where it did not", &image[..B], &[0; B]);
}
