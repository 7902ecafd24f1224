//! Nothing panics, and what must stay stays, whatever is handed in. The numbers are drawn from a
//! fixed seed, many of them near the small drive's, so that the checks are passed as well.

mod common;
use common::*;
use model::*;

struct Draw(u64);

impl Draw {
    fn next(&mut self) -> u64 {
        self.0 ^= self.0 << 13;
        self.0 ^= self.0 >> 7;
        self.0 ^= self.0 << 17;
        self.0
    }
    fn below(&mut self, n: u64) -> u64 {
        (self.next() >> 11) % n
    }
    fn one_in(&mut self, n: u64) -> bool {
        self.below(n) == 0
    }
    fn bytes(&mut self, n: usize) -> Vec<u8> {
        (0..n).map(|_| self.below(256) as u8).collect()
    }
    fn address(&mut self, host: usize) -> u32 {
        match self.below(12) {
            0 => self.next() as u32,
            1 => u32::MAX - self.below(80) as u32,
            2 => self.below(host as u64 + 1) as u32,
            _ => (self.below(host as u64 + 1) & !1) as u32,
        }
    }
}

fn any_holder(draw: &mut Draw) -> Holder {
    match draw.below(8) {
        0 => Holder::First,
        1 => Holder::Second,
        _ => Holder::Nobody,
    }
}

fn any_order(draw: &mut Draw) -> Order {
    Order::BOTH[draw.below(2) as usize]
}

fn record(draw: &mut Draw) -> Record {
    if draw.one_in(6) {
        // Any numbers at all.
        let b = draw.bytes(12);
        let word = |k: usize| b[k] as u16 * 256 + b[k + 1] as u16;
        return Record {
            initialized: !draw.one_in(8),
            geometry: Geometry {
                cylinders: word(0),
                sectors_a_track: word(2),
                bytes_a_sector: word(4),
                volumes: [
                    Volume {
                        start_head: b[6],
                        heads: b[7],
                    },
                    Volume {
                        start_head: b[8],
                        heads: b[9],
                    },
                ],
                order: any_order(draw),
            },
            cylinder: word(10),
            table: any_table(draw, 0),
            holder: any_holder(draw),
        };
    }
    let mut record = Record {
        initialized: !draw.one_in(8),
        cylinder: draw.below(11) as u16,
        holder: any_holder(draw),
        ..ready()
    };
    record.geometry.order = any_order(draw);
    if draw.one_in(6) {
        record.geometry.volumes[1].heads = 0;
    }
    match draw.below(16) {
        0 => record.table = any_table(draw, 1),
        1 => {
            record.geometry.cylinders = 40;
            record.table = Table::saying(32, far_pair);
        }
        2..=8 => record.table = few_pairs(draw),
        _ => {}
    }
    record
}

/// Tracks anywhere, or mostly near the small drive, in all of the table's room.
fn any_table(draw: &mut Draw, near: u64) -> Table {
    let bytes = draw.bytes(256);
    let count = draw.below(40) as u16;
    let track = |k: usize| Track {
        cylinder: (bytes[k] as u64 % (11 + 4000 * (1 - near))) as u16,
        head: bytes[k + 1] % if near == 1 { 4 } else { 255 },
        last: (bytes[k + 2] == 0) as u8,
    };
    Table::standing(count, |k| Pair {
        bad: track(8 * k),
        spare: track(8 * k + 4),
    })
}

/// Pairs of a longer drive, all of them behind the cylinders that the blocks name.
fn far_pair(k: usize) -> Pair {
    let track = |k: usize| Track::new(18 + (k / 3) as u16, (k % 3) as u8);
    Pair {
        bad: track(2 * k),
        spare: track(2 * k + 1),
    }
}

/// A few pairs that the small drive can have.
fn few_pairs(draw: &mut Draw) -> Table {
    let mut tracks: Vec<Track> = (0..30).map(|k| Track::new(k / 3, (k % 3) as u8)).collect();
    for k in 0..30 {
        tracks.swap(k, draw.below(30) as usize);
    }
    Table::saying(draw.below(16) as u16, |k| Pair {
        bad: tracks[2 * k],
        spare: tracks[2 * k + 1],
    })
}

fn any_world(draw: &mut Draw) -> World {
    let host_bytes = match draw.below(8) {
        0 => draw.below(64) as usize,
        1 => 0,
        _ => 200 + draw.below(800) as usize,
    };
    let mut host = draw.bytes(host_bytes);
    let mut at = 0;
    while at + 28 <= host.len() && !draw.one_in(8) {
        let mut b = Block {
            command: COMMANDS[draw.below(10) as usize],
            options: draw.below(256) as u8,
            cylinder: if draw.one_in(2) {
                0
            } else {
                draw.below(11) as u16
            },
            head: if draw.one_in(2) {
                0
            } else {
                draw.below(4) as u8
            },
            sector: draw.below(6) as u8,
            sector_count: draw.below(5) as u16,
            buffer_address: draw.address(host.len()),
            linked_block_address: 32 * draw.below(8) as u32,
            element_count: 1 + draw.below(3) as u8,
            ..block(0, 0)
        };
        if b.logical() {
            b.cylinder = 0;
            b.head = 0;
            b.sector = draw.below(if b.volume() == 0 { 82 } else { 41 }) as u8;
        }
        if b.command == 0x85 && !draw.one_in(4) {
            b.buffer_address = draw.below(4) as u32 * 0x100_0000;
        }
        if draw.one_in(20) {
            b.command = draw.below(256) as u8;
        }
        if draw.one_in(10) {
            b.linked_block_address = draw.address(host.len());
        }
        let list = b.buffer_address as usize;
        let aims_at_list = b.command >= 0xa1 && list + 24 <= host.len();
        if aims_at_list {
            let mut left = b.sector_count as u64 * 64;
            for k in 0..b.element_count as usize {
                let last = k + 1 == b.element_count as usize;
                let count = if last {
                    left
                } else {
                    draw.below(left + 1) & !1
                };
                left -= count;
                let address = draw.address(host.len());
                put(&mut host, list + 8 * k, &(count as u16).to_be_bytes());
                put(&mut host, list + 8 * k + 2, &address.to_be_bytes());
            }
        }
        if b.command == 0x87 && list + 18 <= host.len() && !draw.one_in(4) {
            put(&mut host, list, &SMALL_UIB);
        }
        put(&mut host, at, &b.bytes());
        at += 32;
    }
    let mut images = [image(), image()];
    for image in &mut images {
        if draw.one_in(10) {
            image.truncate(draw.below(7801) as usize);
        }
        if draw.one_in(10) {
            image.resize(8000, 9);
        }
        for at in 7680..image.len().min(7800) {
            if draw.one_in(20) {
                image[at] = draw.below(256) as u8;
            }
        }
    }
    let events = if draw.one_in(20) {
        draw.below(512)
    } else {
        512 + draw.below(40)
    };
    World {
        controller: Controller::BOTH[draw.below(2) as usize],
        host,
        images,
        records: [record(draw), record(draw)],
        events: draw.bytes(events as usize),
    }
}

/// What holds of any run, whatever its answer.
fn holds(before: &World, after: &World, outcome: &Outcome, trace: &Trace, allowance: u32) {
    assert_eq!(before.host.len(), after.host.len());
    assert_eq!(before.events.len(), after.events.len());
    assert_eq!(outcome.blocks as usize, trace.blocks.len());
    let sum: u32 = trace.blocks.iter().map(|visit| visit.sectors as u32).sum();
    assert_eq!(outcome.sectors, sum);
    assert_eq!(outcome.answer == 4, outcome.failed != 0);
    if matches!(outcome.answer, 1 | 2 | 3) {
        assert_eq!(before, after);
        assert_eq!(outcome.blocks, 0);
    } else {
        assert!(1 <= outcome.blocks && outcome.blocks <= allowance);
        let written = 8 * outcome.blocks as usize;
        assert_eq!(before.events[written..], after.events[written..]);
    }
    for unit in 0..2 {
        let length = before.images[unit].len();
        assert_eq!(length, after.images[unit].len());
        // "No command changes a mark", and bytes after the marks are never touched.
        let free = Record {
            holder: Holder::Nobody,
            ..before.records[unit]
        };
        if free == ready() && length >= 7680 {
            assert_eq!(before.images[unit][7680..], after.images[unit][7680..]);
        }
    }
    for visit in &trace.blocks {
        let known =
            visit.answer == 0 || CHECKS.contains(&visit.answer) || STOPS.contains(&visit.answer);
        assert!(known);
        held(visit);
    }
}

/// Who is refused by 24, and who holds the drive afterwards.
fn held(visit: &Visit) {
    let other = match visit.controller {
        Controller::First => Holder::Second,
        Controller::Second => Holder::First,
    };
    let asked = COMMANDS.contains(&visit.command) && visit.command != 0x86;
    assert_eq!(visit.answer == 24, asked && visit.holder == other);
    let after = if visit.answer != 0 || visit.command == 0x86 {
        visit.holder
    } else if visit.options & RV != 0 {
        visit.controller.as_holder()
    } else {
        Holder::Nobody
    };
    assert_eq!(visit.held_after, after);
}

/// A run's footprint says enough: no byte outside what is written is stored, and no byte outside
/// what is read counts. So with all of those turned over the run does the same.
fn local(before: &World, after: &World, outcome: &Outcome, trace: &Trace, first: u32, most: u32) {
    let footprint = trace.footprint(&before.host);
    let mut turned = before.clone();
    for (byte, read) in turned.host.iter_mut().zip(&footprint.read) {
        *byte ^= if *read { 0x00 } else { 0xff };
    }
    let mut left = turned.clone();
    let (again, trace) = run_traced(&mut left, first, most);
    assert_eq!(again, *outcome);
    assert_eq!(trace.footprint(&before.host), footprint);
    for (at, written) in footprint.written.iter().enumerate() {
        if *written {
            assert_eq!(left.host[at], after.host[at]);
        } else {
            assert_eq!(left.host[at], turned.host[at]);
            assert_eq!(after.host[at], before.host[at]);
        }
    }
    left.host = after.host.clone();
    assert_eq!(left, *after);
}

fn traps(visit: &Visit) -> [bool; 12] {
    [
        visit.landing.on_spare,
        visit.landing.in_part,
        visit.landing.spare_named,
        visit.landing.heads_elsewhere,
        visit.crossed_cylinder,
        visit.on_volume_1,
        visit.stored_over_own_status,
        visit.took_own_status,
        visit.overwritten_with_other_bytes,
        visit.holder == Holder::Nobody && visit.held_after != Holder::Nobody,
        visit.holder != Holder::Nobody && visit.held_after == Holder::Nobody,
        visit.held_and_not_ready,
    ]
}

#[test]
fn any_world_at_all() {
    let mut draw = Draw(0x2545_f491_4f6c_dd1d);
    let mut answers = [0u32; 7];
    let mut failed = [0u32; 256];
    let mut met = [0u32; 12];
    for _ in 0..8_000 {
        let mut w = any_world(&mut draw);
        let first = if draw.one_in(12) {
            draw.address(w.host.len())
        } else {
            32 * draw.below(4) as u32
        };
        let allowance = if draw.one_in(20) {
            draw.below(70) as u32
        } else {
            1 + draw.below(8) as u32
        };
        let before = w.clone();
        let (outcome, trace) = run_traced(&mut w, first, allowance);
        holds(&before, &w, &outcome, &trace, allowance);
        local(&before, &w, &outcome, &trace, first, allowance);
        for visit in &trace.blocks {
            for (k, trap) in traps(visit).iter().enumerate() {
                met[k] += *trap as u32;
            }
        }
        answers[outcome.answer as usize] += 1;
        failed[outcome.failed as usize] += 1;
        let mut again = before.clone();
        assert_eq!(run(&mut again, first, allowance), outcome);
        assert_eq!(again, w);
    }
    assert!(answers.iter().all(|count| *count > 0), "{:?}", answers);
    assert!(
        CHECKS
            .iter()
            .chain(&STOPS)
            .all(|answer| failed[*answer as usize] > 0),
        "{:?}",
        failed
    );
    assert!(met.iter().all(|count| *count > 0), "{:?}", met);
}

#[test]
fn any_geometry_at_all() {
    let mut draw = Draw(77);
    for _ in 0..20_000 {
        let r = record(&mut draw);
        let g = r.geometry;
        let n = draw.next();
        for volume in [0, 1, 2, 255] {
            for n in [n, n % 1000, 0, u64::MAX] {
                if let Some(address) = g.address(volume, n) {
                    assert_eq!(g.logical(volume, address), Some(n));
                    assert!(g.place(volume, address).unwrap() < g.drive_sectors());
                }
            }
            let far = Address {
                cylinder: u64::MAX,
                head: u64::MAX,
                sector: u64::MAX,
            };
            assert_eq!(g.place(volume, far), None);
            assert_eq!(g.drive_place(far), None);
        }
        assert!(g.need() >= g.marks_at());
        let part = inspect(&[r, r], [n, u64::MAX], 1, n % 200);
        assert!(part.bytes == 0 || r.counts_as_initialized());
    }
}

#[test]
fn any_session_at_all() {
    let mut draw = Draw(5);
    for _ in 0..5_000 {
        let mut input = Vec::new();
        for _ in 0..draw.below(6) {
            let tag = 1 + draw.below(4) as u8;
            let length = if tag == 4 {
                5
            } else {
                draw.below(120) as usize
            };
            input.push(tag);
            input.extend_from_slice(&(length as u16).to_be_bytes());
            input.extend_from_slice(&draw.bytes(length));
        }
        let cut = draw.below(input.len() as u64 + 1) as usize;
        session(&input);
        session(&input[..cut]);
        let noise = draw.bytes(cut);
        session(&noise);
    }
}
