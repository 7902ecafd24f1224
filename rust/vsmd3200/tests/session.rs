//! The paper's session example through the wrapper, and the typed views of records and answers.

mod common;

use common::{BY_CYLINDER, SMALL, UIB};
use vsmd3200::{
    inspect, part_of, run, run_as, BlockAnswer, Controller, Event, Geometry, Order, Outcome, Pair,
    Part, Record, RunAnswer, Track, EVENTS_LEN_LEAST, PAIRS_MOST, RECORD_LEN,
};

fn image() -> Vec<u8> {
    let mut image: Vec<u8> = (0..7680usize)
        .map(|k| (k * 7 + k / 64 * 13) as u8)
        .collect();
    image.resize(7800, 0);
    image
}

/// Initialize at 0 linked to a read of 2 from logical 7 at 28, the UIB at 56, the data at 100.
fn host() -> Vec<u8> {
    let mut host = vec![0; 300];
    host[0] = 0x87;
    host[1] = 0x20;
    host[13] = 56;
    host[23] = 28;
    host[28] = 0x81;
    host[29] = 0x12;
    host[35] = 7;
    host[37] = 2;
    host[41] = 100;
    host[44] = 3;
    host[45] = 0x40;
    host[47] = 0x41;
    host[56..74].copy_from_slice(&UIB);
    host
}

#[test]
fn initialize_linked_to_the_read() {
    let (mut host, mut image, mut events) = (host(), image(), [0xdd; EVENTS_LEN_LEAST]);
    let mut records = [Record::UNINITIALIZED; 2];
    let outcome = run(
        &mut host,
        &mut image,
        &mut [],
        &mut events,
        &mut records,
        0,
        64,
    );
    let done = Outcome {
        answer: RunAnswer::Done,
        failed: None,
        blocks: 2,
        sectors: 2,
    };
    assert_eq!(outcome, done);
    assert_eq!(host[100..164], image[448..512]);
    assert_eq!(host[164..228], image[768..832]);
    assert_eq!(events[..8], [0x80, 0, 0, 0, 0, 0, 0, 0]);
    assert_eq!(events[8..16], [0x80, 0, 3, 0x40, 0, 0, 0, 1]);
    assert_eq!(events[16..], [0xdd; EVENTS_LEN_LEAST][16..]);
    let quiet = Event {
        status: 0x80,
        error: 0,
        level: 0,
        vector: 0,
        travel: 0,
    };
    let told = Event {
        level: 3,
        vector: 0x40,
        travel: 1,
        ..quiet
    };
    assert_eq!(outcome.events(&events).collect::<Vec<_>>(), [quiet, told]);
    // Of a buffer that is cut the entries that are whole.
    assert_eq!(outcome.events(&events[..15]).collect::<Vec<_>>(), [quiet]);
    assert_eq!(outcome.events(&[]).len(), 0);
    assert_eq!(records[0].parts(), (true, SMALL, 1));
    assert_eq!(records[0], Record::from_parts(true, SMALL, 1));
    assert_eq!(records[1], Record::UNINITIALIZED);
}

#[test]
fn a_failed_block_says_why() {
    let (mut host, mut image, mut events) = (host(), image(), [0; EVENTS_LEN_LEAST]);
    let mut records = [Record::from_bytes([0xff; RECORD_LEN]); 2];
    let outcome = run(
        &mut host,
        &mut image,
        &mut [],
        &mut events,
        &mut records,
        28,
        1,
    );
    assert_eq!(outcome.answer, RunAnswer::BlockFailed);
    assert_eq!(outcome.failed, Some(BlockAnswer::NotInitialized));
    assert_eq!(records, [Record::from_bytes([0xff; RECORD_LEN]); 2]);
    // The first of the two sectors is unreadable.
    image[7680 + 7] = 1;
    records[0] = Record::from_parts(true, SMALL, 4);
    let outcome = run(
        &mut host,
        &mut image,
        &mut [],
        &mut events,
        &mut records,
        28,
        1,
    );
    assert_eq!(outcome.failed, Some(BlockAnswer::Unreadable));
    assert_eq!((outcome.blocks, outcome.sectors), (1, 0));
    assert_eq!(events[..8], [0x82, 0x13, 3, 0x41, 0xff, 0xff, 0xff, 0xfc]);
    assert_eq!(records[0].cylinder(), 0);
}

#[test]
fn runs_that_are_refused() {
    let mut records = [Record::default(); 2];
    let mut none: [u8; 0] = [];
    let mut answer = |events: &mut [u8], allowance| {
        run(
            &mut none,
            &mut [],
            &mut [],
            events,
            &mut records,
            0,
            allowance,
        )
        .answer
    };
    assert_eq!(answer(&mut [0; 511], 0), RunAnswer::EventsShort);
    assert_eq!(answer(&mut [0; 512], 0), RunAnswer::AllowanceBad);
    assert_eq!(answer(&mut [0; 512], 65), RunAnswer::AllowanceBad);
    assert_eq!(answer(&mut [0; 512], 64), RunAnswer::FirstBad);
}

#[test]
fn sectors_are_lent_from_the_right_image() {
    let (image0, image1) = (image(), vec![0x55; 7800]);
    let ready = Record::from_parts(true, SMALL, 0);
    let both = [ready, ready];
    let sector = inspect(&image0, &image1, &both, 0, 12);
    assert_eq!(sector, &image0[768..832]);
    let sector = inspect(&image0, &image1, &both, 1, 12);
    assert_eq!(sector.as_ptr(), image1[768..].as_ptr());
    assert_eq!(sector.len(), 64);
    for (unit, place) in [(0, 120), (1, u64::MAX), (2, 0), (u32::MAX, 0)] {
        let sector = inspect(&image0, &image1, &both, unit, place);
        assert_eq!((sector.as_ptr(), sector.len()), (image0.as_ptr(), 0));
    }
    let nothing = Part {
        image: 0,
        at: 0,
        bytes: 0,
    };
    assert_eq!(part_of(&both, [7800, 7799], 1, 12), nothing);
    assert_eq!(
        part_of(&[Record::UNINITIALIZED, ready], [7800; 2], 0, 12),
        nothing
    );
    // A sector is lent for as long as the image is, and not longer than the records are kept.
    let kept = {
        let records = both;
        inspect(&image0, &image1, &records, 0, 0)
    };
    assert_eq!(kept, &image0[..64]);
}

/// The first 20 bytes of a record without pairs; those after them are 0 here.
const OPEN: [u8; 20] = [
    0x02, 0x01, 0x01, 0x14, 0x02, 0x84, 0x00, 0x40, 0x02, 0x00, 0x00, 0x0a, 0x3c, 0x00, 0x01, 0x02,
    0x00, 0x00, 0x00, 0x00,
];

fn bytes(open: &[u8]) -> [u8; RECORD_LEN] {
    let mut bytes = [0; RECORD_LEN];
    bytes[..open.len()].copy_from_slice(open);
    bytes
}

#[test]
fn records_are_their_bytes() {
    let record = Record::from_bytes(bytes(&OPEN));
    let (initialized, geometry, cylinder) = record.parts();
    assert!(initialized);
    assert_eq!(
        (
            geometry.cylinders,
            geometry.sectors_a_track,
            geometry.bytes_a_sector
        ),
        (644, 64, 512)
    );
    assert_eq!(
        (
            geometry.volumes[0].heads,
            geometry.volumes[1].start_head,
            cylinder
        ),
        (10, 60, 258)
    );
    assert_eq!(
        Record::from_parts(true, geometry, cylinder).as_bytes(),
        &bytes(&OPEN)
    );
    // version, flag, length, order, and a holder that is none of the three
    for at in [0, 1, 2, 3, 16, 17] {
        let mut other = bytes(&OPEN);
        other[at] ^= 0x40;
        assert!(!Record::from_bytes(other).initialized());
    }
    assert!(!Record::from_parts(false, geometry, 0).initialized());
}

fn track(cylinder: u16, head: u8) -> Track {
    Track { cylinder, head }
}

fn pair(bad: (u16, u8), spare: (u16, u8)) -> Pair {
    Pair {
        bad: track(bad.0, bad.1),
        spare: track(spare.0, spare.1),
    }
}

#[test]
fn pairs_are_their_bytes() {
    let none = Record::from_bytes(bytes(&OPEN));
    assert_eq!((none.pairs_said(), none.pairs().len()), (0, 0));
    assert_eq!(none.pair(0), None);
    let two = [pair((0x0102, 3), (0x0405, 6)), pair((7, 8), (0x0f00, 63))];
    let record = none.with_pairs(&two).unwrap();
    let mut expected = bytes(&OPEN);
    expected[19] = 2;
    let tracks = [
        0x01, 0x02, 3, 0, 0x04, 0x05, 6, 0, 0x00, 7, 8, 0, 0x0f, 0x00, 63, 0,
    ];
    expected[20..36].copy_from_slice(&tracks);
    assert_eq!(record.as_bytes(), &expected);
    assert_eq!(record.pairs().collect::<Vec<_>>(), two);
    assert_eq!(record.pair(1), Some(two[1]));
    assert_eq!(record.pair(2), None);
    // The bytes of the second pair stay, past the one that counts.
    let one = record.with_pairs(&two[..1]).unwrap();
    assert_eq!((one.pairs().len(), one.pair(1)), (1, None));
    assert_eq!(one.as_bytes()[20..], expected[20..]);
    let most = [pair((0, 0), (1, 1)); PAIRS_MOST + 1];
    let full = none.with_pairs(&most[1..]).unwrap();
    assert_eq!(
        (full.pairs_said(), full.pair(31)),
        (32, Some(pair((0, 0), (1, 1))))
    );
    assert_eq!(none.with_pairs(&most), None);
    let mut many = *full.as_bytes();
    many[18] = 1;
    let many = Record::from_bytes(many);
    assert_eq!((many.pairs_said(), many.pairs().len()), (256 + 32, 32));
}

#[test]
fn a_record_of_version_1_is_upgraded() {
    let mut old: [u8; 16] = OPEN[..16].try_into().unwrap();
    old[..4].copy_from_slice(&[0x01, 0x01, 0x00, 0x10]);
    assert_eq!(Record::upgrade(&old), Record::from_bytes(bytes(&OPEN)));
    for at in 0..4 {
        let mut other = old;
        other[at] ^= 0x03;
        assert_eq!(Record::upgrade(&other), Record::UNINITIALIZED);
    }
    assert_eq!(Record::upgrade(&[0; 16]), Record::UNINITIALIZED);
    assert_eq!(Record::upgrade(&[0xff; 16]), Record::UNINITIALIZED);
}

/// One block at 0 on the small drive, run.
fn go(block: &[u8], image: &mut [u8], records: &mut [Record; 2]) -> (Outcome, Vec<u8>) {
    let mut host = vec![0x33; 300];
    host[..28].fill(0);
    host[..block.len()].copy_from_slice(block);
    let mut events = [0; EVENTS_LEN_LEAST];
    let outcome = run(&mut host, image, &mut [], &mut events, records, 0, 1);
    (outcome, host)
}

/// The same by a controller.
fn go_as(
    controller: Controller,
    block: &[u8],
    image: &mut [u8],
    records: &mut [Record; 2],
) -> (Outcome, Vec<u8>) {
    let mut host = vec![0x33; 300];
    host[..28].fill(0);
    host[..block.len()].copy_from_slice(block);
    let mut events = [0; EVENTS_LEN_LEAST];
    let outcome = run_as(
        &mut host,
        image,
        &mut [],
        &mut events,
        records,
        0,
        1,
        controller,
    );
    (outcome, host)
}

/// The small drive with a number where its holder stands.
fn held(number: u8) -> Record {
    let mut bytes = *Record::from_parts(true, SMALL, 4).as_bytes();
    bytes[17] = number;
    Record::from_bytes(bytes)
}

#[test]
fn a_drive_goes_from_one_controller_to_the_other() {
    let (first, second) = (Controller::First, Controller::Second);
    let (mut image, before) = (image(), image());
    let mut records = [held(0), Record::UNINITIALIZED];
    // RV and XL: one sector to logical 0, and the same read back
    let write = [0x82, 0x18, 0, 0, 0, 0, 0, 0, 0, 1, 0, 0, 0, 100];
    let read = [0x81, 0x10, 0, 0, 0, 0, 0, 0, 0, 1, 0, 0, 0, 100];
    let (outcome, _) = go_as(second, &write, &mut image, &mut records);
    assert_eq!((outcome.answer, outcome.sectors), (RunAnswer::Done, 1));
    let mut taken = *Record::from_parts(true, SMALL, 0).as_bytes();
    taken[17] = 0x02;
    assert_eq!(records[0].as_bytes(), &taken);
    assert_eq!(records[0].holder(), Some(second));
    assert!(records[0].initialized());

    // The first is refused, by either of its names, and nothing is changed but word 1.
    for (outcome, host) in [
        go_as(first, &read, &mut image, &mut records),
        go(&read, &mut image, &mut records),
    ] {
        assert_eq!(outcome.failed, Some(BlockAnswer::DriveHeld));
        assert_eq!(outcome.failed.map(BlockAnswer::before_transfer), Some(true));
        assert_eq!(host[2..4], [0x82, 0x2e]);
        assert_eq!(host[100..164], [0x33; 64]);
        assert_eq!(records[0].as_bytes(), &taken);
    }
    // A handshake is not, and leaves the drive to its holder.
    let (outcome, _) = go(&[0x86, 0x08], &mut image, &mut records);
    assert_eq!(outcome.answer, RunAnswer::Done);
    assert_eq!(records[0].holder(), Some(second));

    // The second gives it up, and the first may read.
    let (outcome, host) = go_as(second, &read, &mut image, &mut records);
    assert_eq!(
        (outcome.answer, records[0].holder()),
        (RunAnswer::Done, None)
    );
    assert_eq!(host[100..164], [0x33; 64]);
    assert_eq!(image[..64], [0x33; 64]);
    assert_eq!(image[64..], before[64..]);
    let (outcome, _) = go(&write, &mut image, &mut records);
    assert_eq!(outcome.answer, RunAnswer::Done);
    assert_eq!(records[0].holder(), Some(first));
}

#[test]
fn who_holds_a_drive_by_its_record() {
    assert_eq!(held(0).holder(), None);
    assert_eq!(held(1).holder(), Some(Controller::First));
    assert_eq!(held(2).holder(), Some(Controller::Second));
    for number in 0..=255 {
        assert_eq!(held(number).initialized(), number <= 2);
        assert!(number <= 2 || held(number).holder().is_none());
    }
    // The flag says nothing of it; version and length say whether it is believed.
    for (at, byte, believed) in [
        (1, 0x00, true),
        (0, 0x01, false),
        (2, 0, false),
        (3, 0, false),
    ] {
        let mut other = *held(2).as_bytes();
        other[at] = byte;
        let other = Record::from_bytes(other);
        assert!(!other.initialized());
        assert_eq!(other.holder().is_some(), believed);
        // as the library sees it
        let mut records = [other, Record::UNINITIALIZED];
        let (outcome, _) = go(&[0x89], &mut [], &mut records);
        let answer = if believed {
            BlockAnswer::DriveHeld
        } else {
            BlockAnswer::NotInitialized
        };
        assert_eq!(outcome.failed, Some(answer));
        assert_eq!(records[0], other);
    }
}

#[test]
fn a_drive_is_released_for_a_machine_that_is_gone() {
    for number in 0..=255 {
        let mut record = held(number);
        assert_eq!(record.release(), matches!(number, 1 | 2));
        let left = if matches!(number, 1 | 2) { 0 } else { number };
        assert_eq!(record, held(left));
        assert!(!record.release());
    }
    // A record of another layout is left alone, and one that is not initialized is not.
    let mut version_1 = *held(1).as_bytes();
    version_1[..4].copy_from_slice(&[0x01, 0x01, 0x00, 0x10]);
    let mut record = Record::from_bytes(version_1);
    assert!(!record.release());
    assert_eq!(record.as_bytes(), &version_1);
    let mut not_initialized = *held(1).as_bytes();
    not_initialized[1] = 0x00;
    let mut record = Record::from_bytes(not_initialized);
    assert!(record.release());
    assert_eq!(record.as_bytes()[17], 0x00);

    let mut records = [held(2), Record::UNINITIALIZED];
    let (outcome, _) = go(&[0x89], &mut [], &mut records);
    assert_eq!(outcome.failed, Some(BlockAnswer::DriveHeld));
    assert!(records[0].release());
    let (outcome, _) = go(&[0x89], &mut [], &mut records);
    assert_eq!(outcome.answer, RunAnswer::Done);
}

/// Cylinder 1, head 0 is bad; cylinder 9, head 2 serves it. A write of logical 8 goes there.
#[test]
fn a_bad_track_and_its_spare() {
    let (mut image, before) = (image(), image());
    let mut records = [Record::from_parts(true, SMALL, 4), Record::UNINITIALIZED];
    let remap = [0x85, 0, 0, 0, 0, 1, 0, 0xaa, 0, 9, 2, 0xbb];
    let (outcome, _) = go(&remap, &mut image, &mut records);
    assert_eq!((outcome.answer, outcome.sectors), (RunAnswer::Done, 0));
    let served = pair((1, 0), (9, 2));
    let expected = Record::from_parts(true, SMALL, 4).with_pairs(&[served]);
    assert_eq!(Some(records[0]), expected);
    assert_eq!(image, before);

    let write = [0x82, 0x10, 0, 0, 0, 0, 0, 8, 0, 1, 0, 0, 0, 100];
    let (outcome, _) = go(&write, &mut image, &mut records);
    assert_eq!((outcome.answer, outcome.sectors), (RunAnswer::Done, 1));
    assert_eq!(records[0].cylinder(), 9);
    let spare = inspect(&image, &[], &records, 0, 116);
    assert_eq!(spare, &[0x33; 64]);
    let bad = inspect(&image, &[], &records, 0, 12);
    assert_eq!(bad, &before[768..832]);

    let (outcome, _) = go(&remap, &mut image, &mut records);
    assert_eq!(outcome.failed, Some(BlockAnswer::TracksTaken));
    assert_eq!(outcome.failed.map(BlockAnswer::before_transfer), Some(true));
    let most = [served; PAIRS_MOST];
    // One track twice in a table: the unit counts as not initialized.
    let mut twice = [records[0].with_pairs(&most).unwrap(), records[1]];
    let (outcome, _) = go(&write, &mut image, &mut twice);
    assert_eq!(outcome.failed, Some(BlockAnswer::NotInitialized));
    assert_eq!(inspect(&image, &[], &twice, 0, 12), &[] as &[u8]);
}

/// 22 cylinders have 66 tracks: two are left when 32 pairs stand.
#[test]
fn a_table_that_is_full() {
    let long = Geometry {
        cylinders: 22,
        ..SMALL
    };
    let pairs: Vec<Pair> = (0..32u8)
        .map(|k| {
            pair(
                (u16::from(k) / 3, k % 3),
                (u16::from(k + 32) / 3, (k + 32) % 3),
            )
        })
        .collect();
    let record = Record::from_parts(true, long, 0)
        .with_pairs(&pairs)
        .unwrap();
    let mut records = [record, Record::UNINITIALIZED];
    let remap = [0x85, 0, 0, 0, 0, 21, 1, 0, 0, 21, 2];
    let (outcome, _) = go(&remap, &mut [], &mut records);
    assert_eq!(outcome.failed, Some(BlockAnswer::TableFull));
    assert_eq!(records[0], record);
}

/// The small drive with a number where its order stands.
fn ordered(number: u8) -> Record {
    let mut bytes = *Record::from_parts(true, SMALL, 4).as_bytes();
    bytes[16] = number;
    Record::from_bytes(bytes)
}

#[test]
fn orders_are_their_bytes() {
    assert_eq!(Record::from_parts(true, SMALL, 4), ordered(0));
    assert_eq!(Record::from_parts(true, BY_CYLINDER, 4), ordered(1));
    for order in Order::ALL {
        let record = ordered(order.number());
        assert_eq!(record.parts(), (true, Geometry { order, ..SMALL }, 4));
    }
    for number in 2..=255 {
        let record = ordered(number);
        assert_eq!(record.parts(), (false, SMALL, 4));
        // as the library sees it, which leaves such a record alone
        let mut records = [record, Record::UNINITIALIZED];
        let (outcome, _) = go(&[0x89], &mut [], &mut records);
        assert_eq!(outcome.failed, Some(BlockAnswer::NotInitialized));
        assert_eq!(records[0], record);
    }
}

/// Logical 3 and 4 are places 3 and 12: the track of head 0 on cylinder 0 is followed by that on
/// cylinder 1.
#[test]
fn a_drive_by_cylinder() {
    let mut image = image();
    let mut records = [
        Record::from_parts(true, BY_CYLINDER, 0),
        Record::UNINITIALIZED,
    ];
    let write = [0x82, 0x10, 0, 0, 0, 0, 0, 3, 0, 2, 0, 0, 0, 100];
    let (outcome, _) = go(&write, &mut image, &mut records);
    assert_eq!((outcome.answer, outcome.sectors), (RunAnswer::Done, 2));
    assert_eq!(records[0].parts(), (true, BY_CYLINDER, 1));
    assert_eq!(inspect(&image, &[], &records, 0, 3), &[0x33; 64]);
    assert_eq!(inspect(&image, &[], &records, 0, 12), &[0x33; 64]);
    assert_ne!(inspect(&image, &[], &records, 0, 4), &[0x33; 64]);

    // From head 1 on cylinder 0 there are 40 sectors to the end of the volume.
    let (mut host, mut events) = (vec![0; 2800], [0; EVENTS_LEN_LEAST]);
    host[..14].copy_from_slice(&[0x81, 0, 0, 0, 0, 0, 1, 0, 0, 41, 0, 0, 0, 100]);
    let mut read = |count| {
        host[9] = count;
        run(
            &mut host,
            &mut image,
            &mut [],
            &mut events,
            &mut records,
            0,
            1,
        )
    };
    assert_eq!(read(41).failed, Some(BlockAnswer::SectorOutside));
    let outcome = read(40);
    assert_eq!((outcome.answer, outcome.sectors), (RunAnswer::Done, 40));
    assert_eq!(records[0].cylinder(), 9);
    assert_eq!(host[100..164], image[4 * 64..5 * 64]);
    assert_eq!(
        host[100 + 39 * 64..100 + 40 * 64],
        image[115 * 64..116 * 64]
    );
}

#[test]
fn an_initialize_takes_the_order() {
    for (attributes, geometry) in [
        (0x04, SMALL),
        (0xff, SMALL),
        (0x00, BY_CYLINDER),
        (0xfb, BY_CYLINDER),
    ] {
        let (mut host, mut events) = (host(), [0; EVENTS_LEN_LEAST]);
        host[1] = 0;
        host[56 + 14] = attributes;
        let mut records = [Record::UNINITIALIZED; 2];
        let outcome = run(&mut host, &mut [], &mut [], &mut events, &mut records, 0, 1);
        assert_eq!(outcome.answer, RunAnswer::Done);
        assert_eq!(records[0], Record::from_parts(true, geometry, 0));
    }
}

#[test]
fn answers_are_their_numbers() {
    for number in 0..=255 {
        let run = RunAnswer::from_number(number);
        assert_eq!(run.is_some(), number <= 6);
        assert!(run.is_none_or(|answer| answer.number() == number));
        let block = BlockAnswer::from_number(number);
        let given = (10..=20).contains(&number) || (22..=24).contains(&number);
        assert_eq!(block.is_some(), given);
        assert!(block.is_none_or(|answer| answer.number() == number));
    }
    let mut bytes = [0x02, 0x00, 0x00, 0x10, 4, 20, 0, 0, 0, 0, 0, 3, 0, 1, 0, 0];
    let outcome = Outcome::from_bytes(&bytes).unwrap();
    assert_eq!(outcome.failed, Some(BlockAnswer::Unreadable));
    assert_eq!((outcome.blocks, outcome.sectors), (3, 65_536));
    for (at, byte) in [
        (0, 1),
        (1, 1),
        (2, 1),
        (3, 12),
        (4, 7),
        (5, 9),
        (5, 21),
        (5, 25),
        (6, 1),
        (7, 1),
    ] {
        let old = std::mem::replace(&mut bytes[at], byte);
        assert_eq!(Outcome::from_bytes(&bytes), None);
        bytes[at] = old;
    }
}
