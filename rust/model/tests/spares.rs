//! Bad tracks and their spares, worked out on the small drive. The first sector of the track on
//! cylinder c and head h is place 12c + 4h, its first byte 64 times that.

mod common;
use common::*;
use model::*;

/// Where the sectors of a track begin in the image.
fn byte_of(at: At) -> usize {
    (at.0 as usize * 3 + at.1 as usize) * 4 * 64
}

/// The small drive with its heads on cylinder 0 and these pairs.
fn with_pairs(host_bytes: usize, pairs: &[(At, At)]) -> World {
    let mut w = world(host_bytes);
    w.records[0].table = table(pairs);
    w
}

/// An 87 with the small drive's UIB, which is put into memory for it.
fn initialize(w: &mut World) -> Block {
    put(&mut w.host, 40, &SMALL_UIB);
    Block {
        buffer_address: 40,
        ..block(0x87, 0)
    }
}

fn refused(w: &mut World, b: &Block, answer: u8) {
    put_block(w, 0, b);
    let mut expected = w.clone();
    put(&mut expected.host, 2, &[0x82, error_byte(answer)]);
    put(
        &mut expected.events,
        0,
        &[0x82, error_byte(answer), 0, 0, 0, 0, 0, 0],
    );
    assert_eq!(one(w, b), answer);
    assert_eq!(*w, expected);
}

#[test]
fn remap_adds_a_pair_and_does_nothing_else() {
    let mut w = world(100);
    w.records[0].cylinder = 6;
    w.images[0].clear();
    // VO, XL, the lower bytes of words 3 and 5 and word 6 say nothing.
    for (options, bad, spare) in [(0, (1, 0), (9, 2)), (VO | XL, (9, 1), (0, 0))] {
        let b = Block {
            sector: 0x77,
            buffer_address: spare.1 as u32 * 0x100_0000 + 0x88_9999,
            ..remap(options, bad, spare)
        };
        put_block(&mut w, 0, &b);
        let mut expected = w.clone();
        put(&mut expected.host, 2, &[0x80, 0x00]);
        put(&mut expected.events, 0, &[0x80, 0, 0, 0, 0, 0, 0, 0]);
        expected.records[0].table.add(Pair {
            bad: track(bad),
            spare: track(spare),
        });
        assert_eq!(one(&mut w, &b), 0);
        assert_eq!(w, expected);
    }
    assert_eq!(
        w.records[0].table,
        table(&[((1, 0), (9, 2)), ((9, 1), (0, 0))])
    );
    assert!(w.records[0].counts_as_initialized());
}

#[test]
fn remap_11_before_16() {
    let mut w = world(100);
    refused(&mut w, &remap(UN, (10, 0), (10, 0)), 11);
    for (bad, spare) in [
        ((10, 0), (1, 0)),
        ((0, 3), (1, 0)),
        ((1, 0), (10, 0)),
        ((1, 0), (0, 3)),
        ((65535, 255), (1, 0)),
        ((1, 0), (65535, 255)),
    ] {
        refused(&mut w, &remap(0, bad, spare), 16);
    }
    assert_eq!(one(&mut w, &remap(0, (9, 2), (0, 0))), 0);
}

#[test]
fn remap_16_before_22() {
    let mut w = with_pairs(100, &[((1, 0), (9, 2))]);
    refused(&mut w, &remap(0, (10, 0), (10, 0)), 16);
    refused(&mut w, &remap(0, (1, 0), (10, 0)), 16);
    refused(&mut w, &remap(0, (0, 3), (9, 2)), 16);
}

#[test]
fn remap_22_in_each_way() {
    let mut w = with_pairs(100, &[((1, 0), (9, 2)), ((2, 0), (8, 2))]);
    refused(&mut w, &remap(0, (5, 1), (5, 1)), 22);
    for taken in [(1, 0), (9, 2), (2, 0), (8, 2)] {
        refused(&mut w, &remap(0, taken, (5, 1)), 22);
        refused(&mut w, &remap(0, (5, 1), taken), 22);
    }
    assert_eq!(one(&mut w, &remap(0, (5, 1), (5, 0))), 0);
    refused(&mut w, &remap(0, (5, 0), (6, 0)), 22);
}

/// A drive of 22 cylinders: 66 tracks, of which 32 pairs leave two.
fn full(pairs: u16) -> World {
    let mut w = world(100);
    w.records[0].geometry.cylinders = 22;
    let track = |k: usize| Track::new((k / 3) as u16, (k % 3) as u8);
    w.records[0].table = Table::saying(pairs, |k| Pair {
        bad: track(2 * k),
        spare: track(2 * k + 1),
    });
    w
}

#[test]
fn remap_23_after_22() {
    let mut w = full(31);
    assert_eq!(one(&mut w, &remap(0, (20, 2), (21, 0))), 0);
    assert_eq!(w.records[0].table.pairs().len(), 32);
    assert!(w.records[0].counts_as_initialized());
    refused(&mut w, &remap(0, (21, 1), (21, 2)), 23);
    refused(&mut w, &remap(0, (21, 1), (21, 1)), 22);
    refused(&mut w, &remap(0, (21, 1), (20, 2)), 22);
    refused(&mut w, &remap(0, (21, 1), (22, 0)), 16);
}

#[test]
fn transfers_work_on_the_spare() {
    let mut w = with_pairs(300, &[((1, 0), (9, 2))]);
    let before = w.images[0].clone();
    // Logical 8 of volume 0 is the first sector on cylinder 1.
    assert_eq!(one(&mut w, &logical(0x82, 0, 8, 4, 40)), 0);
    assert_eq!((w.records[0].cylinder, travel(&w, 1)), (9, 9));
    let spare = byte_of((9, 2));
    assert_eq!(w.images[0][spare..spare + 256], w.host[40..296]);
    assert_eq!(w.images[0][..spare], before[..spare]);
    assert_eq!(w.images[0][spare + 256..], before[spare + 256..]);
    w.host[40..].fill(0);
    assert_eq!(one(&mut w, &physical(0x81, 0, (1, 0, 1), 3, 40)), 0);
    assert_eq!(w.host[40..232], w.images[0][spare + 64..spare + 256]);
    assert_eq!((w.records[0].cylinder, travel(&w, 1)), (9, 0));
    // Volume 1 has the spare as its logical 36, and it is itself there.
    let mut again = w.clone();
    assert_eq!(one(&mut again, &logical(0x81, VO, 37, 3, 40)), 0);
    assert_eq!(again.host[40..], w.host[40..]);
}

#[test]
fn each_sector_lands_by_itself() {
    // Head 0 of cylinder 1 is bad, head 1 is not; the span begins on cylinder 0 and ends on 1.
    let mut w = with_pairs(1000, &[((1, 0), (5, 2))]);
    let image = w.images[0].clone();
    assert_eq!(one(&mut w, &logical(0x81, 0, 6, 8, 40)), 0);
    let mut expected = image[byte_of((0, 1)) + 128..byte_of((0, 2))].to_vec();
    expected.extend_from_slice(&image[byte_of((5, 2))..byte_of((6, 0))]);
    expected.extend_from_slice(&image[byte_of((1, 1))..byte_of((1, 1)) + 128]);
    assert_eq!(w.host[40..40 + 512], expected);
    // The last sector is on no bad track.
    assert_eq!((w.records[0].cylinder, travel(&w, 1)), (1, 1));
}

#[test]
fn bad_track_and_its_spare_in_one_span() {
    // Both heads of cylinder 0 in one write of 8 sectors: the second 4 stand at last.
    let mut w = with_pairs(600, &[((0, 0), (0, 1))]);
    let before = w.images[0].clone();
    for k in 0..512 {
        w.host[40 + k] = (k / 64) as u8;
    }
    assert_eq!(one(&mut w, &logical(0x82, 0, 0, 8, 40)), 0);
    assert_eq!(w.images[0][..256], before[..256]);
    for sector in 0..4 {
        let at = 256 + 64 * sector;
        assert_eq!(w.images[0][at..at + 64], [4 + sector as u8; 64]);
    }
    // The other way round the bad track comes last.
    let mut w = with_pairs(600, &[((0, 1), (0, 0))]);
    assert_eq!(one(&mut w, &logical(0x82, 0, 0, 8, 40)), 0);
    assert_eq!(w.images[0][..256], w.host[40 + 256..40 + 512]);
    assert_eq!(w.images[0][256..], before[256..]);
}

#[test]
fn marks_are_those_of_the_spare() {
    let mut w = with_pairs(400, &[((1, 0), (9, 2))]);
    // The marks of the bad track do not count.
    w.images[0][7680 + 12..7680 + 16].fill(1);
    assert_eq!(one(&mut w, &logical(0x81, 0, 8, 4, 40)), 0);
    w.images[0][7680 + 116 + 2] = 1;
    assert_eq!(one(&mut w, &logical(0x81, 0, 8, 4, 40)), 20);
    assert_eq!(w.records[0].cylinder, 9);
    assert_eq!(one(&mut w, &logical(0x81, DE, 8, 4, 40)), 0);
    assert_eq!(one(&mut w, &logical(0x82, 0, 8, 4, 40)), 0);
}

#[test]
fn format_fills_the_spare() {
    let mut w = with_pairs(200, &[((3, 2), (7, 1))]);
    let before = w.images[0].clone();
    let b = Block {
        cylinder: 3,
        head: 2,
        buffer_address: 40,
        ..block(0x8c, 0)
    };
    assert_eq!(one(&mut w, &b), 0);
    let spare = byte_of((7, 1));
    assert_eq!(w.images[0][spare..spare + 256], [0xee; 256]);
    assert_eq!(w.images[0][..spare], before[..spare]);
    assert_eq!(w.images[0][spare + 256..], before[spare + 256..]);
    assert_eq!(w.host[7..10], [3, 0, 4]);
    assert_eq!(w.host[4..7], [0, 3, 2]);
    assert_eq!((w.records[0].cylinder, travel(&w, 1)), (7, 7));
}

#[test]
fn seek_and_restore_with_a_table() {
    let mut w = with_pairs(100, &[((4, 1), (8, 2)), ((0, 0), (6, 0))]);
    assert_eq!(one(&mut w, &physical(0x8a, 0, (4, 1, 3), 0, 1)), 0);
    assert_eq!((w.records[0].cylinder, travel(&w, 1)), (8, 8));
    assert_eq!(one(&mut w, &physical(0x8a, 0, (4, 0, 3), 0, 1)), 0);
    assert_eq!((w.records[0].cylinder, travel(&w, 1)), (4, -4));
    // 89 names no track: cylinder 0, though its head 0 has a spare.
    assert_eq!(one(&mut w, &block(0x89, 0)), 0);
    assert_eq!((w.records[0].cylinder, travel(&w, 1)), (0, -4));
    assert_eq!(one(&mut w, &physical(0x8a, 0, (0, 0, 0), 0, 1)), 0);
    assert_eq!((w.records[0].cylinder, travel(&w, 1)), (6, 6));
    // The spare itself, by its own name.
    assert_eq!(one(&mut w, &logical(0x8a, VO, 32, 0, 1)), 0);
    assert_eq!((w.records[0].cylinder, travel(&w, 1)), (8, 2));
}

#[test]
fn lists_land_as_well() {
    let mut w = with_pairs(400, &[((1, 0), (9, 2))]);
    put_element(&mut w, 40, 30, 100);
    put_element(&mut w, 48, 98, 140);
    let b = |command| Block {
        element_count: 2,
        ..logical(command, 0, 9, 2, 40)
    };
    assert_eq!(one(&mut w, &b(0xa1)), 0);
    let from = byte_of((9, 2)) + 64;
    assert_eq!(w.host[100..130], w.images[0][from..from + 30]);
    assert_eq!(w.host[140..238], w.images[0][from + 30..from + 128]);
    put(&mut w.host, 140, &[0x5a; 98]);
    assert_eq!(one(&mut w, &b(0xa2)), 0);
    assert_eq!(w.images[0][from + 30..from + 128], [0x5a; 98]);
}

#[test]
fn sixteen_goes_by_the_address_named() {
    // Heads 0 and 1 are volume 0's, head 3 is volume 1's, head 2 is nobody's.
    let mut w = world(200);
    w.records[0].geometry.volumes[1].start_head = 3;
    w.images[0] = vec![7; 10 * 4 * 4 * 65];
    w.images[0][10 * 4 * 4 * 64..].fill(0);
    w.records[0].table = table(&[((0, 0), (5, 2)), ((0, 1), (6, 3)), ((7, 3), (0, 2))]);
    for (options, at, cylinder) in [(0, (0, 0, 3), 5), (0, (0, 1, 0), 6), (VO, (7, 0, 2), 0)] {
        assert_eq!(one(&mut w, &physical(0x82, options, at, 1, 100)), 0);
        assert_eq!(w.records[0].cylinder, cylinder);
    }
    refused(&mut w, &physical(0x81, 0, (5, 2, 0), 1, 100), 16);
    refused(&mut w, &physical(0x81, VO, (7, 3, 0), 1, 100), 16);
    refused(&mut w, &physical(0x81, 0, (10, 0, 0), 1, 100), 16);
}

#[test]
fn initialize_clears_the_table() {
    let mut w = with_pairs(100, &[((1, 0), (9, 2))]);
    let b = initialize(&mut w);
    assert_eq!(one(&mut w, &b), 0);
    assert_eq!(w.records[0], ready());
    w.host[52] = 0xff;
    w.records[0].table = table(&[((1, 0), (9, 2))]);
    refused(&mut w, &b, 13);
}

/// A table with one pair that counts, and something else in the rest of its room.
fn with_more_past_the_pair() -> Table {
    Table::standing(1, |k| match k {
        0 => table(&[((1, 0), (9, 2))]).pairs()[0],
        _ => Pair {
            bad: Track::new(0x5a5a, k as u8),
            spare: Track::new(1, 0),
        },
    })
}

#[test]
fn initialize_clears_the_room_past_the_pairs() {
    let mut w = world(100);
    w.records[0].table = with_more_past_the_pair();
    let b = initialize(&mut w);
    assert_eq!(one(&mut w, &b), 0);
    assert_eq!(w.records[0], ready());
    // no pair counts, and one byte of the room is another
    w.records[0].table = Table::standing(0, |k| Pair {
        bad: track((0, 0)),
        spare: track((0, (k == 31) as u8)),
    });
    assert_ne!(w.records[0], ready());
    assert_eq!(one(&mut w, &b), 0);
    assert_eq!(w.records[0], ready());
}

/// What stands past the pairs that count is judged by nobody, and every other block leaves it.
#[test]
fn the_room_past_the_pairs_stays_without_an_initialize() {
    let mut w = world(100);
    w.records[0].table = with_more_past_the_pair();
    assert!(w.records[0].counts_as_initialized());
    let before = *w.records[0].table.room();
    assert_eq!(one(&mut w, &block(0x89, 0)), 0);
    assert_eq!(*w.records[0].table.room(), before);
    assert_eq!(one(&mut w, &remap(0, (2, 0), (8, 2))), 0);
    let after = w.records[0].table;
    assert_eq!(
        after.pairs(),
        table(&[((1, 0), (9, 2)), ((2, 0), (8, 2))]).pairs()
    );
    assert_eq!(after.room()[2..], before[2..]);
}

#[test]
fn tables_that_no_record_can_have() {
    let one_pair = table(&[((1, 0), (9, 2))]);
    let mut bad = vec![
        table(&[((10, 0), (9, 2))]),
        table(&[((1, 0), (9, 3))]),
        table(&[((1, 0), (1, 0))]),
        table(&[((1, 0), (9, 2)), ((1, 0), (8, 2))]),
        table(&[((1, 0), (9, 2)), ((2, 0), (9, 2))]),
        table(&[((1, 0), (9, 2)), ((9, 2), (8, 2))]),
        table(&[((1, 0), (9, 2)), ((2, 0), (1, 0))]),
    ];
    for at_bad in [false, true] {
        let mut pair = one_pair.pairs()[0];
        let track = if at_bad {
            &mut pair.bad
        } else {
            &mut pair.spare
        };
        track.last = 1;
        bad.push(Table::saying(1, |_| pair));
    }
    for table in bad {
        let mut w = world(100);
        w.records[0].table = table;
        assert!(!w.records[0].counts_as_initialized());
        for command in [0x81, 0x82, 0x85, 0x89, 0x8a, 0x8c, 0xa1, 0xa2] {
            refused(&mut w, &block(command, 0), 11);
        }
        assert_eq!(inspect(&w.records, [7800, 0], 0, 12).bytes, 0);
        let b = initialize(&mut w);
        assert_eq!(one(&mut w, &b), 0);
        assert_eq!(w.records[0], ready());
    }
    assert!(full(32).records[0].counts_as_initialized());
    for many in [33, 34, 65535] {
        let mut w = full(32);
        let old = w.records[0].table;
        w.records[0].table = Table::saying(many, |k| old.pairs()[k]);
        refused(&mut w, &block(0x89, 0), 11);
    }
}

#[test]
fn inspection_goes_by_place() {
    let w = with_pairs(0, &[((1, 0), (9, 2))]);
    for place in [12, 116] {
        let part = inspect(&w.records, [7800, 0], 0, place);
        assert_eq!((part.at, part.bytes), (place * 64, 64));
    }
}

#[test]
fn remap_touches_its_block_alone() {
    let mut w = with_pairs(100, &[]);
    put_block(&mut w, 0, &remap(0, (1, 0), (9, 2)));
    let (_, trace) = run_traced(&mut w, 0, 1);
    let footprint = trace.footprint(&w.host);
    for at in 0..100 {
        assert_eq!(footprint.read[at], at < 28);
        assert_eq!(footprint.written[at], at == 2 || at == 3);
    }
    assert_eq!(footprint.units, [true, false]);
}

#[test]
fn what_a_trace_says_of_a_landing() {
    let mut w = with_pairs(600, &[((0, 0), (0, 1)), ((1, 0), (9, 2))]);
    w.images[0][7680] = 1;
    put_block(&mut w, 0, &logical(0x81, 0, 2, 7, 40));
    let (_, trace) = run_traced(&mut w, 0, 1);
    let landing = trace.blocks[0].landing;
    assert!(landing.on_spare && landing.in_part && landing.with_its_spare);
    assert!(landing.in_other_volume && landing.heads_elsewhere && landing.spare_named);
    assert!(!landing.in_no_volume && !landing.stopped_on_spare && !landing.bad_mark_passed);
    assert_eq!((landing.pairs, landing.by_pair), (2, Some(1)));
    put_block(&mut w, 0, &remap(0, (5, 0), (9, 2)));
    let (_, trace) = run_traced(&mut w, 0, 1);
    assert_eq!(trace.blocks[0].taken, Some(Taken::SpareIsSpare));
}

/// No track is bad and spare at once, so that to land twice is to land once.
#[test]
fn landing_on_a_spare_ends_there() {
    let record = full(32).records[0];
    assert!(record.counts_as_initialized());
    for cylinder in 0..22 {
        for head in 0..3 {
            let named = Track::new(cylinder, head);
            let landed = record.landed(named);
            assert_eq!(record.landed(landed), landed);
            assert_eq!(
                landed != named,
                (cylinder * 3 + head as u16).is_multiple_of(2) && cylinder < 21
            );
        }
    }
}

/// Every address of a drive that is on no spare has a place of its own, and with it its bytes and its
/// mark; a spare that is named has that of the bad track.
#[test]
fn no_two_sectors_in_one_place() {
    let two = with_pairs(0, &[((1, 0), (9, 2)), ((3, 1), (0, 2))]).records[0];
    for record in [two, full(31).records[0], full(32).records[0]] {
        let mut taken = vec![false; record.geometry.drive_sectors() as usize];
        let (mut own, mut met) = (0, 0);
        for cylinder in 0..record.geometry.cylinders {
            for head in 0..3 {
                for sector in 0..4 {
                    let named = Track::new(cylinder, head);
                    let found = record.find_on_track(named, sector).expect("on the drive");
                    assert_eq!(found.marked, found.place);
                    if record.table.has_spare(named) {
                        met += 1;
                        continue;
                    }
                    assert!(!std::mem::replace(&mut taken[found.place as usize], true));
                    own += 1;
                }
            }
        }
        let pairs = record.table.pairs();
        assert_eq!(met, 4 * pairs.len());
        assert_eq!(own, taken.len() - met);
        for pair in pairs {
            for sector in 0..4 {
                let place = |track| record.find_on_track(track, sector).expect("on it").place;
                assert_eq!(place(pair.spare), place(pair.bad));
                assert!(taken[place(pair.spare) as usize]);
            }
        }
    }
}
