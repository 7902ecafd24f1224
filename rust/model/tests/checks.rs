//! The answers of a run and of a block, their order, and what each leaves.

mod common;
use common::*;
use model::*;

/// One block at address 0 that is to be refused: only its word 1 and its event entry change.
fn refusal(w: &mut World, b: &Block, answer: u8) {
    put_block(w, 0, b);
    let before = w.clone();
    let outcome = run(w, 0, 1);
    assert_eq!(
        outcome,
        Outcome {
            answer: 4,
            failed: answer,
            blocks: 1,
            sectors: 0
        }
    );
    let mut expected = before;
    put(&mut expected.host, 2, &[0x82, error_byte(answer)]);
    let (level, vector) = if b.interrupt() {
        (b.interrupt_level, b.error_vector)
    } else {
        (0, 0)
    };
    put(
        &mut expected.events,
        0,
        &[0x82, error_byte(answer), level, vector, 0, 0, 0, 0],
    );
    assert_eq!(*w, expected);
}

#[test]
fn answers_1_2_3_in_order() {
    let refused = |answer| Outcome {
        answer,
        failed: 0,
        blocks: 0,
        sectors: 0,
    };
    let mut w = world(0);
    w.events.truncate(511);
    let before = w.clone();
    assert_eq!(run(&mut w, 1, 0), refused(1));
    w.events.push(0);
    assert_eq!(run(&mut w, 1, 0), refused(2));
    assert_eq!(run(&mut w, 1, 65), refused(2));
    assert_eq!(run(&mut w, 1, u32::MAX), refused(2));
    assert_eq!(run(&mut w, 1, 1), refused(3));
    assert_eq!(run(&mut w, 0, 64), refused(3));
    assert_eq!(w.host, before.host);

    let mut w = world(64);
    put_block(&mut w, 30, &block(0x86, 0));
    let before = w.clone();
    for first in [
        31,
        37,
        38,
        0xffff_fffe,
        0xffff_ffff,
        0xffff_ffe4,
        0xffff_ffe6,
    ] {
        assert_eq!(run(&mut w, first, 1), refused(3));
    }
    assert_eq!(w, before);
    assert_eq!(run(&mut w, 30, 64).answer, 0);
}

#[test]
fn answers_5_and_6() {
    for link in [1, 29, 2, 30, 0xffff_fffe, 0xffff_ffe4] {
        let mut w = world(28);
        put_block(
            &mut w,
            0,
            &Block {
                linked_block_address: link,
                ..block(0x86, LK)
            },
        );
        let mut again = w.clone();
        assert_eq!(
            run(&mut w, 0, 2),
            Outcome {
                answer: 5,
                failed: 0,
                blocks: 1,
                sectors: 0
            }
        );
        // "6 before 5"
        assert_eq!(
            run(&mut again, 0, 1),
            Outcome {
                answer: 6,
                failed: 0,
                blocks: 1,
                sectors: 0
            }
        );
        assert_eq!(w, again);
    }
}

#[test]
fn failed_link_is_not_followed() {
    let mut w = world(100);
    put_block(
        &mut w,
        0,
        &Block {
            linked_block_address: 40,
            ..block(0x86, LK)
        },
    );
    put_block(
        &mut w,
        40,
        &Block {
            linked_block_address: 70,
            ..block(0x83, LK)
        },
    );
    put_block(&mut w, 70, &block(0x86, 0));
    let before = w.clone();
    assert_eq!(
        run(&mut w, 0, 64),
        Outcome {
            answer: 4,
            failed: 10,
            blocks: 2,
            sectors: 0
        }
    );
    assert_eq!(w.host[70..], before.host[70..]);
    assert_eq!(w.host[42..44], [0x82, 0x14]);
    assert_eq!(event(&w, 3), [0xdd; 8]);
}

#[test]
fn allowance_of_64_fills_the_events() {
    let mut w = world(28);
    w.events = vec![0xdd; 513];
    put_block(&mut w, 0, &block(0x86, LK));
    assert_eq!(
        run(&mut w, 0, 64),
        Outcome {
            answer: 6,
            failed: 0,
            blocks: 64,
            sectors: 0
        }
    );
    assert_eq!(event(&w, 64), [0x80, 0, 0, 0, 0, 0, 0, 0]);
    assert_eq!(w.events[512], 0xdd);
}

#[test]
fn only_the_ten_commands_are_listed() {
    for command in 0..=255 {
        let mut w = world(100);
        w.records[0] = unready();
        let b = Block {
            interrupt_level: 9,
            normal_vector: 8,
            error_vector: 7,
            buffer_address: 1,
            ..block(command, IE)
        };
        match command {
            0x86 => assert_eq!(one(&mut w, &b), 0),
            0x87 => refusal(&mut w, &b, 12),
            0x81 | 0x82 | 0x85 | 0x89 | 0x8a | 0x8c | 0xa1 | 0xa2 => refusal(&mut w, &b, 11),
            _ => refusal(&mut w, &b, 10),
        }
    }
}

#[test]
fn records_that_count_as_not_initialized() {
    let outside = Geometry {
        sectors_a_track: 256,
        ..small()
    };
    for record in [
        unready(),
        Record {
            cylinder: 10,
            ..ready()
        },
        Record {
            cylinder: 65535,
            ..ready()
        },
        Record {
            geometry: outside,
            ..ready()
        },
    ] {
        let mut w = world(100);
        w.records[0] = record;
        refusal(&mut w, &block(0x89, 0), 11);
        assert_eq!(one(&mut w, &block(0x86, 0)), 0);
        assert_eq!(w.records[0], record);
        put(&mut w.host, 40, &SMALL_UIB);
        assert_eq!(
            one(
                &mut w,
                &Block {
                    buffer_address: 40,
                    ..block(0x87, 0)
                }
            ),
            0
        );
        assert_eq!(w.records[0], ready());
        assert_eq!(travel(&w, 1), 0);
    }
    let mut w = world(100);
    w.records[0].cylinder = 9;
    assert_eq!(one(&mut w, &block(0x89, 0)), 0);
    assert_eq!(travel(&w, 1), -9);
    assert_eq!(event(&w, 1)[4..], [0xff, 0xff, 0xff, 0xf7]);
}

#[test]
fn uib_12_and_13() {
    let b = |address| Block {
        buffer_address: address,
        ..block(0x87, UN)
    };
    for address in [41, 83, 84, 0xffff_fffe, 0xffff_ffee] {
        refusal(&mut world(100), &b(address), 12);
    }
    refusal(&mut world(100), &b(82), 13);
    let mut w = world(100);
    put(&mut w.host, 82, &SMALL_UIB);
    assert_eq!(one(&mut w, &b(82)), 0);
    assert_eq!(w.records, [ready(), ready()]);
}

#[test]
fn volume_absent_14_before_count_15() {
    for command in [0x81, 0x82, 0xa1, 0xa2] {
        let mut w = world(100);
        refusal(&mut w, &block(command, VO), 15);
        refusal(&mut w, &logical(command, 0, 1000, 0, 1), 15);
        w.records[0].geometry.volumes[1].heads = 0;
        refusal(&mut w, &block(command, VO), 14);
        refusal(&mut w, &block(command, 0), 15);
    }
    let mut w = world(100);
    w.records[0].geometry.volumes[1].heads = 0;
    refusal(&mut w, &block(0x8a, VO), 14);
    // 8C ignores VO, 89 has no volume.
    assert_eq!(one(&mut w, &block(0x89, VO)), 0);
    assert_eq!(
        one(
            &mut w,
            &Block {
                buffer_address: 28,
                ..block(0x8c, VO)
            }
        ),
        0
    );
}

#[test]
fn physical_addresses_part_by_part() {
    let outside = [
        ((10, 0, 0), 0),
        ((0, 2, 0), 0),
        ((0, 0, 4), 0),
        ((9, 1, 4), 0),
        ((0, 1, 0), VO),
        ((0, 2, 0), VO),
        ((65535, 255, 255), 0),
    ];
    for (at, options) in outside {
        for command in [0x81, 0x82, 0x8a, 0xa1, 0xa2] {
            refusal(&mut world(300), &physical(command, options, at, 1, 100), 16);
        }
    }
    // The last sector as well; 8A looks at the one address only.
    refusal(&mut world(300), &physical(0x81, 0, (9, 1, 3), 2, 100), 16);
    assert_eq!(
        one(&mut world(300), &physical(0x81, 0, (9, 1, 3), 1, 100)),
        0
    );
    assert_eq!(
        one(&mut world(300), &physical(0x8a, 0, (9, 1, 3), 2, 100)),
        0
    );
    assert_eq!(one(&mut world(300), &physical(0x8a, 0, (9, 1, 3), 0, 1)), 0);
    refusal(&mut world(300), &logical(0x8a, 0, 80, 0, 0), 16);
    refusal(&mut world(300), &logical(0x8a, VO, 40, 0, 0), 16);
}

#[test]
fn physical_and_logical_are_the_same_sectors() {
    for volume in [0, 1] {
        let options = if volume == 1 { VO } else { 0 };
        for n in 0..small().volume_sectors(volume) - 2 {
            let a = small().address(volume, n).unwrap();
            let mut by_number = world(300);
            let mut by_parts = world(300);
            assert_eq!(
                one(&mut by_number, &logical(0x81, options, n as u32, 3, 100)),
                0
            );
            let at = (a.cylinder as u16, a.head as u8, a.sector as u8);
            assert_eq!(one(&mut by_parts, &physical(0x81, options, at, 3, 100)), 0);
            assert_eq!(by_number.host[100..], by_parts.host[100..]);
            assert_eq!(by_number.records, by_parts.records);
            assert_eq!(by_number.events, by_parts.events);
        }
    }
}

#[test]
fn seek_and_restore() {
    let mut w = world(100);
    assert_eq!(one(&mut w, &logical(0x8a, VO, 39, 0, 1)), 0);
    assert_eq!((w.records[0].cylinder, travel(&w, 1)), (9, 9));
    assert_eq!(one(&mut w, &physical(0x8a, 0, (4, 1, 3), 0, 1)), 0);
    assert_eq!((w.records[0].cylinder, travel(&w, 1)), (4, -5));
    assert_eq!(one(&mut w, &block(0x86, 0)), 0);
    assert_eq!((w.records[0].cylinder, travel(&w, 1)), (4, 0));
    assert_eq!(one(&mut w, &block(0x89, 0)), 0);
    assert_eq!((w.records[0].cylinder, travel(&w, 1)), (0, -4));
}

#[test]
fn sums_that_would_wrap_32_bits() {
    // The last logical number plus a count.
    refusal(&mut world(300), &logical(0x81, 0, 0xffff_ffff, 2, 100), 16);
    refusal(&mut world(300), &logical(0x81, 0, 0xffff_ffff, 1, 100), 16);
    refusal(
        &mut world(300),
        &logical(0x82, 0, 0xffff_0002, 0xffff, 100),
        16,
    );
    // A buffer whose end wraps to 0 or beyond.
    for address in [0xffff_fffe, 0xffff_ffc0, 0xffff_ffc2] {
        for command in [0x81, 0x82, 0x8c] {
            refusal(&mut world(300), &logical(command, 0, 0, 1, address), 19);
        }
    }
    // A list whose end wraps.
    for address in [0xffff_fff8, 0xffff_fffa] {
        let mut b = logical(0xa1, 0, 0, 1, address);
        b.element_count = 1;
        refusal(&mut world(300), &b, 18);
        b.element_count = 64;
        refusal(&mut world(300), &b, 18);
    }
    // An element's range that wraps.
    let mut w = world(300);
    put_element(&mut w, 100, 64, 0xffff_ffc0);
    let mut b = logical(0xa2, 0, 0, 1, 100);
    b.element_count = 1;
    refusal(&mut w, &b, 19);
    // A sum of byte counts that would wrap 16 bits to count × B.
    let mut w = world(300);
    put_element(&mut w, 100, 0xfffe, 120);
    put_element(&mut w, 108, 66, 120);
    b.element_count = 2;
    refusal(&mut w, &b, 18);
}

#[test]
fn data_addresses_19() {
    for command in [0x81, 0x82] {
        assert_eq!(one(&mut world(228), &logical(command, 0, 0, 2, 100)), 0);
        refusal(&mut world(228), &logical(command, 0, 0, 2, 101), 19);
        refusal(&mut world(228), &logical(command, 0, 0, 2, 102), 19);
        refusal(&mut world(227), &logical(command, 0, 0, 2, 100), 19);
    }
    // 8C takes B bytes whatever the count says.
    assert_eq!(one(&mut world(164), &logical(0x8c, 0, 0, 500, 100)), 0);
    refusal(&mut world(163), &logical(0x8c, 0, 0, 0, 100), 19);
    refusal(&mut world(300), &logical(0x8c, 0, 0, 0, 101), 19);
}

#[test]
fn lists_18_before_19() {
    let list = |counts: [u16; 2], addresses: [u32; 2]| {
        let mut w = world(300);
        put_element(&mut w, 100, counts[0], addresses[0]);
        put_element(&mut w, 108, counts[1], addresses[1]);
        w
    };
    let b = |at| Block {
        element_count: 2,
        ..logical(0xa1, 0, 0, 1, at)
    };
    assert_eq!(one(&mut list([30, 34], [200, 240]), &b(100)), 0);
    refusal(&mut list([30, 34], [200, 240]), &b(101), 18);
    refusal(&mut list([30, 34], [200, 240]), &b(286), 18);
    refusal(&mut list([0, 64], [200, 240]), &b(100), 18);
    refusal(&mut list([31, 33], [200, 240]), &b(100), 18);
    refusal(&mut list([30, 36], [200, 240]), &b(100), 18);
    refusal(&mut list([30, 32], [200, 240]), &b(100), 18);
    refusal(&mut list([30, 32], [201, 240]), &b(100), 18);
    refusal(&mut list([30, 34], [201, 240]), &b(100), 19);
    refusal(&mut list([30, 34], [200, 241]), &b(100), 19);
    assert_eq!(one(&mut list([30, 34], [200, 266]), &b(100)), 0);
    refusal(&mut list([30, 34], [200, 268]), &b(100), 19);
    // 17 comes before 18.
    let mut w = list([31, 33], [200, 240]);
    w.images[0].pop();
    refusal(&mut w, &b(100), 17);
}

#[test]
fn error_bytes() {
    let table = [
        0x14, 0x40, 0x62, 0x51, 0x21, 0xff, 0x16, 0xff, 0xff, 0x62, 0x13,
    ];
    for (k, byte) in table.iter().enumerate() {
        assert_eq!(error_byte(10 + k as u8), *byte);
    }
    assert_eq!(error_byte(0), 0x00);
    assert_eq!(error_byte(21), 0xff);
    assert_eq!((error_byte(22), error_byte(23)), (0xff, 0xff));
}

#[test]
fn block_layout() {
    let mut bytes = [0; 30];
    for k in 0..28 {
        bytes[k + 2] = k as u8 + 0x10;
    }
    let b = Block::read(&bytes, 2).unwrap();
    assert_eq!(b.bytes(), bytes[2..30]);
    assert_eq!(
        (b.command, b.options, b.status, b.error),
        (0x10, 0x11, 0x12, 0x13)
    );
    assert_eq!((b.cylinder, b.head, b.sector), (0x1415, 0x16, 0x17));
    assert_eq!(b.logical_sector(), 0x1415_1617);
    assert_eq!((b.sector_count, b.buffer_address), (0x1819, 0x1a1b_1c1d));
    assert_eq!(
        (b.interrupt_level, b.normal_vector, b.error_vector),
        (0x20, 0x21, 0x23)
    );
    assert_eq!(b.linked_block_address, 0x2425_2627);
    assert_eq!((b.skew, b.element_count), (0x2a, 0x2b));
    assert_eq!(Block::read(&bytes, 1), None);
    assert_eq!(Block::read(&bytes, 4), None);
}
